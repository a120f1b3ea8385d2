//! Changes around steps of kind 5 that a record survives, some of them as large as can be.

use super::reweigh;
use crate::damage::heads::{resize_clauses, resize_variables};
use crate::damage::{damage, Damage, Way};
use crate::draft::{Body, Draft};
use crate::random::Random;
use crate::weights::steps::{insert, some_divisor, some_step};
use crate::weights::{branch, Weights, KIND};
use planner::{MOST_CLAUSES, MOST_VARIABLES};

pub const RECORDS: &[Damage] = &[
    damage("accepted weighted step inserted", Way::Draft(insert)),
    damage(
        "accepted divisor and weights doubled",
        Way::Step(KIND, doubled),
    ),
    damage("accepted weight split", Way::Draft(split)),
    damage("accepted weights alone", Way::Draft(weights_alone)),
    damage("accepted most clauses weighed", Way::Draft(most_clauses)),
    damage(
        "accepted most variables settled",
        Way::Draft(most_variables),
    ),
];

/// Both sides of the division double.
fn doubled(_: &Draft, _: u32, body: &mut Body, _: &mut Random) -> Option<()> {
    reweigh(body, |weights| {
        weights.divisor = weights.divisor.checked_mul(2)?;
        for (_, weight) in &mut weights.entries {
            *weight = weight.checked_mul(2)?;
        }
        Some(())
    })
}

/// A clause that a step weighs comes once more, at the end of the sheet, and takes a part of the weight.
fn split(draft: &mut Draft, random: &mut Random) -> Option<()> {
    if draft.clauses.len() >= MOST_CLAUSES {
        return None;
    }
    let place = *crate::damage::places(KIND, draft, random).first()?;
    let mut body = Body::read(&draft.steps[place])?;
    let fresh = draft.clauses.len() as u32 + 1;
    let mut clause = None;
    reweigh(&mut body, |weights| {
        let entry = random.below(weights.entries.len());
        let (number, weight) = weights.entries[entry];
        let part = random.between(1, usize::from(weight.max(2)) - 1) as u16;
        weights.entries[entry].1 = weight.checked_sub(part).filter(|rest| *rest > 0)?;
        weights.entries.push((fresh, part));
        clause = draft.clauses.get(number.checked_sub(1)? as usize).cloned();
        Some(())
    })?;
    draft.clauses.push(clause?);
    draft.steps[place] = body.bytes();
    Some(())
}

/// The record rests on branches that weights close.
fn weights_alone(draft: &mut Draft, random: &mut Random) -> Option<()> {
    let steps = branch::certificate(draft, random)?;
    if !steps.iter().any(|step| step.kind == KIND) {
        return None;
    }
    draft.steps = steps.iter().map(Body::bytes).collect();
    Some(())
}

/// A step that weighs as many clauses as there may be. It takes long to judge, so it comes less often than other changes.
fn most_clauses(draft: &mut Draft, random: &mut Random) -> Option<()> {
    if random.percent(60) {
        return None;
    }
    resize_clauses(draft, MOST_CLAUSES)?;
    let most = random.between(1, usize::from(u16::MAX)) as u16;
    let weight = *random.pick(&[1, u16::MAX, most])?;
    let entries = (1..=MOST_CLAUSES as u32).map(|number| (number, weight));
    let literals = some_step(draft, random)?.literals;
    let weights = Weights {
        divisor: some_divisor(random),
        entries: entries.collect(),
    };
    put(draft, &weights, literals, random)
}

/// A step that settles as many variables as there may be, many of which cost as much as one may.
fn most_variables(draft: &mut Draft, random: &mut Random) -> Option<()> {
    resize_variables(draft, MOST_VARIABLES, u32::MAX)?;
    let all = 1..=MOST_VARIABLES as u16;
    let as_true = random.percent(50);
    let code = |variable| 2 * variable + u16::from(as_true || random.percent(50));
    let literals = all.map(code).collect();
    let divisor = *random.pick(&[1, u16::MAX])?;
    let weights = Weights::read(&some_step(draft, random)?.tail)?;
    put(draft, &Weights { divisor, ..weights }, literals, random)
}

/// The step comes somewhere before the last.
fn put(
    draft: &mut Draft,
    weights: &Weights,
    literals: Vec<u16>,
    random: &mut Random,
) -> Option<()> {
    let body = weights.step(draft, literals)?.bytes();
    draft.insert(random.below(draft.steps.len().max(1)), body);
    Some(())
}
