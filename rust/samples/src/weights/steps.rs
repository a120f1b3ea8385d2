//! Good steps of kind 5 with weights, divisors, literals and clauses of many sorts, brought into records.

use super::{ascent, branch, Weights, KIND};
use crate::draft::{Body, Draft};
use crate::random::Random;
use planner::format::PAIR;

/// Brings steps of kind 5 into an accepted record, which stays accepted. Now and then the record rests on nothing else.
pub fn join(draft: &mut Draft, random: &mut Random) {
    if random.percent(25) {
        if let Some(steps) = branch::certificate(draft, random) {
            draft.steps = steps.iter().map(Body::bytes).collect();
        }
    }
    for _ in 0..random.below(4) {
        insert(draft, random);
    }
    if random.percent(25) {
        insert_resolved(draft, random);
    }
}

/// One step more, somewhere before the last.
pub fn insert(draft: &mut Draft, random: &mut Random) -> Option<()> {
    let step = some_step(draft, random)?;
    let place = random.below(draft.steps.len().max(1));
    draft.insert(place, step.bytes());
    Some(())
}

/// Steps of about so many bytes with their pairs, spread over the record but for its end.
pub fn fill(draft: &mut Draft, size: usize, random: &mut Random) {
    let mut left = size;
    let mut fresh = Vec::new();
    while left > 0 {
        let Some(step) = some_step(draft, random) else {
            break;
        };
        let body = step.bytes();
        left = left.saturating_sub(body.len() + PAIR);
        fresh.push((random.below(draft.steps.len().max(1)), body));
    }
    fresh.sort_by_key(|(place, _)| *place);
    draft.insert_all(fresh);
}

/// A good step; nothing where the sheet has no clause to cite.
pub fn some_step(draft: &Draft, random: &mut Random) -> Option<Body> {
    let literals = some_literals(draft, random);
    step_of(draft, literals, random)
}

/// A good step of these literals.
pub fn step_of(draft: &Draft, literals: Vec<u16>, random: &mut Random) -> Option<Body> {
    let weights = some_weights(draft, &literals, random)?;
    weights.step(draft, literals)
}

/// A good step without literals whose weights dual ascent chose, so that its bound comes near the claim; nothing where no clause
/// got a weight.
pub fn closest(draft: &Draft, random: &mut Random) -> Option<Body> {
    let divisor = some_divisor(random);
    let entries = ascent::entries(draft, &[], divisor, random);
    let weights = (!entries.is_empty()).then_some(Weights { divisor, entries })?;
    weights.step(draft, Vec::new())
}

/// Two steps that hold a variable in either way, one of them with weights at least, and what they resolve to.
fn insert_resolved(draft: &mut Draft, random: &mut Random) -> Option<()> {
    let pivot = random.between(1, draft.variables()) as u16;
    let mut rest = some_literals(draft, random);
    rest.retain(|code| code / 2 != pivot);
    let part = |code: u16, random: &mut Random| {
        let mut part = rest.clone();
        part.retain(|_| random.percent(70));
        part.push(code);
        part
    };
    let (up, down) = (part(2 * pivot, random), part(2 * pivot + 1, random));
    let mut resolvent: Vec<u16> = [&up[..], &down[..]].concat();
    resolvent.retain(|code| code / 2 != pivot);
    resolvent.sort_unstable();
    resolvent.dedup();
    let up = step_of(draft, up, random)?;
    let down = if random.percent(30) {
        Body::cost(draft, down)
    } else {
        step_of(draft, down, random)?
    };
    let place = random.below(draft.steps.len().max(1));
    let resolved = branch::resolution([(&up, place + 1), (&down, place + 2)], pivot, resolvent);
    let bodies = [up, down, resolved].map(|body| (place, body.bytes()));
    draft.insert_all(bodies.into());
    Some(())
}

/// Settles none, few, many or all of the variables, against the assignment or with it.
fn some_literals(draft: &Draft, random: &mut Random) -> Vec<u16> {
    let variables = 1..=draft.variables() as u16;
    let any = |variable: u16, random: &mut Random| 2 * variable + random.below(2) as u16;
    match random.below(10) {
        0..=2 => Vec::new(),
        3..=5 => {
            let share = random.between(1, 5) * 100 / draft.variables().max(5);
            let some = variables.filter(|_| random.percent(share.max(1)));
            let some: Vec<u16> = some.collect();
            some.into_iter().map(|v| any(v, random)).collect()
        }
        // Settled as the assignment has it, so that the bound has something to do with the claim.
        6..=7 => {
            let some = variables.filter(|_| random.percent(60));
            some.map(|v| 2 * v + u16::from(draft.value(usize::from(v))))
                .collect()
        }
        8 => variables.map(|v| any(v, random)).collect(),
        _ => variables.map(|v| 2 * v + 1).collect(),
    }
}

/// Weights chosen at random, or by dual ascent.
fn some_weights(draft: &Draft, literals: &[u16], random: &mut Random) -> Option<Weights> {
    let divisor = some_divisor(random);
    let mut entries = Vec::new();
    if random.percent(40) {
        entries = ascent::entries(draft, literals, divisor, random);
    }
    if entries.is_empty() {
        let sort = random.below(5);
        let cited = some_clauses(draft, random).into_iter();
        let weighed = cited.map(|number| (number, some_weight(sort, draft, number, random)));
        entries = weighed.collect();
    }
    (!entries.is_empty()).then_some(Weights { divisor, entries })
}

/// 1, small ones, and both ends.
pub fn some_divisor(random: &mut Random) -> u16 {
    let any = random.between(1, usize::from(u16::MAX)) as u16;
    let small = random.between(2, 12) as u16;
    [1, 1, 2, 3, small, small, any, u16::MAX][random.below(8)]
}

fn some_weight(sort: usize, draft: &Draft, number: u32, random: &mut Random) -> u16 {
    let clause = draft.clause(number).unwrap_or_default();
    let cost = random.pick(&clause).map_or(1, |code| draft.cost_of(*code));
    let near = (cost + 1).saturating_sub(random.below(3) as u64);
    match sort {
        0 => 1,
        1 => random.between(1, 6) as u16,
        2 => random.between(1, usize::from(u16::MAX)) as u16,
        3 => u16::MAX - random.below(2) as u16,
        // About the cost of one of the clause's variables, so that remainders come out around 0.
        _ => u16::try_from(near).unwrap_or(u16::MAX).max(1),
    }
}

/// One clause, some or all of them; mostly the empty one too, where the sheet has it.
fn some_clauses(draft: &Draft, random: &mut Random) -> Vec<u32> {
    let all = 1..=draft.clauses.len() as u32;
    let empty = draft.clauses.iter().position(Vec::is_empty);
    let empty = empty.filter(|_| random.percent(70));
    let share = [10, 30, 60, 100][random.below(4)];
    let one = random.between(1, draft.clauses.len().max(1)) as u32;
    let chosen = all.filter(|number| {
        let wanted = empty.is_some_and(|place| place as u32 + 1 == *number);
        wanted || *number == one || random.percent(share)
    });
    chosen.collect()
}

/// Whether a step is of this kind.
pub fn is_weighted(step: &[u8]) -> bool {
    step.first() == Some(&KIND)
}
