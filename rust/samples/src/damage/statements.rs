//! Copies and cost steps: literals and bounds that are not what they should be.

use super::{damage, places, Damage, Way};
use crate::draft::{Body, Draft};
use crate::random::Random;
use planner::NONE;

pub const STATEMENTS: &[Damage] = &[
    damage("12 literal missing", Way::Step(1, literal_missing)),
    damage("12 literal extra", Way::Step(1, literal_extra)),
    damage("12 literal negated", Way::Step(1, literal_negated)),
    damage("12 bound not none", Way::Step(1, copy_bound)),
    damage("12 other clause", Way::Step(1, other_clause)),
    damage("12 clause changed", Way::Draft(clause_changed)),
    damage("13 bound off by one", Way::Step(2, bound_off_by_one)),
    damage(
        "13 bound none",
        Way::Step(2, |_, _, body, _| set_bound(body, NONE)),
    ),
    damage(
        "13 bound of the positive literals",
        Way::Step(2, costs_of_positive),
    ),
    damage("13 bound of all literals", Way::Step(2, costs_of_all)),
    damage("13 bound in 32 bits", Way::Step(2, bound_in_32_bits)),
    damage(
        "13 literal negated",
        Way::Step(2, |d, n, b, r| bound_differs(d, n, b, r, literal_negated)),
    ),
    damage(
        "13 literal missing",
        Way::Step(2, |d, n, b, r| bound_differs(d, n, b, r, literal_missing)),
    ),
    damage(
        "13 literal extra",
        Way::Step(2, |d, n, b, r| bound_differs(d, n, b, r, literal_extra)),
    ),
];

/// Sets a bound that differs from the right one.
pub fn set_bound(body: &mut Body, bound: u64) -> Option<()> {
    if body.bound == bound {
        return None;
    }
    body.bound = bound;
    Some(())
}

pub fn bound_off_by_one(_: &Draft, _: u32, body: &mut Body, random: &mut Random) -> Option<()> {
    let less = body.bound == NONE || (body.bound > 0 && random.percent(50));
    body.bound = if less { body.bound - 1 } else { body.bound + 1 };
    Some(())
}

pub fn literal_missing(_: &Draft, _: u32, body: &mut Body, random: &mut Random) -> Option<()> {
    let code = *random.pick(&body.literals)?;
    body.remove(code);
    Some(())
}

/// Adds a literal of a variable that the step does not have yet.
pub fn literal_extra(draft: &Draft, _: u32, body: &mut Body, random: &mut Random) -> Option<()> {
    let code = (2 * random.between(1, draft.variables()) + random.below(2)) as u16;
    body.has_room_for(code).then(|| body.add(code))
}

pub fn literal_negated(_: &Draft, _: u32, body: &mut Body, random: &mut Random) -> Option<()> {
    let code = *random.pick(&body.literals)?;
    body.remove(code);
    body.add(code ^ 1);
    Some(())
}

fn copy_bound(draft: &Draft, _: u32, body: &mut Body, random: &mut Random) -> Option<()> {
    let bound = *random.pick(&[0, NONE - 1, draft.claim, u64::from(u32::MAX), 1 << 63])?;
    set_bound(body, bound)
}

fn other_clause(draft: &Draft, _: u32, body: &mut Body, random: &mut Random) -> Option<()> {
    let number = random.between(1, draft.clauses.len().max(1)) as u32;
    if draft.clause(number)? == body.literals {
        return None;
    }
    body.cite(0, number)
}

/// Widens a copied clause: whatever satisfied it still does, but the copy is none any more.
fn clause_changed(draft: &mut Draft, random: &mut Random) -> Option<()> {
    let code = (2 * random.between(1, draft.variables()) + random.below(2)) as u16;
    let mut tried = places(1, draft, random).into_iter();
    let (number, mut codes) = tried.find_map(|place| {
        let number = Body::read(&draft.steps[place])?.citation(0)?;
        let codes = draft.clause(number)?;
        let is_new = codes.iter().all(|other| other / 2 != code / 2);
        is_new.then_some((number, codes))
    })?;
    codes.push(code);
    codes.sort_unstable();
    draft.clauses[number as usize - 1] = crate::draft::code_bytes(&codes);
    Some(())
}

/// Changes the literals of a cost step where the old bound is wrong for the new ones.
fn bound_differs(
    draft: &Draft,
    own: u32,
    body: &mut Body,
    random: &mut Random,
    change: fn(&Draft, u32, &mut Body, &mut Random) -> Option<()>,
) -> Option<()> {
    change(draft, own, body, random)?;
    (sum(draft, body, |code| code % 2 == 1) != body.bound).then_some(())
}

/// The loss with the costs of the literals that count.
fn sum(draft: &Draft, body: &Body, counted: fn(u16) -> bool) -> u64 {
    let codes = body.literals.iter().filter(|code| counted(**code));
    let costs = codes.map(|code| draft.cost_of(*code));
    draft.standing_loss() + costs.sum::<u64>()
}

fn costs_of_positive(draft: &Draft, _: u32, body: &mut Body, _: &mut Random) -> Option<()> {
    let bound = sum(draft, body, |code| code % 2 == 0);
    set_bound(body, bound)
}

fn costs_of_all(draft: &Draft, _: u32, body: &mut Body, _: &mut Random) -> Option<()> {
    let bound = sum(draft, body, |_| true);
    set_bound(body, bound)
}

fn bound_in_32_bits(_: &Draft, _: u32, body: &mut Body, _: &mut Random) -> Option<()> {
    let bound = body.bound & u64::from(u32::MAX);
    set_bound(body, bound)
}
