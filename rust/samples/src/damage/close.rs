//! The close: last bounds below the claim, which leave a gap where that is a cost and are refused where it is "none"; and last
//! steps with literals, which are refused whatever their bounds.

use super::heads::resize_variables;
use super::plans::{redraw, spare_variable};
use super::{damage, Damage, Way};
use crate::draft::{codes, Body, Draft};
use crate::random::Random;
use crate::weights::branch::{self, copy};
use crate::weights::steps::some_step;
use planner::{MOST_VARIABLES, NONE};
use std::cmp::Ordering;

pub const CLOSE: &[Damage] = &[
    damage("within dearer assignment", Way::Draft(dearer_assignment)),
    damage(
        "within dearer by one",
        Way::Draft(|draft, _| spare_variable(draft, true)),
    ),
    damage("within a gap over 32 bits", Way::Draft(wide_gap)),
    damage(
        "within record cut short",
        Way::Draft(|draft, random| cut_short(draft, random, false)),
    ),
    damage("within steps of a lower bound", Way::Draft(lower_bound)),
    damage(
        "within cost step after the close",
        Way::Draft(|draft, _| cost_after(draft, false)),
    ),
    damage(
        "within weighted step after the close",
        Way::Draft(|draft, random| weighted_after(draft, random, true)),
    ),
    damage("19 none claimed", Way::Draft(none_claimed)),
    damage(
        "19 record cut short under none",
        Way::Draft(|draft, random| cut_short(draft, random, true)),
    ),
    damage(
        "19 cost step after the close under none",
        Way::Draft(|draft, _| cost_after(draft, true)),
    ),
    damage(
        "19 weighted step after the close",
        Way::Draft(|draft, random| weighted_after(draft, random, false)),
    ),
    damage("19 last step left out", Way::Draft(last_left_out)),
    damage("19 step after the close", Way::Draft(step_after)),
    damage("19 copy after the close", Way::Draft(copy_after)),
    damage(
        "19 literals, bound one below the claim",
        Way::Draft(|draft, _| literals_after(draft, Ordering::Less)),
    ),
    damage(
        "19 literals, bound of the claim",
        Way::Draft(|draft, _| literals_after(draft, Ordering::Equal)),
    ),
    damage(
        "19 literals, bound one above the claim",
        Way::Draft(|draft, _| literals_after(draft, Ordering::Greater)),
    ),
];

fn dearer_assignment(draft: &mut Draft, random: &mut Random) -> Option<()> {
    redraw(draft, random, |draft, least| {
        draft.satisfied() && draft.assignment_cost() > least
    })
}

/// The dearest variables there may be, two of them at least, stand in no clause and are true.
fn wide_gap(draft: &mut Draft, random: &mut Random) -> Option<()> {
    let before = draft.variables();
    let most = MOST_VARIABLES
        .checked_sub(before)
        .filter(|most| *most > 1)?;
    if draft.claim == NONE {
        return None;
    }
    let count = *random.pick(&[2, 2, 3, most])?;
    resize_variables(draft, before + count.min(most), u32::MAX)?;
    for variable in before + 1..=draft.variables() {
        draft.flip(variable)?;
    }
    draft.claim = draft.assignment_cost();
    Some(())
}

/// Ends the record with an earlier step that has no literals, and a bound below the claim.
fn cut_short(draft: &mut Draft, random: &mut Random, under_none: bool) -> Option<()> {
    if (draft.claim == NONE) != under_none {
        return None;
    }
    let stops = |place: &usize| {
        let body = Body::read(&draft.steps[*place]);
        body.is_some_and(|body| body.literals.is_empty() && body.bound < draft.claim)
    };
    let places: Vec<usize> = (0..draft.steps.len()).filter(stops).collect();
    let last = *random.pick(&places)?;
    draft.steps.truncate(last + 1);
    Some(())
}

/// Branches that are closed for less than the claim, as in a search that was stopped.
fn lower_bound(draft: &mut Draft, random: &mut Random) -> Option<()> {
    let less = draft.claim.checked_sub(1).filter(|_| draft.claim != NONE)?;
    let lower = *random.pick(&[less, less - less / 4, draft.claim / 2, 1])?;
    let target = Draft {
        claim: lower,
        ..draft.clone()
    };
    let steps = branch::certificate(&target, random)?;
    let weaker = steps.last()?.bound < draft.claim;
    weaker.then(|| draft.steps = steps.iter().map(Body::bytes).collect())
}

/// The bound of the cost step without literals is the loss.
fn cost_after(draft: &mut Draft, under_none: bool) -> Option<()> {
    let weak = Body::cost(draft, Vec::new());
    let applies = draft.claim > weak.bound && (draft.claim == NONE) == under_none;
    applies.then(|| draft.steps.push(weak.bytes()))
}

/// A good step of kind 5 that leaves a gap, or one that closes nothing.
fn weighted_after(draft: &mut Draft, random: &mut Random, gap: bool) -> Option<()> {
    let body = some_step(draft, random)?;
    let open = !body.literals.is_empty() || draft.claim == NONE;
    let applies = if gap {
        !open && body.bound < draft.claim
    } else {
        open
    };
    applies.then(|| draft.steps.push(body.bytes()))
}

fn none_claimed(draft: &mut Draft, _: &mut Random) -> Option<()> {
    if draft.claim == NONE {
        return None;
    }
    draft.claim = NONE;
    draft.assignment.fill(0);
    Some(())
}

fn last_left_out(draft: &mut Draft, _: &mut Random) -> Option<()> {
    let before = draft.steps.len().checked_sub(2)?;
    let unclosed = !Body::read(&draft.steps[before])?.literals.is_empty();
    unclosed.then(|| draft.steps.truncate(before + 1))
}

fn step_after(draft: &mut Draft, random: &mut Random) -> Option<()> {
    let step = random.pick(&draft.steps)?.clone();
    let unclosed = !Body::read(&step)?.literals.is_empty();
    unclosed.then(|| draft.steps.push(step))
}

/// The bound is "none", as large as one can be.
fn copy_after(draft: &mut Draft, random: &mut Random) -> Option<()> {
    let place = random.below(draft.clauses.len().max(1));
    let unclosed = !codes(draft.clauses.get(place)?).is_empty();
    unclosed.then(|| draft.steps.push(copy(draft, place).bytes()))
}

/// A cost step of what the assignment pays for, with a new variable of cost 1 to be one off the claim: it is paid for and left
/// out, or not paid for and taken in.
fn literals_after(draft: &mut Draft, bound: Ordering) -> Option<()> {
    if draft.claim == NONE {
        return None;
    }
    let paid = (1..=draft.variables()).filter(|variable| draft.value(*variable));
    let mut literals: Vec<u16> = paid.map(|variable| 2 * variable as u16 + 1).collect();
    spare_variable(draft, bound == Ordering::Less)?;
    let spare = 2 * draft.variables() as u16;
    if bound == Ordering::Greater {
        literals.push(spare + 1);
    } else if literals.is_empty() {
        literals.push(spare);
    }
    draft.steps.push(Body::cost(draft, literals).bytes());
    Some(())
}
