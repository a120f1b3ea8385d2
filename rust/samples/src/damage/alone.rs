//! Records of one step without literals, of kind 2, 3 or 5: its bound is all that the claim is held to. One below the claim,
//! the claim itself and one above stand side by side; above it no good step can be.

use super::independence::right_bound;
use super::plans::spare_variable;
use super::statements::set_bound;
use super::{damage, Damage, Way};
use crate::draft::{codes, Body, Draft};
use crate::random::Random;
use crate::weights::steps::{closest, step_of};
use crate::weights::KIND;
use planner::NONE;
use std::cmp::Ordering;

/// How many steps are tried until one has the wanted bound.
const TRIES: usize = 8;

pub(super) const COST: u8 = 2;
pub(super) const INDEPENDENT: u8 = 3;

pub const ALONE: &[Damage] = &[
    damage(
        "accepted cost step alone",
        Way::Draft(|d, r| alone(COST, Ordering::Equal, d, r)),
    ),
    damage(
        "accepted independent set alone",
        Way::Draft(|d, r| alone(INDEPENDENT, Ordering::Equal, d, r)),
    ),
    damage(
        "accepted weighted step alone",
        Way::Draft(|d, r| alone(KIND, Ordering::Equal, d, r)),
    ),
    damage(
        "within cost step alone",
        Way::Draft(|d, r| alone(COST, Ordering::Less, d, r)),
    ),
    damage(
        "within independent set alone",
        Way::Draft(|d, r| alone(INDEPENDENT, Ordering::Less, d, r)),
    ),
    damage(
        "within weighted step alone",
        Way::Draft(|d, r| alone(KIND, Ordering::Less, d, r)),
    ),
    damage(
        "within cost step alone, one below the claim",
        Way::Draft(|d, r| one_below(COST, d, r)),
    ),
    damage(
        "within independent set alone, one below the claim",
        Way::Draft(|d, r| one_below(INDEPENDENT, d, r)),
    ),
    damage(
        "within weighted step alone, one below the claim",
        Way::Draft(|d, r| one_below(KIND, d, r)),
    ),
    damage(
        "19 cost step alone under none",
        Way::Draft(|d, r| under_none(COST, d, r)),
    ),
    damage(
        "19 independent set alone under none",
        Way::Draft(|d, r| under_none(INDEPENDENT, d, r)),
    ),
    damage(
        "19 weighted step alone under none",
        Way::Draft(|d, r| under_none(KIND, d, r)),
    ),
    damage(
        "13 cost step alone, about the claim",
        Way::Draft(|d, r| about_the_claim(COST, d, r)),
    ),
    damage(
        "15 independent set alone, about the claim",
        Way::Draft(|d, r| about_the_claim(INDEPENDENT, d, r)),
    ),
    damage(
        "24 weighted step alone, about the claim",
        Way::Draft(|d, r| about_the_claim(KIND, d, r)),
    ),
];

/// A good step of this kind without literals; nothing where the sheet has no clauses for it.
pub(super) fn good_step(kind: u8, draft: &Draft, random: &mut Random) -> Option<Body> {
    match kind {
        COST => Some(Body::cost(draft, Vec::new())),
        INDEPENDENT => independent(draft, random),
        _ if random.percent(50) => closest(draft, random),
        _ => step_of(draft, Vec::new(), random),
    }
}

/// Positive clauses, one after the other from a random one on, that share no variable with those before.
fn independent(draft: &Draft, random: &mut Random) -> Option<Body> {
    let count = draft.clauses.len();
    let first = random.below(count.max(1));
    let (mut cited, mut used): (Vec<u32>, Vec<u16>) = (Vec::new(), Vec::new());
    for place in (0..count).map(|turn| (first + turn) % count) {
        let clause = codes(&draft.clauses[place]);
        let free = |code: &u16| code.is_multiple_of(2) && !used.contains(code);
        if !clause.is_empty() && clause.iter().all(free) {
            cited.push(place as u32 + 1);
            used.extend(clause);
        }
    }
    cited.sort_unstable();
    let mut body = Body {
        kind: INDEPENDENT,
        spare: 0,
        literals: Vec::new(),
        bound: 0,
        tail: cited.into_iter().flat_map(u32::to_le_bytes).collect(),
    };
    body.bound = right_bound(draft, &body)?;
    (!body.tail.is_empty()).then_some(body)
}

/// The record's one step, with a bound that is below the claim or the claim.
fn alone(kind: u8, bound: Ordering, draft: &mut Draft, random: &mut Random) -> Option<()> {
    if draft.claim == NONE {
        return None;
    }
    for _ in 0..TRIES {
        let body = good_step(kind, draft, random)?;
        if body.bound.cmp(&draft.claim) == bound {
            draft.steps = vec![body.bytes()];
            return Some(());
        }
    }
    None
}

/// The same where the bound would be the claim, if the assignment did not pay 1 for nothing.
fn one_below(kind: u8, draft: &mut Draft, random: &mut Random) -> Option<()> {
    let mut changed = draft.clone();
    alone(kind, Ordering::Equal, &mut changed, random)?;
    spare_variable(&mut changed, true)?;
    *draft = changed;
    Some(())
}

fn under_none(kind: u8, draft: &mut Draft, random: &mut Random) -> Option<()> {
    let body = good_step(kind, draft, random)?;
    draft.claim = NONE;
    draft.assignment.fill(0);
    draft.steps = vec![body.bytes()];
    Some(())
}

/// One below the claim, the claim or one above is written down, where another bound is right.
fn about_the_claim(kind: u8, draft: &mut Draft, random: &mut Random) -> Option<()> {
    if draft.claim == NONE {
        return None;
    }
    let mut body = good_step(kind, draft, random)?;
    let written = draft.claim.checked_add_signed(*random.pick(&[-1, 0, 1])?)?;
    set_bound(&mut body, written)?;
    draft.steps = vec![body.bytes()];
    Some(())
}
