//! The claim and the assignment; and changes that a record survives.

use super::{damage, Damage, Way};
use crate::draft::{assignment_length, Body, Draft};
use crate::random::Random;
use planner::{MOST_VARIABLES, NONE};

pub const PLANS: &[Damage] = &[
    damage(
        "accepted variable that nothing mentions",
        Way::Draft(|draft, _| spare_variable(draft, false)),
    ),
    damage("accepted clause repeated", Way::Draft(repeated_clause)),
    damage("accepted step repeated", Way::Draft(repeated_step)),
    damage("accepted cost step inserted", Way::Draft(inserted_cost)),
    damage("10 bit flipped", Way::Draft(broken_by_a_bit)),
    damage("10 other assignment", Way::Draft(broken_assignment)),
    damage("10 clause added", Way::Draft(broken_clause_added)),
    damage("11 claim off by one", Way::Draft(claim_off_by_one)),
    damage("11 claim of another size", Way::Draft(claim_elsewhere)),
    damage("11 cost changed", Way::Draft(cost_changed)),
];

/// A variable of cost 1 outside every clause. Made true, it puts the claim one above the last bound.
pub fn spare_variable(draft: &mut Draft, value: bool) -> Option<()> {
    let variables = draft.variables() + 1;
    if variables > MOST_VARIABLES || (value && draft.claim == NONE) {
        return None;
    }
    draft.costs.push(1);
    draft.assignment.resize(assignment_length(variables), 0);
    if value {
        draft.flip(variables)?;
        draft.claim += 1;
    }
    Some(())
}

fn repeated_clause(draft: &mut Draft, random: &mut Random) -> Option<()> {
    let clause = random.pick(&draft.clauses)?.clone();
    draft.clauses.push(clause);
    Some(())
}

fn repeated_step(draft: &mut Draft, random: &mut Random) -> Option<()> {
    let place = random.below(draft.steps.len().max(1));
    let step = draft.steps.get(place)?.clone();
    draft.insert(place, step);
    Some(())
}

fn inserted_cost(draft: &mut Draft, random: &mut Random) -> Option<()> {
    let variable = random.between(1, draft.variables()) as u16;
    let body = Body::cost(draft, vec![2 * variable + random.below(2) as u16]);
    draft.insert(random.below(draft.steps.len().max(1)), body.bytes());
    Some(())
}

/// The claim follows the assignment, so that the broken clause is the only fault before the steps.
fn broken_by_a_bit(draft: &mut Draft, random: &mut Random) -> Option<()> {
    if draft.claim == NONE {
        return None;
    }
    let first = random.below(draft.variables());
    for turn in 0..draft.variables().min(16) {
        let variable = (first + turn) % draft.variables() + 1;
        draft.flip(variable)?;
        if !draft.satisfied() {
            draft.claim = draft.assignment_cost();
            return Some(());
        }
        draft.flip(variable)?;
    }
    None
}

/// Draws assignments until one does what is wanted; the claim follows.
pub fn redraw(
    draft: &mut Draft,
    random: &mut Random,
    wanted: fn(&Draft, u64) -> bool,
) -> Option<()> {
    let (least, before) = (draft.claim, draft.assignment.clone());
    for _ in 0..12 {
        for variable in 1..=draft.variables() {
            if random.percent(40) {
                draft.flip(variable)?;
            }
        }
        if wanted(draft, least) {
            draft.claim = draft.assignment_cost();
            return Some(());
        }
    }
    draft.assignment = before;
    None
}

fn broken_assignment(draft: &mut Draft, random: &mut Random) -> Option<()> {
    redraw(draft, random, |draft, _| !draft.satisfied())
}

fn broken_clause_added(draft: &mut Draft, random: &mut Random) -> Option<()> {
    if draft.claim == NONE {
        return None;
    }
    let variable = random.between(1, draft.variables());
    let code = 2 * variable as u16 + u16::from(draft.value(variable));
    let empty = random.percent(30);
    draft.clauses.push(if empty {
        Vec::new()
    } else {
        code.to_le_bytes().to_vec()
    });
    Some(())
}

fn claim_off_by_one(draft: &mut Draft, random: &mut Random) -> Option<()> {
    if draft.claim == NONE {
        return None;
    }
    let less = draft.claim > 0 && random.percent(50);
    draft.claim = if less {
        draft.claim - 1
    } else {
        draft.claim + 1
    };
    Some(())
}

fn claim_elsewhere(draft: &mut Draft, random: &mut Random) -> Option<()> {
    if draft.claim == NONE {
        return None;
    }
    let bit = 1 << random.between(16, 63);
    draft.claim = *random.pick(&[draft.claim ^ bit, NONE - 1, draft.claim ^ 1 << 32])?;
    Some(())
}

fn cost_changed(draft: &mut Draft, random: &mut Random) -> Option<()> {
    let first = random.below(draft.variables());
    let count = draft.variables();
    let places = (0..count).map(|turn| (first + turn) % count);
    let mut chosen = places.filter(|place| draft.value(place + 1));
    let place = chosen.next()?;
    draft.costs[place] = draft.costs[place].wrapping_add(1);
    Some(())
}
