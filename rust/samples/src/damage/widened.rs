//! Wider resolutions: changes that a record survives; last bounds that leave a gap, or are refused under "none"; further
//! literals that are left at the close, and such as are out of form.

use super::heads::with_most_variables;
use super::resolutions::further;
use super::{damage, places, Damage, Way};
use crate::draft::{Body, Draft};
use crate::random::Random;
use crate::widening::records::{carry, insert, some_bound, split, widen};
use crate::widening::{resolution_at, rested_on, KIND};
use planner::NONE;

/// How many literals are tried until one is left at the close, or is not.
const TRIES: usize = 12;

pub const WIDENED: &[Damage] = &[
    damage("accepted wider resolutions", Way::Draft(widen)),
    damage("accepted wider resolution inserted", Way::Draft(insert)),
    damage("accepted split on its pivot", Way::Draft(split_on_pivot)),
    damage(
        "accepted split on another variable",
        Way::Draft(split_on_another),
    ),
    damage("accepted close split", Way::Draft(close_split)),
    damage(
        "accepted resolution of every variable",
        Way::Draft(every_variable),
    ),
    damage(
        "accepted resolution of most variables",
        Way::Draft(most_variables),
    ),
    damage("accepted resolution of bound 0", Way::Draft(bound_zero)),
    damage(
        "accepted literal carried to its resolution",
        Way::Draft(|draft, random| carried(draft, random, false)),
    ),
    damage(
        "within last bound one less",
        Way::Draft(|draft, _| lower_last(draft, false, |most| most)),
    ),
    damage(
        "within last bound 0",
        Way::Draft(|draft, _| lower_last(draft, false, |_| 0)),
    ),
    damage(
        "within last bound less",
        Way::Draft(|draft, random| {
            lower_last(draft, false, |most| some_bound(0, most, random))?;
            // The steps before are free to state less now.
            widen(draft, random);
            Some(())
        }),
    ),
    damage(
        "within bound lowered on the way",
        Way::Draft(|draft, random| lower_on_the_way(draft, random, false)),
    ),
    damage(
        "19 last bound less under none",
        Way::Draft(|draft, random| lower_last(draft, true, |most| some_bound(0, most, random))),
    ),
    damage(
        "19 bound lowered on the way under none",
        Way::Draft(|draft, random| lower_on_the_way(draft, random, true)),
    ),
    damage("19 further literal at the close", Way::Draft(left_at_close)),
    damage("19 pivot kept at the close", Way::Draft(pivot_at_close)),
    damage(
        "19 literal carried to the close",
        Way::Draft(|draft, random| carried(draft, random, true)),
    ),
    damage("8 pivot kept both ways", Way::Step(KIND, pivot_both_ways)),
    damage("8 further literal twice", Way::Step(KIND, twice)),
    damage("8 further literal out of order", Way::Step(KIND, unsorted)),
    damage(
        "8 further literal past the last variable",
        Way::Step(KIND, |draft, _, body, random| {
            let past = 2 * draft.variables() + 2 + random.below(2);
            body.literals.push(past as u16);
            Some(())
        }),
    ),
];

/// A literal of a variable that the step does not hold.
fn some_further(draft: &Draft, body: &Body, random: &mut Random) -> Option<u16> {
    random.pick(&further(draft, body, 0)).copied()
}

fn split_on_pivot(draft: &mut Draft, random: &mut Random) -> Option<()> {
    let mut tried = places(KIND, draft, random).into_iter();
    tried.find_map(|place| {
        let pivot = resolution_at(draft, place)?.pivot()?;
        split(draft, place, pivot)
    })
}

fn split_on_another(draft: &mut Draft, random: &mut Random) -> Option<()> {
    let mut tried = places(KIND, draft, random).into_iter();
    tried.find_map(|place| {
        let body = resolution_at(draft, place)?;
        let variable = some_further(draft, &body, random)? / 2;
        let own = Some(variable) == body.pivot();
        (!own).then(|| split(draft, place, variable))?
    })
}

fn close_split(draft: &mut Draft, random: &mut Random) -> Option<()> {
    let last = draft.steps.len().checked_sub(1)?;
    let variable = some_further(draft, &resolution_at(draft, last)?, random)? / 2;
    split(draft, last, variable)
}

/// Some resolution once more, changed; nobody cites it.
fn once_more(
    draft: &mut Draft,
    random: &mut Random,
    change: impl FnOnce(&mut Body, &mut Random) -> Option<()>,
) -> Option<()> {
    let place = *places(KIND, draft, random).first()?;
    let mut body = resolution_at(draft, place)?;
    change(&mut body, random)?;
    draft.insert(place, body.bytes());
    Some(())
}

fn every_variable(draft: &mut Draft, random: &mut Random) -> Option<()> {
    let variables = draft.variables() as u16;
    once_more(draft, random, |body, random| {
        for variable in 1..=variables {
            let code = 2 * variable + random.below(2) as u16;
            if body.has_room_for(code) {
                body.add(code);
            }
        }
        Some(())
    })
}

/// The same of as many as a sheet may have.
fn most_variables(draft: &mut Draft, random: &mut Random) -> Option<()> {
    with_most_variables(draft, |larger| every_variable(larger, random))
}

fn bound_zero(draft: &mut Draft, random: &mut Random) -> Option<()> {
    once_more(draft, random, |body, _| {
        (body.bound > 0).then(|| body.bound = 0)
    })
}

/// The last step, a resolution, states less: `bound` tells its new bound from the most that this can be.
fn lower_last(draft: &mut Draft, under_none: bool, bound: impl FnOnce(u64) -> u64) -> Option<()> {
    let last = draft.steps.len().checked_sub(1)?;
    let mut body = resolution_at(draft, last)?;
    if (draft.claim == NONE) != under_none {
        return None;
    }
    body.bound = bound(body.bound.checked_sub(1)?);
    draft.steps[last] = body.bytes();
    Some(())
}

/// The places of the resolutions that the step at a place rests on.
fn under(draft: &Draft, place: usize, random: &mut Random) -> Vec<usize> {
    let found = rested_on(draft, place);
    let mut places = places(KIND, draft, random);
    places.retain(|place| found[*place]);
    places
}

/// A step that the last one rests on states less than the claim, and so do all that rest on it.
fn lower_on_the_way(draft: &mut Draft, random: &mut Random, under_none: bool) -> Option<()> {
    let last = draft.steps.len().checked_sub(1)?;
    let mut before = under(draft, last, random).into_iter();
    let place = before.find(|place| *place < last)?;
    if (draft.claim == NONE) != under_none {
        return None;
    }
    let mut changed = draft.clone();
    let mut body = resolution_at(draft, place)?;
    let most = body.bound.min(draft.claim).checked_sub(1)?;
    body.bound = some_bound(0, most, random);
    changed.steps[place] = body.bytes();
    carry(&mut changed)?;
    *draft = changed;
    Some(())
}

fn left_at_close(draft: &mut Draft, random: &mut Random) -> Option<()> {
    let last = draft.steps.len().checked_sub(1)?;
    let mut body = resolution_at(draft, last)?;
    body.add(some_further(draft, &body, random)?);
    draft.steps[last] = body.bytes();
    Some(())
}

fn pivot_at_close(draft: &mut Draft, random: &mut Random) -> Option<()> {
    let last = draft.steps.len().checked_sub(1)?;
    let mut body = resolution_at(draft, last)?;
    let own = body.pivot()?.checked_mul(2)? + random.below(2) as u16;
    body.has_room_for(own).then(|| body.add(own))?;
    draft.steps[last] = body.bytes();
    Some(())
}

/// Draws literals to carry on until one is left at the close, or resolved away before.
fn carried(draft: &mut Draft, random: &mut Random, left: bool) -> Option<()> {
    for _ in 0..TRIES {
        let mut changed = draft.clone();
        let carried = carry_one(&mut changed, random, left);
        let last = Body::read(changed.steps.last()?)?;
        if carried.is_some() && last.literals.is_empty() != left {
            *draft = changed;
            return Some(());
        }
    }
    None
}

/// Takes two resolutions that the last step rests on, of which one rests on a premise of the other. The one gets a literal
/// more, and so do all that need it then. It is any that is to be left, or the one that the other resolves away.
fn carry_one(draft: &mut Draft, random: &mut Random, left: bool) -> Option<()> {
    let last = draft.steps.len().checked_sub(1)?;
    let resolving = resolution_at(draft, *under(draft, last, random).first()?)?;
    let part = random.below(2);
    let premise = (resolving.citation(part)? as usize).checked_sub(1)?;
    let place = *under(draft, premise, random).first()?;
    let mut body = resolution_at(draft, place)?;
    let code = if left {
        some_further(draft, &body, random)?
    } else {
        resolving.pivot()?.checked_mul(2)? + part as u16
    };
    body.has_room_for(code).then(|| body.add(code))?;
    draft.steps[place] = body.bytes();
    carry(draft)
}

fn pivot_both_ways(_: &Draft, _: u32, body: &mut Body, _: &mut Random) -> Option<()> {
    let code = body.pivot()?.checked_mul(2)?;
    for own in [code, code + 1] {
        body.remove(own);
        body.add(own);
    }
    Some(())
}

fn twice(draft: &Draft, _: u32, body: &mut Body, random: &mut Random) -> Option<()> {
    let code = some_further(draft, body, random)?;
    body.add(code);
    body.add(code);
    Some(())
}

/// It stands behind a literal of a later variable.
fn unsorted(draft: &Draft, _: u32, body: &mut Body, random: &mut Random) -> Option<()> {
    let last = *body.literals.last()?;
    let code = some_further(draft, body, random).filter(|code| *code < last)?;
    body.literals.push(code);
    Some(())
}
