//! Resolution: wrong pivots, literals that are missing, with others beside or in their places, bounds above the lesser one. A
//! step may be wider than its premises ask for, so each fault is held to what they do ask for.

pub mod order;

use super::heads::with_most_variables;
use super::statements::literal_extra;
use super::{damage, places, to_step, Damage, Way};
use crate::draft::{Body, Draft};
use crate::random::Random;
use crate::weights::branch::resolution;
use crate::widening::records::some_bound;
use crate::widening::{premises, resolution_at, Needed, KIND};
use planner::{MOST_VARIABLES, NONE};

pub const RESOLUTIONS: &[Damage] = &[
    damage("16 other pivot", Way::Step(KIND, other_pivot)),
    damage(
        "16 pivot 0",
        Way::Step(KIND, |_, _, body, _| body.set_pivot(0)),
    ),
    damage(
        "16 pivot past the last",
        Way::Step(KIND, pivot_past_the_last),
    ),
    damage(
        "16 pivot too large for 2 bytes",
        Way::Step(KIND, pivot_wraps),
    ),
    damage("16 premises swapped", Way::Step(KIND, swapped)),
    damage("16 one step cited twice", Way::Step(KIND, cited_twice)),
    damage("16 other premise", Way::Step(KIND, other_premise)),
    damage(
        "17 literal missing",
        Way::Step(KIND, |d, _, b, r| leave_out(d, b, r).map(drop)),
    ),
    damage("17 further literal in its place", Way::Step(KIND, replaced)),
    damage(
        "17 pivot kept in its place",
        Way::Step(KIND, replaced_by_pivot),
    ),
    damage(
        "17 literal negated",
        Way::Step(KIND, |d, _, b, r| {
            let code = leave_out(d, b, r)?;
            b.add(code ^ 1);
            Some(())
        }),
    ),
    damage(
        "17 literal missing of every variable",
        Way::Step(KIND, all_but_one),
    ),
    damage(
        "17 literal missing of most variables",
        Way::Draft(most_but_one),
    ),
    damage("17 no literals", Way::Step(KIND, no_literals)),
    damage(
        "17 literals of the first premise alone",
        Way::Step(KIND, |d, _, b, _| one_premise(d, b, 0)),
    ),
    damage(
        "17 literals of the second premise alone",
        Way::Step(KIND, |d, _, b, _| one_premise(d, b, 1)),
    ),
    damage(
        "17 wider premise, and not the step",
        Way::Draft(wider_premise),
    ),
    damage(
        "17 both ways and dropped",
        Way::Draft(|draft, random| both_ways(draft, random, |_, _| Vec::new())),
    ),
    damage(
        "17 both ways and kept",
        Way::Draft(|draft, random| both_ways(draft, random, kept)),
    ),
    damage(
        "17 both ways beside further literals",
        Way::Draft(|draft, random| both_ways(draft, random, kept_beside_all)),
    ),
    damage("18 one above the lesser", Way::Step(KIND, one_above)),
    damage(
        "18 one above beside a further literal",
        Way::Step(KIND, |d, n, b, r| {
            literal_extra(d, n, b, r)?;
            one_above(d, n, b, r)
        }),
    ),
    damage("18 greater bound", Way::Step(KIND, greater)),
    damage("18 sum of the bounds", Way::Step(KIND, sum)),
    damage(
        "18 bound none",
        Way::Step(KIND, |draft, _, body, _| raise(draft, body, |_| NONE)),
    ),
    damage("18 lesser in 32 bits", Way::Step(KIND, lesser_in_32_bits)),
    damage(
        "18 lesser with a sign",
        Way::Step(KIND, |draft, _, body, _| {
            raise(draft, body, |lesser| lesser | 1 << 63)
        }),
    ),
    damage(
        "18 premise's bound lowered, and not the step's",
        Way::Draft(lower_premise),
    ),
];

/// A variable that at least one premise does not hold as it should.
fn other_pivot(draft: &Draft, _: u32, body: &mut Body, random: &mut Random) -> Option<()> {
    let pivot = random.between(1, draft.variables()) as u16;
    let [a, b] = premises(draft, body)?;
    if a.holds(2 * pivot) && b.holds(2 * pivot + 1) {
        return None;
    }
    body.set_pivot(pivot)
}

fn pivot_past_the_last(draft: &Draft, _: u32, body: &mut Body, random: &mut Random) -> Option<()> {
    let past = draft.variables() as u16 + 1;
    let pivot = *random.pick(&[past, past, MOST_VARIABLES as u16 + 1, u16::MAX])?;
    body.set_pivot(pivot)
}

/// Doubled in 2 bytes this pivot would give the right codes.
fn pivot_wraps(_: &Draft, _: u32, body: &mut Body, _: &mut Random) -> Option<()> {
    let pivot = body.pivot()? | 0x8000;
    body.set_pivot(pivot)
}

fn swapped(_: &Draft, _: u32, body: &mut Body, _: &mut Random) -> Option<()> {
    let (a, b) = (body.citation(0)?, body.citation(1)?);
    body.cite(0, b)?;
    body.cite(1, a)
}

fn cited_twice(_: &Draft, _: u32, body: &mut Body, random: &mut Random) -> Option<()> {
    let from = random.below(2);
    body.cite(1 - from, body.citation(from)?)
}

/// Some earlier step that lacks the pivot literal.
fn other_premise(draft: &Draft, own: u32, body: &mut Body, random: &mut Random) -> Option<()> {
    let number = random.between(1, own.max(2) as usize - 1) as u32;
    let part = random.below(2);
    let code = body.pivot()?.checked_mul(2)? + part as u16;
    if draft.step(number)?.holds(code) {
        return None;
    }
    body.cite(part, number)
}

/// Takes out a literal that a premise asks for, and tells which.
fn leave_out(draft: &Draft, body: &mut Body, random: &mut Random) -> Option<u16> {
    let code = *random.pick(&Needed::of(draft, body)?.literals)?;
    body.remove(code);
    Some(code)
}

/// The literals that a step may be given more, but for those of one variable; 0 is none.
pub(super) fn further(draft: &Draft, body: &Body, but: u16) -> Vec<u16> {
    let codes = 2..2 * draft.variables() as u16 + 2;
    let others = codes.filter(|code| code / 2 != but);
    others.filter(|code| body.has_room_for(*code)).collect()
}

/// There are as many literals as there were.
fn replaced(draft: &Draft, _: u32, body: &mut Body, random: &mut Random) -> Option<()> {
    let missing = leave_out(draft, body, random)?;
    let fresh = *random.pick(&further(draft, body, missing / 2))?;
    body.add(fresh);
    Some(())
}

fn replaced_by_pivot(draft: &Draft, _: u32, body: &mut Body, random: &mut Random) -> Option<()> {
    leave_out(draft, body, random)?;
    let own = body.pivot()?.checked_mul(2)? + random.below(2) as u16;
    body.has_room_for(own).then(|| body.add(own))
}

/// The step holds all other variables of the sheet.
fn all_but_one(draft: &Draft, _: u32, body: &mut Body, random: &mut Random) -> Option<()> {
    let missing = leave_out(draft, body, random)?;
    for code in further(draft, body, missing / 2) {
        let code = code ^ random.below(2) as u16;
        if body.has_room_for(code) {
            body.add(code);
        }
    }
    Some(())
}

/// The same of as many variables as a sheet may have.
fn most_but_one(draft: &mut Draft, random: &mut Random) -> Option<()> {
    with_most_variables(draft, |larger| to_step(KIND, all_but_one, larger, random))
}

fn no_literals(draft: &Draft, _: u32, body: &mut Body, _: &mut Random) -> Option<()> {
    let needed = Needed::of(draft, body)?.literals;
    (!needed.is_empty()).then(|| body.literals.clear())
}

/// What one premise asks for, where the other asks for more.
fn one_premise(draft: &Draft, body: &mut Body, part: usize) -> Option<()> {
    let needed = Needed::of(draft, body)?.literals;
    let code = body.pivot()?.checked_mul(2)? + part as u16;
    let mut premise = draft.step(body.citation(part)?)?;
    premise.remove(code);
    (premise.literals != needed).then(|| body.literals = premise.literals)
}

/// A premise that stays good is given a literal that a step which cites it does not hold: a resolution any, a cost step a
/// positive one, since that costs nothing.
fn wider_premise(draft: &mut Draft, random: &mut Random) -> Option<()> {
    let part = random.below(2);
    let mut tried = places(KIND, draft, random).into_iter();
    let (number, premise) = tried.find_map(|place| {
        let body = resolution_at(draft, place)?;
        let number = body.citation(part)?;
        let mut premise = draft.step(number)?;
        let mut fresh = further(draft, &premise, 0);
        fresh.retain(|code| match premise.kind {
            KIND => !body.holds(*code),
            2 => !body.holds(*code) && code.is_multiple_of(2),
            _ => false,
        });
        premise.add(*random.pick(&fresh)?);
        Some((number, premise))
    })?;
    draft.steps[number as usize - 1] = premise.bytes();
    Some(())
}

/// Two cost steps that clash on two variables, resolved on one of them; of the other the resolution holds what is told here.
fn both_ways(
    draft: &mut Draft,
    random: &mut Random,
    held: fn(&Draft, u16) -> Vec<u16>,
) -> Option<()> {
    let pivot = random.between(1, draft.variables()) as u16;
    let other = random.between(1, draft.variables()) as u16;
    if pivot == other {
        return None;
    }
    let turned = random.below(2) as u16;
    let up = Body::cost(draft, vec![2 * pivot, 2 * other + turned]);
    let down = Body::cost(draft, vec![2 * pivot + 1, 2 * other + (1 - turned)]);
    let place = random.below(draft.steps.len().max(1));
    let literals = held(draft, 2 * other + random.below(2) as u16);
    let resolved = resolution([(&up, place + 1), (&down, place + 2)], pivot, literals);
    let bodies = [up, down, resolved].map(|body| (place, body.bytes()));
    draft.insert_all(bodies.into());
    Some(())
}

fn kept(_: &Draft, code: u16) -> Vec<u16> {
    vec![code]
}

/// The literal, and those of all other variables that have its sign.
fn kept_beside_all(draft: &Draft, code: u16) -> Vec<u16> {
    let variables = 1..=draft.variables() as u16;
    variables.map(|variable| 2 * variable + code % 2).collect()
}

/// Sets a bound, which is told from the lesser one, where it is above that.
pub(super) fn raise(draft: &Draft, body: &mut Body, bound: impl FnOnce(u64) -> u64) -> Option<()> {
    let lesser = Needed::of(draft, body)?.bound;
    let bound = bound(lesser);
    (bound > lesser).then(|| body.bound = bound)
}

fn one_above(draft: &Draft, _: u32, body: &mut Body, _: &mut Random) -> Option<()> {
    raise(draft, body, |lesser| lesser.saturating_add(1))
}

fn greater(draft: &Draft, _: u32, body: &mut Body, _: &mut Random) -> Option<()> {
    let [a, b] = premises(draft, body)?;
    raise(draft, body, |_| a.bound.max(b.bound))
}

fn sum(draft: &Draft, _: u32, body: &mut Body, random: &mut Random) -> Option<()> {
    let [a, b] = premises(draft, body)?;
    let wrapped = a.bound.wrapping_add(b.bound);
    let capped = a.bound.saturating_add(b.bound);
    let sum = *random.pick(&[wrapped, capped])?;
    raise(draft, body, |_| sum)
}

/// The lower half of the bound is no greater than that of the lesser one.
fn lesser_in_32_bits(draft: &Draft, _: u32, body: &mut Body, random: &mut Random) -> Option<()> {
    let more = (random.between(1, 1 << 10) as u64) << 32;
    raise(draft, body, |lesser| lesser.saturating_add(more))
}

/// A resolution states less, which is no fault, and a step that cites it states what it did.
fn lower_premise(draft: &mut Draft, random: &mut Random) -> Option<()> {
    let part = random.below(2);
    let mut tried = places(KIND, draft, random).into_iter();
    let (number, premise) = tried.find_map(|place| {
        let body = resolution_at(draft, place)?;
        let number = body.citation(part)?;
        let mut premise = draft.step(number).filter(|premise| premise.kind == KIND)?;
        premise.bound = some_bound(0, body.bound.checked_sub(1)?, random);
        Some((number, premise))
    })?;
    draft.steps[number as usize - 1] = premise.bytes();
    Some(())
}
