//! Standing losses: marks and losses at their boundaries, claims and bounds that have the loss too seldom or too often, and
//! losses that come, go and change under a record.

use super::alone::{good_step, COST, INDEPENDENT};
use super::heads::resize_variables;
use super::resolutions::raise;
use super::statements::set_bound;
use super::{damage, Damage, Way};
use crate::draft::{overwrite, Body, Draft, Files, Head, LOSS};
use crate::random::Random;
use crate::sheets::some_loss;
use crate::weights::{rounded_up, sums, KIND};
use crate::widening::KIND as RESOLUTION;
use planner::format::MARK;
use planner::{MOST_VARIABLES, NONE};

const COPY: u8 = 1;

pub const LOSSES: &[Damage] = &[
    damage(
        "2 mark and no variables",
        Way::Files(|files, _| overwrite(&mut files.sheet, 0, &MARK.to_le_bytes())),
    ),
    damage("2 mark and one variable too many", Way::Draft(too_many)),
    damage("2 loss left out", Way::Files(|files, _| cut(files, 0))),
    damage("2 loss of one byte", Way::Files(|files, _| cut(files, 1))),
    damage("2 loss of two bytes", Way::Files(|files, _| cut(files, 2))),
    damage(
        "2 loss of three bytes",
        Way::Files(|files, _| cut(files, 3)),
    ),
    damage("3 loss put in, and the pairs left", Way::Files(put_in)),
    damage("3 loss taken out, and the pairs left", Way::Files(take_out)),
    damage(
        "11 claim without the loss",
        Way::Draft(|draft, _| reclaim(draft, u64::checked_sub)),
    ),
    damage(
        "11 claim with the loss twice",
        Way::Draft(|draft, _| reclaim(draft, u64::checked_add)),
    ),
    damage("11 loss changed", Way::Draft(bit_changed)),
    damage("11 mark and a loss added", Way::Draft(added)),
    damage("11 mark and its loss taken away", Way::Draft(taken_away)),
    damage("12 loss as the bound", Way::Step(COPY, loss_alone)),
    damage("12 none and the loss in 64 bits", Way::Step(COPY, wrapped)),
    damage("13 bound without the loss", Way::Step(COST, without)),
    damage("15 bound without the loss", Way::Step(INDEPENDENT, without)),
    damage("24 bound without the loss", Way::Step(KIND, without)),
    damage("13 bound with the loss twice", Way::Step(COST, twice)),
    damage(
        "15 bound with the loss twice",
        Way::Step(INDEPENDENT, twice),
    ),
    damage("24 bound with the loss twice", Way::Step(KIND, twice)),
    damage(
        "15 loss for each clause",
        Way::Step(INDEPENDENT, for_each_clause),
    ),
    damage("18 loss added to the lesser", Way::Step(RESOLUTION, lesser)),
    damage(
        "24 loss before the division",
        Way::Step(KIND, before_the_division),
    ),
    damage(
        "24 total below zero taken off the loss",
        Way::Step(KIND, taken_off),
    ),
    damage(
        "13 loss changed, and the claim with it",
        Way::Draft(|draft, random| bounds_left(draft, COST, random)),
    ),
    damage(
        "15 loss changed, and the claim with it",
        Way::Draft(|draft, random| bounds_left(draft, INDEPENDENT, random)),
    ),
    damage(
        "24 loss changed, and the claim with it",
        Way::Draft(|draft, random| bounds_left(draft, KIND, random)),
    ),
    damage(
        "accepted mark with a loss of 0 added",
        Way::Draft(|draft, _| exchange(draft, None, Some(0))),
    ),
    damage(
        "accepted mark with a loss of 0 taken away",
        Way::Draft(|draft, _| exchange(draft, Some(0), None)),
    ),
    damage(
        "accepted loss changed, and the record with it",
        Way::Draft(|draft, random| {
            let loss = other_loss(draft, random)?;
            carry(draft, loss);
            Some(())
        }),
    ),
    damage(
        "accepted most variables and the largest loss",
        Way::Draft(dearest),
    ),
];

/// A loss or none, where it is another than the sheet has.
fn other_loss(draft: &Draft, random: &mut Random) -> Option<Option<u32>> {
    let drawn = some_loss(random);
    (drawn.map_or(0, u64::from) != draft.standing_loss()).then_some(drawn)
}

fn too_many(draft: &mut Draft, random: &mut Random) -> Option<()> {
    resize_variables(draft, MOST_VARIABLES + 1, 1)?;
    draft.loss.get_or_insert(random.next_u64() as u32);
    Some(())
}

/// Leaves so many bytes of the loss.
fn cut(files: &mut Files, left: usize) -> Option<()> {
    let head = Head::read(&files.sheet).filter(|head| head.is_marked)?;
    let end = head.costs_end() + left;
    (end < files.sheet.len()).then(|| files.sheet.truncate(end))
}

/// Turns the mark round, and nothing else.
pub fn turn_mark(files: &mut Files, _: &mut Random) -> Option<()> {
    *files.sheet.get_mut(1)? ^= MARK.to_le_bytes()[1];
    Some(())
}

/// The offsets are 4 too low then.
fn put_in(files: &mut Files, random: &mut Random) -> Option<()> {
    let head = Head::read(&files.sheet).filter(|head| !head.is_marked && head.clauses > 0)?;
    let loss = some_loss(random).unwrap_or(0).to_le_bytes();
    let end = head.costs_end();
    (end <= files.sheet.len()).then(|| files.sheet.splice(end..end, loss))?;
    turn_mark(files, random)
}

/// The offsets are 4 too high then.
fn take_out(files: &mut Files, random: &mut Random) -> Option<()> {
    let head = Head::read(&files.sheet).filter(|head| head.is_marked && head.clauses > 0)?;
    let (start, end) = (head.costs_end(), head.costs_end() + LOSS);
    (end <= files.sheet.len()).then(|| files.sheet.drain(start..end))?;
    turn_mark(files, random)
}

fn reclaim(draft: &mut Draft, change: fn(u64, u64) -> Option<u64>) -> Option<()> {
    let loss = draft.standing_loss();
    if draft.claim == NONE || loss == 0 {
        return None;
    }
    draft.claim = change(draft.claim, loss)?;
    Some(())
}

/// Any bit of it.
fn bit_changed(draft: &mut Draft, random: &mut Random) -> Option<()> {
    let loss = draft.loss.as_mut().filter(|_| draft.claim != NONE)?;
    *loss ^= 1 << random.below(32);
    Some(())
}

fn added(draft: &mut Draft, random: &mut Random) -> Option<()> {
    let any = random.next_u64() as u32;
    let loss = *random.pick(&[1, any | 1, u32::MAX])?;
    let applies = draft.claim != NONE && draft.loss.is_none();
    applies.then(|| draft.loss = Some(loss))
}

fn taken_away(draft: &mut Draft, _: &mut Random) -> Option<()> {
    let applies = draft.claim != NONE && draft.standing_loss() > 0;
    applies.then(|| draft.loss = None)
}

fn loss_alone(draft: &Draft, _: u32, body: &mut Body, _: &mut Random) -> Option<()> {
    draft.loss?;
    set_bound(body, draft.standing_loss())
}

/// "None" is no number that a loss could be added to.
fn wrapped(draft: &Draft, _: u32, body: &mut Body, _: &mut Random) -> Option<()> {
    set_bound(body, body.bound.wrapping_add(draft.standing_loss()))
}

fn without(draft: &Draft, _: u32, body: &mut Body, _: &mut Random) -> Option<()> {
    set_bound(body, body.bound.checked_sub(draft.standing_loss())?)
}

fn twice(draft: &Draft, _: u32, body: &mut Body, _: &mut Random) -> Option<()> {
    set_bound(body, body.bound.checked_add(draft.standing_loss())?)
}

/// As if each of them had it, and not all of them together.
fn for_each_clause(draft: &Draft, _: u32, body: &mut Body, _: &mut Random) -> Option<()> {
    let others = body.cited().len().checked_sub(1)? as u64;
    set_bound(
        body,
        body.bound.checked_add(others * draft.standing_loss())?,
    )
}

fn lesser(draft: &Draft, _: u32, body: &mut Body, _: &mut Random) -> Option<()> {
    raise(draft, body, |lesser| {
        lesser.saturating_add(draft.standing_loss())
    })
}

/// The loss is divided with the total, and rounded with it.
fn before_the_division(draft: &Draft, _: u32, body: &mut Body, _: &mut Random) -> Option<()> {
    let sums = sums(draft, body)?;
    let total = sums.total() + i128::from(sums.loss);
    set_bound(body, rounded_up(total, sums.divisor))
}

/// A total below zero counts as 0, and does not lessen the loss.
fn taken_off(draft: &Draft, _: u32, body: &mut Body, _: &mut Random) -> Option<()> {
    let sums = sums(draft, body)?;
    let total = sums.total() + sums.divisor * i128::from(sums.loss);
    set_bound(body, rounded_up(total, sums.divisor))
}

/// The bounds stay what they were: the first step that has the loss in its bound is told, and it is of this kind.
fn bounds_left(draft: &mut Draft, kind: u8, random: &mut Random) -> Option<()> {
    let loss = other_loss(draft, random)?;
    let step = good_step(kind, draft, random)?;
    let kinds = draft.steps.iter().map(|step| step.first().copied());
    let has_loss = |kind: u8| [COST, INDEPENDENT, KIND].contains(&kind);
    let before = kinds.take_while(|kind| !kind.is_some_and(has_loss));
    let last = before.count().min(draft.steps.len().saturating_sub(1));
    draft.insert(random.between(0, last), step.bytes());
    let before = draft.standing_loss();
    draft.loss = loss;
    draft.claim = moved(draft.claim, before, draft.standing_loss());
    Some(())
}

fn exchange(draft: &mut Draft, before: Option<u32>, after: Option<u32>) -> Option<()> {
    (draft.loss == before).then(|| draft.loss = after)
}

/// What a claim or a bound is with another loss. Where a resolution has a bound that no cost comes near, it keeps its place
/// among the others.
fn moved(number: u64, before: u64, after: u64) -> u64 {
    match number {
        NONE => NONE,
        number => number.saturating_add(after).saturating_sub(before),
    }
}

/// Gives the sheet another loss, and the record what is right with that.
fn carry(draft: &mut Draft, loss: Option<u32>) {
    let before = draft.standing_loss();
    draft.loss = loss;
    let after = draft.standing_loss();
    draft.claim = moved(draft.claim, before, after);
    for step in &mut draft.steps {
        if let Some(mut body) = Body::read(step) {
            body.bound = moved(body.bound, before, after);
            *step = body.bytes();
        }
    }
}

/// The variables that come to it stand in no clause.
fn dearest(draft: &mut Draft, _: &mut Random) -> Option<()> {
    resize_variables(draft, MOST_VARIABLES, u32::MAX)?;
    carry(draft, Some(u32::MAX));
    Some(())
}
