//! Steps of kind 5: tails of other lengths, citations out of order, weights that are 0. What is wrong with their bounds stands
//! in `bounds`, several faults at once in `order`, and changes of the whole record in `records`.

pub mod bounds;
pub mod order;
pub mod records;

use super::forms::outside;
use super::{damage, Damage, Way};
use crate::draft::{Body, Draft};
use crate::random::Random;
use crate::weights::{bound, Weights, DIVISOR, ENTRY, KIND};

pub const LINEAR: &[Damage] = &[
    damage(
        "8 weights a byte short",
        Way::Step(KIND, |_, _, body, _| cut(body, 1)),
    ),
    damage(
        "8 last weight cut off",
        Way::Step(KIND, |_, _, body, _| cut(body, 2)),
    ),
    damage("8 weights a byte long", Way::Step(KIND, byte_more)),
    damage("8 clause without a weight", Way::Step(KIND, no_weight)),
    damage(
        "8 divisor alone",
        Way::Step(KIND, |_, _, body, _| keep(body, DIVISOR)),
    ),
    damage(
        "8 half a divisor",
        Way::Step(KIND, |_, _, body, _| keep(body, 1)),
    ),
    damage(
        "8 neither divisor nor weights",
        Way::Step(KIND, |_, _, body, _| keep(body, 0)),
    ),
    damage("8 no divisor", Way::Step(KIND, no_divisor)),
    damage(
        "8 weights as kind 6",
        Way::Step(KIND, |_, _, body, _| as_kind(body, 6)),
    ),
    damage(
        "8 weights as kind 3",
        Way::Step(KIND, |_, _, body, _| as_kind_of_tail(body, 3, false)),
    ),
    damage(
        "9 weights as kind 3",
        Way::Step(KIND, |_, _, body, _| as_kind_of_tail(body, 3, true)),
    ),
    damage(
        "8 clauses as kind 5",
        Way::Step(3, |_, _, body, _| as_kind_of_tail(body, KIND, false)),
    ),
    damage(
        "9 clauses as kind 5",
        Way::Step(3, |_, _, body, _| as_kind_of_tail(body, KIND, true)),
    ),
    damage("9 first weighted clause 0", Way::Step(KIND, first_zero)),
    damage("9 last weighted clause", Way::Step(KIND, last_outside)),
    damage("9 weighted clause twice", Way::Step(KIND, twice)),
    damage("9 falling weighted clauses", Way::Step(KIND, falling)),
    damage(
        "9 byte of a weighted clause",
        Way::Step(KIND, byte_of_a_clause),
    ),
    damage("23 divisor 0", Way::Step(KIND, divisor_zero)),
    damage(
        "23 first weight 0",
        Way::Step(KIND, |d, _, b, r| weight_zero(d, b, r, |_, _| Some(0))),
    ),
    damage(
        "23 middle weight 0",
        Way::Step(KIND, |d, _, b, r| weight_zero(d, b, r, middle)),
    ),
    damage(
        "23 last weight 0",
        Way::Step(KIND, |d, _, b, r| weight_zero(d, b, r, last)),
    ),
    damage("23 every weight 0", Way::Step(KIND, every_zero)),
    damage(
        "23 clause of weight 0 too",
        Way::Step(KIND, clause_of_weight_zero),
    ),
];

/// Changes the weights of a step.
fn reweigh(body: &mut Body, change: impl FnOnce(&mut Weights) -> Option<()>) -> Option<()> {
    let mut weights = Weights::read(&body.tail)?;
    change(&mut weights)?;
    body.tail = weights.tail();
    Some(())
}

/// Gives a step the bound of its weights, so that another fault of it stands alone.
fn mend_bound(draft: &Draft, body: &mut Body) {
    if let Some(bound) = bound(draft, body) {
        body.bound = bound;
    }
}

fn cut(body: &mut Body, by: usize) -> Option<()> {
    keep(body, body.tail.len().checked_sub(by)?)
}

fn keep(body: &mut Body, length: usize) -> Option<()> {
    (body.tail.len() > length).then(|| body.tail.truncate(length))
}

fn byte_more(_: &Draft, _: u32, body: &mut Body, random: &mut Random) -> Option<()> {
    body.tail.push(random.below(2) as u8);
    Some(())
}

fn no_weight(_: &Draft, _: u32, body: &mut Body, _: &mut Random) -> Option<()> {
    body.tail.extend_from_slice(&1_u32.to_le_bytes());
    Some(())
}

fn no_divisor(_: &Draft, _: u32, body: &mut Body, _: &mut Random) -> Option<()> {
    (body.tail.len() > DIVISOR).then(|| drop(body.tail.drain(..DIVISOR)))
}

fn as_kind(body: &mut Body, kind: u8) -> Option<()> {
    body.kind = kind;
    Some(())
}

/// Another kind whose tails may be that long, or may not. Where they may, no number in it is one of a clause.
fn as_kind_of_tail(body: &mut Body, kind: u8, fits: bool) -> Option<()> {
    let length = body.tail.len();
    let may_be = match kind {
        KIND => length > DIVISOR && (length - DIVISOR).is_multiple_of(ENTRY),
        _ => length.is_multiple_of(4),
    };
    (may_be == fits).then(|| body.kind = kind)
}

fn first_zero(_: &Draft, _: u32, body: &mut Body, random: &mut Random) -> Option<()> {
    let replaced = random.percent(50);
    reweigh(body, |weights| {
        if replaced {
            weights.entries.first_mut()?.0 = 0;
        } else {
            weights.entries.insert(0, (0, 1));
        }
        Some(())
    })
}

fn last_outside(draft: &Draft, _: u32, body: &mut Body, random: &mut Random) -> Option<()> {
    let (number, replaced) = (outside(draft, random)?, random.percent(50));
    reweigh(body, |weights| {
        if replaced {
            weights.entries.last_mut()?.0 = number;
        } else {
            weights.entries.push((number, 1));
        }
        Some(())
    })
}

fn twice(_: &Draft, _: u32, body: &mut Body, random: &mut Random) -> Option<()> {
    reweigh(body, |weights| {
        let place = random.below(weights.entries.len());
        let (number, _) = weights.entries[place];
        weights.entries.insert(place, (number, 1));
        Some(())
    })
}

fn falling(_: &Draft, _: u32, body: &mut Body, random: &mut Random) -> Option<()> {
    reweigh(body, |weights| {
        let place = random.below(weights.entries.len().max(2) - 1);
        weights.entries.get(place + 1)?;
        weights.entries.swap(place, place + 1);
        Some(())
    })
}

/// Any byte of a clause's number becomes another, where the numbers do not rise from 1 to the sheet's last any more.
fn byte_of_a_clause(draft: &Draft, _: u32, body: &mut Body, random: &mut Random) -> Option<()> {
    reweigh(body, |weights| {
        let place = random.below(weights.entries.len());
        weights.entries[place].0 ^= (random.between(1, 255) as u32) << (8 * random.below(4));
        (!weights.cite_well(draft.clauses.len())).then_some(())
    })
}

fn divisor_zero(_: &Draft, _: u32, body: &mut Body, _: &mut Random) -> Option<()> {
    reweigh(body, |weights| {
        weights.divisor = 0;
        Some(())
    })
}

fn middle(count: usize, random: &mut Random) -> Option<usize> {
    (count > 2).then(|| random.between(1, count - 2))
}

fn last(count: usize, _: &mut Random) -> Option<usize> {
    (count > 1).then_some(count - 1)
}

/// One weight becomes 0. The bound is what it was, or what it would be then.
fn weight_zero(
    draft: &Draft,
    body: &mut Body,
    random: &mut Random,
    place: fn(usize, &mut Random) -> Option<usize>,
) -> Option<()> {
    reweigh(body, |weights| {
        let place = place(weights.entries.len(), random)?;
        weights.entries[place].1 = 0;
        Some(())
    })?;
    if random.percent(50) {
        mend_bound(draft, body);
    }
    Some(())
}

fn every_zero(draft: &Draft, _: u32, body: &mut Body, random: &mut Random) -> Option<()> {
    let divisor_too = random.percent(30);
    reweigh(body, |weights| {
        weights.entries.iter_mut().for_each(|entry| entry.1 = 0);
        if divisor_too {
            weights.divisor = 0;
        }
        Some(())
    })?;
    mend_bound(draft, body);
    Some(())
}

/// One more clause is cited, which adds nothing: the bound stays right.
fn clause_of_weight_zero(
    draft: &Draft,
    _: u32,
    body: &mut Body,
    random: &mut Random,
) -> Option<()> {
    reweigh(body, |weights| {
        let number = random.between(1, draft.clauses.len().max(1)) as u32;
        let before = |entry: &(u32, u16)| entry.0 < number;
        let place = weights.entries.partition_point(before);
        if weights
            .entries
            .get(place)
            .is_some_and(|next| next.0 == number)
        {
            return None;
        }
        weights.entries.insert(place, (number, 0));
        Some(())
    })
}
