//! Bounds of kind 5 that are not those of their weights: totals put together in other ways, and weights, divisors, literals
//! and citations that were changed under a bound.

use super::reweigh;
use crate::damage::statements::{literal_extra, literal_missing, literal_negated, set_bound};
use crate::damage::{damage, Damage, Way};
use crate::draft::{Body, Draft};
use crate::random::Random;
use crate::weights::steps::is_weighted;
use crate::weights::{bound, rounded_up, sums, Share, Sums, Weights, KIND};
use planner::NONE;

/// How a step is changed.
type Change = fn(&Draft, u32, &mut Body, &mut Random) -> Option<()>;

const fn bound_of(aimed: &'static str, change: Change) -> Damage {
    damage(aimed, Way::Step(KIND, change))
}

pub const BOUNDS: &[Damage] = &[
    bound_of("24 bound one more", |_, _, body, _| {
        set_bound(body, body.bound.wrapping_add(1))
    }),
    bound_of("24 bound one less", |_, _, body, _| {
        set_bound(body, body.bound.checked_sub(1)?)
    }),
    bound_of("24 bound none", |_, _, body, _| set_bound(body, NONE)),
    bound_of("24 bound 0", |_, _, body, _| set_bound(body, 0)),
    bound_of("24 rounded down", |draft, _, body, _| {
        let sums = sums(draft, body)?;
        let quotient = u64::try_from(sums.total() / sums.divisor).ok()?;
        set_bound(body, quotient + sums.loss)
    }),
    bound_of("24 divisor forgotten", |draft, _, body, _| {
        let sums = sums(draft, body)?;
        set_bound(body, rounded_up(sums.total(), 1) + sums.loss)
    }),
    bound_of("24 total below zero unsigned", unsigned),
    bound_of("24 total below zero turned", |draft, _, body, _| {
        let sums = sums(draft, body)?;
        set_bound(body, sums.bound_of(sums.total().abs()))
    }),
    bound_of("24 costs undivided", |draft, _, body, _| {
        // The divisor is not brought to the costs.
        total(draft, body, |sums| {
            sums.total_by(|v| v.added_of(v.remainder() - v.priced + v.priced / sums.divisor))
        })
    }),
    bound_of("24 negative literals subtracted", |draft, _, body, _| {
        shares(draft, body, |v| {
            v.added_of(v.priced - v.positive - v.negative)
        })
    }),
    bound_of("24 negative literals left out", |draft, _, body, _| {
        shares(draft, body, |v| v.added_of(v.priced - v.positive))
    }),
    bound_of("24 settled remainders cut at 0", |draft, _, body, _| {
        shares(draft, body, |v| match v.settled {
            Some(true) => v.remainder().max(0),
            _ => v.added(),
        })
    }),
    bound_of(
        "24 settled remainders below 0 alone",
        |draft, _, body, _| {
            shares(draft, body, |v| match v.settled {
                Some(true) => v.remainder().min(0),
                _ => v.added(),
            })
        },
    ),
    bound_of("24 settled remainders left out", |draft, _, body, _| {
        shares(draft, body, |v| match v.settled {
            Some(true) => 0,
            _ => v.added(),
        })
    }),
    bound_of("24 settled costs without weights", |draft, _, body, _| {
        shares(draft, body, |v| match v.settled {
            Some(true) => v.priced,
            _ => v.added(),
        })
    }),
    bound_of(
        "24 settled outside the clauses left out",
        |draft, _, body, _| {
            shares(draft, body, |v| match v.positive + v.negative {
                0 => 0,
                _ => v.added(),
            })
        },
    ),
    bound_of(
        "24 unsettled remainders above 0 too",
        |draft, _, body, _| {
            shares(draft, body, |v| match v.settled {
                None => v.remainder(),
                _ => v.added(),
            })
        },
    ),
    bound_of("24 unsettled remainders left out", |draft, _, body, _| {
        shares(draft, body, |v| match v.settled {
            None => 0,
            _ => v.added(),
        })
    }),
    bound_of(
        "24 remainders of false variables too",
        |draft, _, body, _| {
            shares(draft, body, |v| match v.settled {
                Some(false) => v.remainder(),
                _ => v.added(),
            })
        },
    ),
    bound_of("24 false variables as unsettled", |draft, _, body, _| {
        shares(draft, body, |v| match v.settled {
            Some(false) => v.remainder().min(0),
            _ => v.added(),
        })
    }),
    bound_of("24 settled the other way", |draft, _, body, _| {
        shares(draft, body, |v| match v.settled {
            Some(false) => v.remainder(),
            Some(true) => 0,
            None => v.added(),
        })
    }),
    bound_of("24 remainders in 32 bits", |draft, _, body, _| {
        shares(draft, body, |v| {
            v.added_of(i128::from(v.remainder() as i32))
        })
    }),
    bound_of("24 weights alone as constant", |draft, _, body, _| {
        total(draft, body, |sums| sums.total() + sums.negatives)
    }),
    bound_of("24 no constant", |draft, _, body, _| {
        total(draft, body, |sums| sums.total() - sums.constant())
    }),
    bound_of("24 remainders of an earlier step", earlier_remainders),
    bound_of("24 literals of the step before", earlier_literals),
    bound_of("24 byte of the divisor", |d, n, b, r| {
        differing(d, n, b, r, divisor_byte)
    }),
    bound_of("24 byte of a weight", |d, n, b, r| {
        differing(d, n, b, r, weight_byte)
    }),
    bound_of("24 weights exchanged", |d, n, b, r| {
        differing(d, n, b, r, exchanged)
    }),
    bound_of("24 entry left out", |d, n, b, r| {
        differing(d, n, b, r, left_out)
    }),
    bound_of("24 clause more", |d, n, b, r| {
        differing(d, n, b, r, one_more)
    }),
    bound_of("24 other clause", |d, n, b, r| {
        differing(d, n, b, r, other_clause)
    }),
    bound_of("24 literal negated", |d, n, b, r| {
        differing(d, n, b, r, literal_negated)
    }),
    bound_of("24 literal missing", |d, n, b, r| {
        differing(d, n, b, r, literal_missing)
    }),
    bound_of("24 literal extra", |d, n, b, r| {
        differing(d, n, b, r, literal_extra)
    }),
];

/// The bound of a mistaken total.
fn total(draft: &Draft, body: &mut Body, total: impl Fn(&Sums) -> i128) -> Option<()> {
    let sums = sums(draft, body)?;
    set_bound(body, sums.bound_of(total(&sums)))
}

/// The bound of a total to which each variable adds something else.
fn shares(draft: &Draft, body: &mut Body, added: fn(&Share) -> i128) -> Option<()> {
    total(draft, body, |sums| sums.total_by(added))
}

/// A total below 0, read as 64 bits without a sign.
fn unsigned(draft: &Draft, _: u32, body: &mut Body, random: &mut Random) -> Option<()> {
    let sums = sums(draft, body)?;
    let (total, divisor) = (sums.total() as u64, sums.divisor as u64);
    if sums.total() >= 0 {
        return None;
    }
    let divided = total.div_ceil(divisor);
    let turned = (sums.total().div_euclid(sums.divisor)) as u64;
    let rounded = *random.pick(&[total, divided, turned])?;
    set_bound(body, rounded.wrapping_add(sums.loss))
}

/// As if the weights of an earlier step were still on the variables.
fn earlier_remainders(draft: &Draft, own: u32, body: &mut Body, random: &mut Random) -> Option<()> {
    let before = &draft.steps[..own as usize - 1];
    let before: Vec<&Vec<u8>> = before.iter().filter(|step| is_weighted(step)).collect();
    let earlier = Weights::read(&Body::read(random.pick(&before)?)?.tail)?;
    let mut sums = sums(draft, body)?;
    for (number, weight) in earlier.entries {
        for code in draft.clause(number)? {
            let place = usize::from(code / 2).checked_sub(1)?;
            sums.shares.get_mut(place)?.weigh(code, i128::from(weight));
        }
    }
    set_bound(body, sums.bound())
}

/// As if the variables of the step before were still settled.
fn earlier_literals(draft: &Draft, own: u32, body: &mut Body, _: &mut Random) -> Option<()> {
    let mut settled = body.clone();
    for code in draft.step(own.checked_sub(1)?)?.literals {
        if settled.has_room_for(code) {
            settled.add(code);
        }
    }
    set_bound(body, bound(draft, &settled)?)
}

/// Changes a step that stays well formed and cites well, where its bound is wrong then.
fn differing(
    draft: &Draft,
    own: u32,
    body: &mut Body,
    random: &mut Random,
    change: Change,
) -> Option<()> {
    change(draft, own, body, random)?;
    let weights = Weights::read(&body.tail)?;
    let good = weights.cite_well(draft.clauses.len()) && weights.all_positive();
    (good && bound(draft, body)? != body.bound).then_some(())
}

/// One of the two bytes becomes another.
fn byte_changed(number: &mut u16, random: &mut Random) {
    *number ^= (random.between(1, 255) as u16) << (8 * random.below(2));
}

fn divisor_byte(_: &Draft, _: u32, body: &mut Body, random: &mut Random) -> Option<()> {
    reweigh(body, |weights| {
        byte_changed(&mut weights.divisor, random);
        Some(())
    })
}

fn weight_byte(_: &Draft, _: u32, body: &mut Body, random: &mut Random) -> Option<()> {
    reweigh(body, |weights| {
        let place = random.below(weights.entries.len());
        byte_changed(&mut weights.entries[place].1, random);
        Some(())
    })
}

fn exchanged(_: &Draft, _: u32, body: &mut Body, random: &mut Random) -> Option<()> {
    reweigh(body, |weights| {
        let (this, that) = (0, random.below(weights.entries.len()));
        let weight = weights.entries[this].1;
        weights.entries[this].1 = weights.entries[that].1;
        weights.entries[that].1 = weight;
        Some(())
    })
}

fn left_out(_: &Draft, _: u32, body: &mut Body, random: &mut Random) -> Option<()> {
    reweigh(body, |weights| {
        weights.entries.remove(random.below(weights.entries.len()));
        Some(())
    })
}

/// Any clause more, with a small weight.
pub fn one_more(draft: &Draft, _: u32, body: &mut Body, random: &mut Random) -> Option<()> {
    let number = random.between(1, draft.clauses.len().max(1)) as u32;
    reweigh(body, |weights| {
        weights.entries.push((number, random.between(1, 4) as u16));
        weights.entries.sort_unstable();
        Some(())
    })
}

fn other_clause(draft: &Draft, _: u32, body: &mut Body, random: &mut Random) -> Option<()> {
    reweigh(body, |weights| {
        let place = random.below(weights.entries.len());
        weights.entries[place].0 = random.between(1, draft.clauses.len().max(1)) as u32;
        weights.entries.sort_unstable();
        Some(())
    })
}
