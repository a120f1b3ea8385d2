//! Wider resolutions: by change 5 of document 02 a step of kind 4 may hold literals that its premises do not ask for, and have
//! a bound below the lesser one. Here is what the premises do ask for; `records` makes records with such steps.

pub mod records;

use crate::draft::{Body, Draft, Files};
use crate::Sample;
use planner::NONE;
use reference::Answer;

/// The kind as a step stores it.
pub const KIND: u8 = 4;

/// The refusal that is told when all steps were found good.
const CLOSE: u32 = 19;

/// What its premises ask of a resolution.
#[derive(Clone, Debug, PartialEq, Eq)]
pub struct Needed {
    /// All of these have to stand in it. Where a variable is here both ways, no list in form has them.
    pub literals: Vec<u16>,
    /// The lesser of both bounds, which its own may not be above.
    pub bound: u64,
}

impl Needed {
    /// Nothing where a premise is none of the record's steps, or where no code is twice the pivot.
    pub fn of(draft: &Draft, body: &Body) -> Option<Needed> {
        let code = body.pivot()?.checked_mul(2)?;
        let [mut a, mut b] = premises(draft, body)?;
        a.remove(code);
        b.remove(code + 1);
        let mut literals = [a.literals, b.literals].concat();
        literals.sort_unstable();
        literals.dedup();
        Some(Needed {
            literals,
            bound: a.bound.min(b.bound),
        })
    }
}

pub fn premises(draft: &Draft, body: &Body) -> Option<[Body; 2]> {
    let [a, b] = [0, 1].map(|part| draft.step(body.citation(part)?));
    Some([a?, b?])
}

/// The resolution at a place counted from 0.
pub fn resolution_at(draft: &Draft, place: usize) -> Option<Body> {
    let body = Body::read(draft.steps.get(place)?)?;
    (body.kind == KIND).then_some(body)
}

/// Whether a good resolution holds a literal that its premises do not ask for, or has a bound below the lesser one.
pub fn is_wider(draft: &Draft, body: &Body) -> bool {
    let needed = Needed::of(draft, body).filter(|_| body.kind == KIND);
    needed.is_some_and(|needed| needed.literals != body.literals || needed.bound != body.bound)
}

/// How many of the first steps, which are good, are wider resolutions.
pub fn count(draft: &Draft, good: usize) -> usize {
    let found = (0..good).filter_map(|place| resolution_at(draft, place));
    found.filter(|body| is_wider(draft, body)).count()
}

/// How many wider resolutions were found good before this answer was given.
pub fn passed(sample: &Sample, answer: &Answer) -> usize {
    let good = match answer.number {
        0 => answer.step_count,
        CLOSE => answer.place,
        8 | 9 | 12.. => answer.place - 1,
        _ => 0,
    };
    if good == 0 {
        return 0;
    }
    let (sheet, record) = (sample.sheet.clone(), sample.record.clone());
    let draft = Draft::read(&Files { sheet, record });
    draft.map_or(0, |draft| count(&draft, good as usize))
}

/// Which steps, by their places, the one at a place rests on; it is one of them.
pub fn rested_on(draft: &Draft, from: usize) -> Vec<bool> {
    let mut found = vec![false; draft.steps.len()];
    for place in (0..found.len()).rev() {
        found[place] |= place == from;
        if let Some(body) = resolution_at(draft, place).filter(|_| found[place]) {
            let premises = cited_before(&body, place).into_iter();
            premises.for_each(|premise| found[premise] = true);
        }
    }
    found
}

/// The places of the steps that a resolution cites, of those that are before it.
pub fn cited_before(body: &Body, place: usize) -> Vec<usize> {
    let numbers = (0..2).filter_map(|part| body.citation(part));
    let places = numbers.filter_map(|number| (number as usize).checked_sub(1));
    places.filter(|cited| *cited < place).collect()
}

/// A resolution with each of its literals left out or turned round, with each further one, and with bounds about the lesser
/// one. All of them are in form.
fn variants(draft: &Draft, body: &Body) -> Vec<Body> {
    let mut made = other_literals(draft, body);
    let bounds = premises(draft, body).map(|premises| premises.map(|premise| premise.bound));
    let [a, b] = bounds.unwrap_or([body.bound; 2]);
    let lesser = a.min(b);
    for bound in [
        0,
        lesser.saturating_sub(1),
        lesser,
        lesser.saturating_add(1),
        lesser ^ 1 << 32,
        lesser ^ 1 << 63,
        a.max(b),
        NONE,
    ] {
        made.push(Body {
            bound,
            ..body.clone()
        });
    }
    made
}

/// The record with each variant of each resolution in its place, and this place, counted from 0.
pub fn one_off(draft: &Draft) -> Vec<(usize, Draft)> {
    let all = 0..draft.steps.len();
    let found = all.filter_map(|place| Some((place, resolution_at(draft, place)?)));
    let varied = found.flat_map(|(place, body)| {
        let bodies = variants(draft, &body).into_iter();
        bodies.map(move |body| (place, body))
    });
    let with = |(place, body): (usize, Body)| {
        let mut changed = draft.clone();
        changed.steps[place] = body.bytes();
        (place, changed)
    };
    varied.map(with).collect()
}

fn other_literals(draft: &Draft, body: &Body) -> Vec<Body> {
    let codes = 2..2 * draft.variables() as u16 + 2;
    let other = |code: u16| {
        let mut other = body.clone();
        other.remove(code);
        if !body.holds(code) {
            other.remove(code ^ 1);
            other.add(code);
        }
        other
    };
    codes.map(other).collect()
}
