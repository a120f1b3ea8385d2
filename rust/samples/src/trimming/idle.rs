//! Idle steps, brought into good records: copies, costs, independent sets, weights, steps that are there already, and
//! resolutions of whatever stands before them. They are good themselves, so that a record's answer stays but for its step count.

use crate::draft::{codes, Body, Draft};
use crate::random::Random;
use crate::weights::branch::{copy, resolution};
use crate::weights::steps::some_step;
use crate::widening::records::some_bound;
use crate::widening::KIND;

/// How many pairs of steps are tried for a resolution: most have no pivot, or two.
const TRIES: usize = 30;

/// A good record with so many idle steps more, anywhere before its last step.
pub fn padded(draft: &Draft, count: usize, random: &mut Random) -> Draft {
    let mut before = vec![0; draft.steps.len()];
    for _ in 0..count {
        before[random.below(draft.steps.len())] += 1;
    }
    let mut padding = Padding {
        draft,
        steps: Vec::new(),
        moved: Vec::new(),
    };
    for (step, idle) in draft.steps.iter().zip(before) {
        for _ in 0..idle {
            let step = padding.idle(random);
            padding.steps.push(step);
        }
        padding.own(step);
    }
    Draft {
        steps: padding.steps.iter().map(Body::bytes).collect(),
        ..draft.clone()
    }
}

/// A record as far as its steps have been gone through.
struct Padding<'a> {
    draft: &'a Draft,
    /// Its own steps and those put in.
    steps: Vec<Body>,
    /// The numbers that its own have now.
    moved: Vec<u32>,
}

impl Padding<'_> {
    /// The record's own next step, which cites others of its own.
    fn own(&mut self, step: &[u8]) {
        let mut body = Body::read(step).expect("the record is good");
        if body.kind == KIND {
            for part in 0..2 {
                let cited = body.citation(part).expect("a resolution cites two steps");
                body.cite(part, self.moved[cited as usize - 1]);
            }
        }
        self.steps.push(body);
        self.moved.push(self.steps.len() as u32);
    }

    fn idle(&self, random: &mut Random) -> Body {
        let drawn = match random.below(10) {
            0 => self.copy(random),
            1 => self.independent(random),
            2 => some_step(self.draft, random),
            3 | 4 => random.pick(&self.steps).cloned(),
            5..=8 => self.resolution(random),
            _ => None,
        };
        drawn.unwrap_or_else(|| self.cost(random))
    }

    fn copy(&self, random: &mut Random) -> Option<Body> {
        let count = self.draft.clauses.len();
        (count > 0).then(|| copy(self.draft, random.below(count)))
    }

    /// One clause, whose negative literals are settled; nothing where it has no others.
    fn independent(&self, random: &mut Random) -> Option<Body> {
        let place = random.below(self.draft.clauses.len().max(1));
        let literals = codes(self.draft.clauses.get(place)?).into_iter();
        let (left, settled): (Vec<u16>, Vec<u16>) =
            literals.partition(|code| code.is_multiple_of(2));
        let least = left.iter().map(|code| self.draft.cost_of(*code)).min()?;
        let mut step = Body::cost(self.draft, settled);
        step.kind = 3;
        step.bound += least;
        step.tail = (place as u32 + 1).to_le_bytes().to_vec();
        Some(step)
    }

    fn cost(&self, random: &mut Random) -> Body {
        let mut step = Body::cost(self.draft, Vec::new());
        for _ in 0..random.below(4) {
            self.add_literal(&mut step, random);
        }
        Body::cost(self.draft, step.literals)
    }

    /// Any literal, unless its variable is there.
    fn add_literal(&self, body: &mut Body, random: &mut Random) {
        let code = random.between(2, 2 * self.draft.variables() + 1) as u16;
        if body.has_room_for(code) {
            body.add(code);
        }
    }

    /// A resolution of two steps that stand before it, at times a wider one.
    fn resolution(&self, random: &mut Random) -> Option<Body> {
        let count = self.steps.len().max(1);
        let mut tries = (0..TRIES).map(|_| [random.below(count), random.below(count)]);
        let mut resolved = tries.find_map(|places| self.resolved(places))?;
        if random.percent(30) {
            (0..2).for_each(|_| self.add_literal(&mut resolved, random));
            resolved.bound = some_bound(0, resolved.bound, random);
        }
        Some(resolved)
    }

    /// What the steps at these places resolve to; nothing where they clash on no variable, or on more than one.
    fn resolved(&self, [one, other]: [usize; 2]) -> Option<Body> {
        let [held, others] = [self.steps.get(one)?, self.steps.get(other)?];
        let mut clashing = held.literals.clone();
        clashing.retain(|code| others.holds(code ^ 1));
        let [code] = clashing[..] else {
            return None;
        };
        let [a, b] = if code.is_multiple_of(2) {
            [one, other]
        } else {
            [other, one]
        };
        let mut resolvent = [&held.literals[..], &others.literals].concat();
        resolvent.retain(|literal| literal / 2 != code / 2);
        resolvent.sort_unstable();
        resolvent.dedup();
        let premises = [a, b].map(|place| (&self.steps[place], place + 1));
        Some(resolution(premises, code / 2, resolvent))
    }
}
