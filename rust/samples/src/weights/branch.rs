//! Certificates as a linear planner would write them: branches on one variable after the other, each closed by a clause that
//! is false there or by weights whose bound reaches the claim.

use super::steps::some_divisor;
use super::{ascent, Weights};
use crate::draft::{codes, Body, Draft};
use crate::random::Random;
use planner::NONE;

/// Longer certificates are given up.
const MOST_STEPS: usize = 40;

/// Steps that bear out the record's claim; nothing where they would be too many.
pub fn certificate(draft: &Draft, random: &mut Random) -> Option<Vec<Body>> {
    let steps = Vec::new();
    let mut branching = Branching {
        draft,
        random,
        steps,
    };
    branching.close(&mut Vec::new())?;
    Some(branching.steps)
}

struct Branching<'a> {
    draft: &'a Draft,
    random: &'a mut Random,
    steps: Vec<Body>,
}

impl Branching<'_> {
    /// Derives a statement from among these literals, of the variables up to the last of them, with a bound that is no less
    /// than the claim. It is the last step then, and this is its number.
    fn close(&mut self, literals: &mut Vec<u16>) -> Option<usize> {
        if let Some(leaf) = self.leaf(literals) {
            return self.push(leaf);
        }
        let variable = literals.len() as u16 + 1;
        let mut sides = [0; 2];
        for (side, code) in sides.iter_mut().zip([2 * variable, 2 * variable + 1]) {
            literals.push(code);
            let closed = self.close(literals);
            literals.pop();
            *side = closed?;
            // It holds without this variable, so the other side need not be looked at.
            if !self.steps[*side - 1].holds(code) {
                return closed;
            }
        }
        let premises = sides.map(|side| (&self.steps[side - 1], side));
        let both = premises.iter().flat_map(|(body, _)| &body.literals);
        let mut resolvent: Vec<u16> = both.copied().filter(|c| c / 2 != variable).collect();
        resolvent.sort_unstable();
        resolvent.dedup();
        let resolved = resolution(premises, variable, resolvent);
        self.push(resolved)
    }

    fn push(&mut self, body: Body) -> Option<usize> {
        self.steps.push(body);
        (self.steps.len() <= MOST_STEPS).then_some(self.steps.len())
    }

    /// One step that closes the branch.
    fn leaf(&mut self, literals: &[u16]) -> Option<Body> {
        let is_false = |clause: &[u16]| clause.iter().all(|code| literals.contains(code));
        let mut clauses = self.draft.clauses.iter().map(|clause| codes(clause));
        if let Some(place) = clauses.position(|clause| is_false(&clause)) {
            return Some(copy(self.draft, place));
        }
        let reaches = |body: &Body| self.draft.claim != NONE && body.bound >= self.draft.claim;
        let divisors = [1, 2, some_divisor(self.random)];
        for divisor in divisors {
            let mut entries = ascent::entries(self.draft, literals, divisor, self.random);
            if entries.is_empty() && !self.draft.clauses.is_empty() {
                entries.push((1, 1));
            }
            if entries.is_empty() {
                break;
            }
            let weights = Weights { divisor, entries };
            let step = weights.step(self.draft, literals.to_vec());
            if let Some(step) = step.filter(reaches) {
                return Some(self.shortened(&weights, step));
            }
        }
        let all = literals.len() == self.draft.variables();
        all.then(|| Body::cost(self.draft, literals.to_vec()))
    }

    /// Without the literals that the claim does not need.
    fn shortened(&self, weights: &Weights, mut step: Body) -> Body {
        for code in step.literals.clone() {
            let rest = step.literals.iter().copied().filter(|c| *c != code);
            let shorter = weights.step(self.draft, rest.collect());
            if let Some(shorter) = shorter.filter(|body| body.bound >= self.draft.claim) {
                step = shorter;
            }
        }
        step
    }
}

/// The resolution of two steps, which have these numbers, on the pivot; the resolvent is theirs.
pub fn resolution(premises: [(&Body, usize); 2], pivot: u16, resolvent: Vec<u16>) -> Body {
    let mut tail = Vec::new();
    for (_, number) in premises {
        tail.extend_from_slice(&(number as u32).to_le_bytes());
    }
    tail.extend_from_slice(&pivot.to_le_bytes());
    Body {
        kind: 4,
        spare: 0,
        literals: resolvent,
        bound: premises[0].0.bound.min(premises[1].0.bound),
        tail,
    }
}

/// The copy of the clause at this place.
pub fn copy(draft: &Draft, place: usize) -> Body {
    Body {
        kind: 1,
        spare: 0,
        literals: codes(&draft.clauses[place]),
        bound: NONE,
        tail: (place as u32 + 1).to_le_bytes().to_vec(),
    }
}
