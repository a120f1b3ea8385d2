//! Steps with many literals. Two of them seldom resolve, and then to a longer list still: so a cost step, which may hold any
//! literals, is made after an earlier step as its partner, with the pivot the other way and most of the rest the same.

use super::{keep, resolution_of, Padding, Premise};
use crate::certificate::Step;
use crate::problem::Literal;
use std::rc::Rc;

/// How many literals a step has.
pub const FEWEST: usize = 20;
pub const MOST: usize = 40;

/// How many steps are remembered, and how many pairs.
const REMEMBERED: usize = 1_000;
/// How many pairs are enough for resolutions alone.
pub(super) const PAIRS: usize = 250;
/// How many literals a step has at the most that its partner has not.
const FRESH: usize = 8;

/// Two steps that resolve.
#[derive(Clone)]
pub(super) struct Pair {
    positive: Premise,
    negative: Premise,
    pivot: usize,
}

impl Padding<'_> {
    pub(super) fn remember_long(&mut self, number: u32, step: &Step) {
        let shared = Rc::new((number, step.clone()));
        if let Some((other, literal)) = self.partner.take() {
            let (this, pivot) = (Rc::clone(&shared), literal.variable());
            let (positive, negative) = match literal.is_positive() {
                true => (other, this),
                false => (this, other),
            };
            let pair = Pair {
                positive,
                negative,
                pivot,
            };
            keep(&mut self.pairs, pair, REMEMBERED, &mut self.random);
        }
        if (FEWEST..=MOST).contains(&step.literals.len()) {
            keep(&mut self.lengthy, shared, REMEMBERED, &mut self.random);
        }
    }

    pub(super) fn long_resolution(&mut self) -> Option<Step> {
        let Pair {
            positive,
            negative,
            pivot,
        } = self.random.pick(&self.pairs)?.clone();
        resolution_of(&positive, &negative, pivot)
    }

    /// A cost step that resolves with an earlier step to 20 to 40 literals.
    pub(super) fn partner(&mut self) -> Option<Step> {
        let other = Rc::clone(self.random.pick(&self.lengthy)?);
        let mut rest = other.1.literals.clone();
        let pivot = rest.swap_remove(self.random.below(rest.len()));
        let fresh = self.random.between(1, FRESH.min(MOST - rest.len()));
        let fewest = FEWEST.saturating_sub(1 + fresh);
        let kept = self
            .random
            .between(fewest, rest.len().min(MOST - 1 - fresh));
        let taken: Vec<usize> = other
            .1
            .literals
            .iter()
            .map(|held| held.variable())
            .collect();
        while rest.len() > kept {
            rest.swap_remove(self.random.below(rest.len()));
        }
        rest.push(pivot.negated());
        let literals = self.filled(rest, taken, kept + 1 + fresh);
        self.partner = Some((other, pivot));
        Some(self.cost_of(literals))
    }

    /// A cost step of any literals.
    pub(super) fn long_cost(&mut self) -> Step {
        let wanted = self.random.between(FEWEST, MOST);
        let literals = self.filled(Vec::new(), Vec::new(), wanted);
        self.cost_of(literals)
    }

    /// As many literals as wanted, in order: the new ones are of variables that are not taken.
    pub(super) fn filled(
        &mut self,
        mut literals: Vec<Literal>,
        mut taken: Vec<usize>,
        wanted: usize,
    ) -> Vec<Literal> {
        while literals.len() < wanted {
            let literal = self.literal();
            if !taken.contains(&literal.variable()) {
                taken.push(literal.variable());
                literals.push(literal);
            }
        }
        literals.sort_unstable();
        literals
    }

    /// An independent set with literals enough, citing as many clauses as these have room for.
    pub(super) fn long_independent(&mut self) -> Option<Step> {
        let tries = self.random.between(1, 5);
        let mut gathered = self.gather(tries, MOST)?;
        let wanted = self.random.between(FEWEST, MOST);
        while gathered.literals.len() < wanted {
            let extra = self.literal();
            gathered.settle(extra);
        }
        gathered.step(self.problem)
    }
}
