//! Steps of weighted clauses. Any weights and literals make a right one, so they are drawn for variety: remainders above and
//! below zero, bounds that are rounded and totals that are not positive.

use super::lengthy::{FEWEST, MOST};
use super::Padding;
use crate::bounds::linear_bound;
use crate::certificate::{Reason, Step};
use crate::problem::Literal;

/// How many clauses are drawn at the most: of long ones about as many as an independent set has.
const DRAWN: usize = 5;
const LONG_DRAWN: usize = 3;

impl Padding<'_> {
    pub(super) fn linear(&mut self) -> Option<Step> {
        let clauses = self.drawn_clauses(DRAWN)?;
        let mut literals = self.settled_in(&clauses);
        if self.random.percent(50) {
            literals.push(self.literal());
        }
        literals.sort_unstable();
        literals.dedup_by_key(|literal| literal.variable());
        Some(self.linear_of(literals, clauses))
    }

    /// With literals enough: more of them where the clauses supply too few, and not all where they supply too many.
    pub(super) fn long_linear(&mut self) -> Option<Step> {
        let clauses = self.drawn_clauses(LONG_DRAWN)?;
        let mut literals = self.settled_in(&clauses);
        let wanted = self.random.between(FEWEST, MOST);
        while literals.len() > wanted {
            literals.swap_remove(self.random.below(literals.len()));
        }
        let taken = literals.iter().map(|held| held.variable()).collect();
        let literals = self.filled(literals, taken, wanted);
        Some(self.linear_of(literals, clauses))
    }

    /// The numbers of some clauses, in order.
    fn drawn_clauses(&mut self, most: usize) -> Option<Vec<u32>> {
        let count = self.problem.clauses.len();
        if count == 0 {
            return None;
        }
        let drawn = self.random.between(1, most);
        let mut clauses: Vec<u32> = (0..drawn)
            .map(|_| self.random.below(count) as u32 + 1)
            .collect();
        clauses.sort_unstable();
        clauses.dedup();
        Some(clauses)
    }

    /// Settles variables of the clauses: mostly so that a literal becomes false, and negative literals more often than
    /// positive ones, as a planner's steps do.
    fn settled_in(&mut self, clauses: &[u32]) -> Vec<Literal> {
        let mut literals: Vec<Literal> = Vec::new();
        for clause in clauses {
            for literal in &self.problem.clauses[*clause as usize - 1] {
                let taken = |held: &Literal| held.variable() == literal.variable();
                if literals.iter().any(taken) {
                    continue;
                }
                let falsified = if literal.is_positive() { 20 } else { 75 };
                match self.random.below(100) {
                    share if share < falsified => literals.push(*literal),
                    share if share < falsified + 5 => literals.push(literal.negated()),
                    _ => {}
                }
            }
        }
        literals
    }

    /// The step of literals and clauses, both in order, with weights that are small, middling or any.
    fn linear_of(&mut self, literals: Vec<Literal>, clauses: Vec<u32>) -> Step {
        let divisor = match self.random.below(4) {
            0 | 1 => 1,
            2 => self.random.between(2, 9) as u16,
            _ => self.random.between(1, u16::MAX.into()) as u16,
        };
        let most = [9, 999, u16::MAX.into()][self.random.below(3)];
        let weights: Vec<(u32, u16)> = clauses
            .into_iter()
            .map(|clause| (clause, self.random.between(1, most) as u16))
            .collect();
        let bound = linear_bound(self.problem, &literals, divisor, &weights);
        let reason = Reason::Linear { divisor, weights };
        Step {
            literals,
            bound,
            reason,
        }
    }
}
