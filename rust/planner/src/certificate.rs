//! A certificate under construction: cost clauses, each with the reason that derives it.

use crate::bounds::{cost_bound, independent_bound, linear_bound, resolvent};
use crate::problem::{Literal, Problem, NONE};

/// How a step is derived. Clauses and steps are cited by their numbers, from 1.
#[derive(Clone, Debug, PartialEq, Eq)]
pub enum Reason {
    /// Kind 1: a clause of the sheet.
    Copy { clause: u32 },
    /// Kind 2: the true variables and the standing loss cost that much.
    Cost,
    /// Kind 3: independent clauses add their least costs to what kind 2 has.
    Independent { clauses: Vec<u32> },
    /// Kind 4: `positive` holds the pivot as a positive literal, `negative` as a negative one. The step holds what is left of
    /// both at least, and its bound is the lesser of theirs at most.
    Resolution {
        positive: u32,
        negative: u32,
        pivot: u16,
    },
    /// Kind 5: the sum of clauses as linear constraints, each times its weight, over the divisor. Clauses rise.
    Linear {
        divisor: u16,
        weights: Vec<(u32, u16)>,
    },
}

/// One cost clause with its reason.
#[derive(Clone, Debug, PartialEq, Eq)]
pub struct Step {
    pub literals: Vec<Literal>,
    pub bound: u64,
    pub reason: Reason,
}

/// Steps in order; every helper appends one valid step and gives back its number.
pub struct Certificate<'a> {
    problem: &'a Problem,
    steps: Vec<Step>,
}

impl<'a> Certificate<'a> {
    pub fn new(problem: &'a Problem) -> Self {
        let steps = Vec::new();
        Certificate { problem, steps }
    }

    pub fn step(&self, number: u32) -> &Step {
        &self.steps[number as usize - 1]
    }

    pub fn push(&mut self, step: Step) -> u32 {
        self.steps.push(step);
        u32::try_from(self.steps.len()).expect("steps are numbered in 4 bytes")
    }

    /// Copies a clause of the sheet, numbered from 1.
    pub fn copy(&mut self, clause: u32) -> u32 {
        let literals = self.problem.clauses[clause as usize - 1].clone();
        let reason = Reason::Copy { clause };
        self.push(Step {
            literals,
            bound: NONE,
            reason,
        })
    }

    pub fn cost(&mut self, mut literals: Vec<Literal>) -> u32 {
        literals.sort_unstable();
        let bound = cost_bound(self.problem, &literals);
        let reason = Reason::Cost;
        self.push(Step {
            literals,
            bound,
            reason,
        })
    }

    /// Nothing when the clauses are not independent where the literals are false.
    pub fn independent(
        &mut self,
        mut literals: Vec<Literal>,
        mut clauses: Vec<u32>,
    ) -> Option<u32> {
        literals.sort_unstable();
        clauses.sort_unstable();
        let bound = independent_bound(self.problem, &literals, &clauses)?;
        let reason = Reason::Independent { clauses };
        Some(self.push(Step {
            literals,
            bound,
            reason,
        }))
    }

    /// The clauses rise, and neither a weight nor the divisor is 0.
    pub fn linear(
        &mut self,
        mut literals: Vec<Literal>,
        divisor: u16,
        weights: Vec<(u32, u16)>,
    ) -> u32 {
        literals.sort_unstable();
        let bound = linear_bound(self.problem, &literals, divisor, &weights);
        let reason = Reason::Linear { divisor, weights };
        self.push(Step {
            literals,
            bound,
            reason,
        })
    }

    /// Resolves two earlier steps, given in either order, on the pivot variable. The step says all that they bear out: with
    /// further literals or a lesser bound it would be accepted too, but be worth less to later steps.
    pub fn resolve(&mut self, first: u32, second: u32, pivot: usize) -> Option<u32> {
        let up = Literal::positive(pivot);
        let swapped = self.step(first).literals.binary_search(&up).is_err();
        let (positive, negative) = if swapped {
            (second, first)
        } else {
            (first, second)
        };
        let (a, b) = (self.step(positive), self.step(negative));
        let literals = resolvent(&a.literals, &b.literals, pivot)?;
        let bound = a.bound.min(b.bound);
        let pivot = u16::try_from(pivot).ok()?;
        let reason = Reason::Resolution {
            positive,
            negative,
            pivot,
        };
        Some(self.push(Step {
            literals,
            bound,
            reason,
        }))
    }

    /// The steps that step `last` rests on, renumbered without gaps; `last` comes out last.
    pub fn needed_by(self, last: u32) -> Vec<Step> {
        let mut needed = vec![false; self.steps.len() + 1];
        needed[last as usize] = true;
        for number in (1..=last as usize).rev() {
            if !needed[number] {
                continue;
            }
            let reason = &self.steps[number - 1].reason;
            if let Reason::Resolution {
                positive, negative, ..
            } = reason
            {
                needed[*positive as usize] = true;
                needed[*negative as usize] = true;
            }
        }
        let mut renumbered = vec![0; needed.len()];
        let mut kept = Vec::new();
        for (place, mut step) in self.steps.into_iter().enumerate() {
            if !needed[place + 1] {
                continue;
            }
            step.reason = step.reason.renumbered(|number| renumbered[number as usize]);
            kept.push(step);
            renumbered[place + 1] = kept.len() as u32;
        }
        kept
    }
}

impl Reason {
    /// The number of the kind, as it is stored.
    pub fn kind(&self) -> u8 {
        match self {
            Reason::Copy { .. } => 1,
            Reason::Cost => 2,
            Reason::Independent { .. } => 3,
            Reason::Resolution { .. } => 4,
            Reason::Linear { .. } => 5,
        }
    }

    /// The same reason after the steps that it cites have moved.
    pub fn renumbered(self, moved: impl Fn(u32) -> u32) -> Reason {
        match self {
            Reason::Resolution {
                positive,
                negative,
                pivot,
            } => {
                let (positive, negative) = (moved(positive), moved(negative));
                Reason::Resolution {
                    positive,
                    negative,
                    pivot,
                }
            }
            other => other,
        }
    }
}
