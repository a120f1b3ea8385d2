//! One branch of a tree of decisions: the cost clause that ends it, and the variable that splits it best.

use super::super::lower::independent_clauses;
use super::super::trail::Trail;
use super::super::weights::Ascent;
use super::super::Bounds;
use crate::bounds::{cost_bound, independent_bound, linear_bound};
use crate::certificate::{Reason, Step};
use crate::problem::{Literal, Problem, NONE};

/// How many variables are tried before a branch is split.
const TRIED: usize = 8;

/// What the clauses say to a branch.
enum State {
    /// This clause, numbered from 1, has all its literals false.
    Broken(u32),
    /// Every clause has a true literal, so that the variables without a value may be false.
    Satisfied,
    /// The unset literals of each clause that has no true one.
    Open(Vec<Vec<Literal>>),
}

/// A look at one branch at a time.
pub struct Branches<'a> {
    problem: &'a Problem,
    trail: Trail,
    ascent: Option<Ascent<'a>>,
    /// The cost that weights are to reach.
    guide: u64,
}

/// What ends a branch.
pub struct End {
    /// A cost clause whose literals are all false in the branch.
    pub step: Step,
    /// The variable to split on, where there is more to find out.
    pub split: Option<usize>,
    /// The cheapest assignment of the branch, where it is known.
    pub model: Option<Vec<bool>>,
}

impl<'a> Branches<'a> {
    pub fn new(problem: &'a Problem, bounds: Bounds, guide: u64) -> Self {
        let all = problem.cost(&vec![true; problem.variables()]);
        Branches {
            problem,
            trail: Trail::new(problem.variables()),
            ascent: (bounds == Bounds::Weights).then(|| Ascent::new(problem)),
            guide: guide.min(all),
        }
    }

    /// The end of the branch with these decisions, oldest first.
    pub fn end(&mut self, decided: &[Literal]) -> End {
        self.trail.return_to(0);
        for literal in decided {
            self.trail.decide(*literal);
        }
        match self.state() {
            State::Broken(clause) => End {
                step: Step {
                    literals: self.problem.clauses[clause as usize - 1].clone(),
                    bound: NONE,
                    reason: Reason::Copy { clause },
                },
                split: None,
                model: None,
            },
            State::Satisfied => End {
                step: self.step(Reason::Cost),
                split: None,
                model: Some(self.trail.assignment()),
            },
            State::Open(clauses) => End {
                step: self.bounded(),
                split: Some(self.splitting(&clauses)),
                model: None,
            },
        }
    }

    fn state(&self) -> State {
        let mut open = Vec::new();
        for (place, clause) in self.problem.clauses.iter().enumerate() {
            let mut values = clause.iter().map(|literal| self.trail.value(*literal));
            if values.any(|value| value == Some(true)) {
                continue;
            }
            let literals = clause.iter().copied();
            let unset = literals.filter(|literal| self.trail.value(*literal).is_none());
            let unset: Vec<Literal> = unset.collect();
            if unset.is_empty() {
                return State::Broken(place as u32 + 1);
            }
            open.push(unset);
        }
        match open.is_empty() {
            true => State::Satisfied,
            false => State::Open(open),
        }
    }

    /// The step with every decision's literal and this reason.
    fn step(&self, reason: Reason) -> Step {
        let decided = self.trail.order().iter();
        let mut literals: Vec<Literal> = decided.map(|literal| literal.negated()).collect();
        literals.sort_unstable();
        let bound = bound(self.problem, &literals, &reason);
        let bound = bound.expect("the chosen clauses are independent");
        Step {
            literals,
            bound,
            reason,
        }
    }

    /// The better one of independent clauses and weighted ones.
    fn bounded(&mut self) -> Step {
        let (mut clauses, _) = independent_clauses(self.problem, &self.trail);
        clauses.sort_unstable();
        let plain = match clauses.is_empty() {
            true => self.step(Reason::Cost),
            false => self.step(Reason::Independent { clauses }),
        };
        let ascent = self.ascent.as_mut();
        let weighted = ascent.and_then(|ascent| ascent.best(&self.trail, self.guide));
        let weighted =
            weighted.map(|(divisor, weights)| self.step(Reason::Linear { divisor, weights }));
        match weighted {
            Some(weighted) if weighted.bound > plain.bound => weighted,
            _ => plain,
        }
    }

    /// Of the variables that stand in short clauses, the one whose worse side is best, then the one whose better side is.
    fn splitting(&mut self, clauses: &[Vec<Literal>]) -> usize {
        let mut chosen: Option<([u64; 2], usize)> = None;
        for variable in in_short_clauses(self.problem.variables(), clauses) {
            let mut sides = [false, true].map(|value| self.side(Literal::new(variable, value)));
            sides.sort_unstable();
            if chosen.is_none_or(|(best, _)| sides > best) {
                chosen = Some((sides, variable));
            }
        }
        chosen.expect("an open clause has an unset literal").1
    }

    /// What independent clauses give once this literal is true too.
    fn side(&mut self, literal: Literal) -> u64 {
        let level = self.trail.level();
        self.trail.decide(literal);
        let bound = match self.state() {
            State::Broken(_) => NONE,
            _ => independent_clauses(self.problem, &self.trail).1,
        };
        self.trail.return_to(level);
        bound
    }
}

/// The variables that are in most clauses and the shortest: each literal more makes a clause count half as much.
fn in_short_clauses(variables: usize, clauses: &[Vec<Literal>]) -> Vec<usize> {
    let mut scores = vec![0_u64; variables + 1];
    for clause in clauses {
        let score = 1 << 40_usize.saturating_sub(clause.len());
        for literal in clause {
            scores[literal.variable()] += score;
        }
    }
    let mut met: Vec<usize> = (1..=variables).filter(|v| scores[*v] > 0).collect();
    met.sort_by_key(|variable| std::cmp::Reverse(scores[*variable]));
    met.truncate(TRIED);
    met
}

/// The bound that the reason gives these literals; nothing where it does not hold for them.
fn bound(problem: &Problem, literals: &[Literal], reason: &Reason) -> Option<u64> {
    match reason {
        Reason::Cost => Some(cost_bound(problem, literals)),
        Reason::Independent { clauses } => independent_bound(problem, literals, clauses),
        Reason::Linear { divisor, weights } => {
            Some(linear_bound(problem, literals, *divisor, weights))
        }
        Reason::Copy { .. } | Reason::Resolution { .. } => None,
    }
}

/// The step without the literals that it does not need for a bound of `target`; the youngest decisions' go first.
pub fn shortened(problem: &Problem, step: &Step, decided: &[Literal], target: u64) -> Step {
    let mut step = step.clone();
    for literal in decided.iter().rev().map(|literal| literal.negated()) {
        let mut fewer = step.literals.clone();
        fewer.retain(|other| *other != literal);
        let reached = bound(problem, &fewer, &step.reason).filter(|reached| *reached >= target);
        if let Some(bound) = reached {
            (step.literals, step.bound) = (fewer, bound);
        }
    }
    step
}
