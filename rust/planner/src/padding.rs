//! Valid steps that no certificate needs: they make records long and give every kind of step.

mod lengthy;
mod weighted;

use crate::bounds::{cost_bound, independent_bound, resolvent};
use crate::certificate::{Reason, Step};
use crate::problem::{Literal, Problem, NONE};
use crate::random::Random;
use lengthy::{Pair, PAIRS};
use std::rc::Rc;

/// How many steps are remembered for each literal, and how many literals one of them may have:
/// long premises would soon leave no pair that clashes on the pivot alone.
const REMEMBERED: usize = 64;
const LONGEST: usize = 12;

/// Which kinds the padding has.
#[derive(Clone, Copy, Debug, PartialEq, Eq)]
pub enum Mix {
    /// All kinds: five of nine steps are resolutions.
    Mixed,
    /// Resolutions, and only as many others as it takes to have premises.
    Resolution,
    /// A quarter of each of the first four kinds, in steps of 20 to 40 literals. The sheet has to have clauses of that length.
    Long,
    /// Such steps of one kind, and where that is resolution, as many others as it takes to have premises.
    LongOf(Kind),
}

/// The kinds in their order.
#[derive(Clone, Copy, Debug, PartialEq, Eq)]
pub enum Kind {
    Copy,
    Cost,
    Independent,
    Resolution,
    Linear,
}

/// The kinds of records that have none of weights; the first two need no premises.
const KINDS: [Kind; 4] = [Kind::Copy, Kind::Cost, Kind::Independent, Kind::Resolution];

/// The kinds of mixed records; the last one is drawn more often.
const MIXED: [Kind; 5] = [
    Kind::Copy,
    Kind::Cost,
    Kind::Independent,
    Kind::Linear,
    Kind::Resolution,
];

/// An earlier step under its number.
type Premise = Rc<(u32, Step)>;

pub struct Padding<'a> {
    problem: &'a Problem,
    random: Random,
    mix: Mix,
    made: usize,
    /// Earlier steps that hold each literal, by its code.
    holders: Vec<Vec<Premise>>,
    /// Earlier steps with many literals, pairs of them that resolve, and what the latest step was made to resolve with.
    lengthy: Vec<Premise>,
    pairs: Vec<Pair>,
    partner: Option<(Premise, Literal)>,
}

impl<'a> Padding<'a> {
    pub fn new(problem: &'a Problem, random: Random, mix: Mix) -> Self {
        let holders = vec![Vec::new(); 2 * problem.variables() + 2];
        Padding {
            problem,
            random,
            mix,
            made: 0,
            holders,
            lengthy: Vec::new(),
            pairs: Vec::new(),
            partner: None,
        }
    }

    /// A valid step for a certificate whose steps were all shown to `remember`.
    pub fn step(&mut self) -> Step {
        self.made += 1;
        let kind = match self.mix {
            Mix::Mixed => MIXED[self.random.below(9).min(4)],
            Mix::Long => KINDS[self.random.below(4)],
            Mix::Resolution | Mix::LongOf(Kind::Resolution) if self.lacks_premises() => {
                KINDS[self.random.below(2)]
            }
            Mix::Resolution => Kind::Resolution,
            Mix::LongOf(kind) => kind,
        };
        let step = match (kind, self.is_long()) {
            (Kind::Copy, _) => self.copy(),
            (Kind::Cost, false) => None,
            (Kind::Independent, false) => self.independent(),
            (Kind::Resolution, false) => self.resolution(),
            (Kind::Linear, false) => self.linear(),
            (Kind::Cost, true) => self.partner(),
            (Kind::Independent, true) => self.long_independent(),
            (Kind::Resolution, true) => self.long_resolution(),
            (Kind::Linear, true) => self.long_linear(),
        };
        step.unwrap_or_else(|| self.cost())
    }

    /// Whether it is too early for resolutions alone.
    fn lacks_premises(&self) -> bool {
        if self.is_long() {
            return self.pairs.len() < PAIRS;
        }
        self.made <= 2 * self.problem.clauses.len().max(self.problem.variables())
    }

    fn is_long(&self) -> bool {
        matches!(self.mix, Mix::Long | Mix::LongOf(_))
    }

    /// Makes a step, under its number, a premise for later resolutions.
    pub fn remember(&mut self, number: u32, step: &Step) {
        if self.is_long() {
            self.remember_long(number, step);
        } else if step.literals.len() <= LONGEST {
            let shared = Rc::new((number, step.clone()));
            for literal in &step.literals {
                let holders = &mut self.holders[usize::from(literal.code())];
                keep(holders, Rc::clone(&shared), REMEMBERED, &mut self.random);
            }
        }
    }

    fn copy(&mut self) -> Option<Step> {
        if self.problem.clauses.is_empty() {
            return None;
        }
        let place = self.random.below(self.problem.clauses.len());
        let literals = self.problem.clauses[place].clone();
        let reason = Reason::Copy {
            clause: place as u32 + 1,
        };
        Some(Step {
            literals,
            bound: NONE,
            reason,
        })
    }

    fn cost(&mut self) -> Step {
        if self.is_long() {
            return self.long_cost();
        }
        let wanted = self.random.below(self.problem.variables().min(6) + 1);
        let mut literals: Vec<Literal> = (0..wanted).map(|_| self.literal()).collect();
        literals.sort_unstable();
        literals.dedup_by_key(|literal| literal.variable());
        self.cost_of(literals)
    }

    /// The cost step of a list in order.
    fn cost_of(&self, literals: Vec<Literal>) -> Step {
        let bound = cost_bound(self.problem, &literals);
        Step {
            literals,
            bound,
            reason: Reason::Cost,
        }
    }

    fn literal(&mut self) -> Literal {
        let variable = self.random.between(1, self.problem.variables());
        Literal::new(variable, self.random.percent(50))
    }

    fn independent(&mut self) -> Option<Step> {
        let tries = self.random.between(1, 5);
        let mut gathered = self.gather(tries, usize::MAX)?;
        if self.random.percent(50) {
            gathered.settle(self.literal());
        }
        gathered.step(self.problem)
    }

    /// Gathers clauses that stay independent when all but some positive literals are made false, and no more than `most`.
    fn gather(&mut self, tries: usize, most: usize) -> Option<Gathered> {
        let mut gathered = Gathered::default();
        for _ in 0..tries {
            let place = self.random.below(self.problem.clauses.len().max(1));
            let clause = self.problem.clauses.get(place)?;
            let Some((falsified, left)) = self.split(clause, &gathered.literals, &gathered.unset)
            else {
                continue;
            };
            if gathered.literals.len() + falsified.len() <= most {
                gathered.literals.extend(falsified);
                gathered.unset.extend(left);
                gathered.clauses.push(place as u32 + 1);
            }
        }
        Some(gathered)
    }

    /// The literals of a clause to make false and those to leave unset, when it can join.
    fn split(
        &mut self,
        clause: &[Literal],
        literals: &[Literal],
        unset: &[Literal],
    ) -> Option<(Vec<Literal>, Vec<Literal>)> {
        let (mut falsified, mut left) = (Vec::new(), Vec::new());
        for literal in clause.iter().copied() {
            let used = unset.contains(&literal) || unset.contains(&literal.negated());
            if used || literals.contains(&literal.negated()) {
                return None;
            } else if literals.contains(&literal) {
                continue;
            } else if literal.is_positive() && !self.random.percent(30) {
                left.push(literal);
            } else {
                falsified.push(literal);
            }
        }
        (!left.is_empty()).then_some((falsified, left))
    }

    /// Tries a few pairs of remembered premises.
    fn resolution(&mut self) -> Option<Step> {
        for _ in 0..32 {
            let pivot = self.random.between(1, self.problem.variables());
            let up = usize::from(Literal::positive(pivot).code());
            let a = self.random.pick(&self.holders[up]).cloned();
            let b = self.random.pick(&self.holders[up + 1]).cloned();
            let (Some(a), Some(b)) = (a, b) else { continue };
            let step = resolution_of(&a, &b, pivot);
            if step.is_some() {
                return step;
            }
        }
        None
    }
}

/// Clauses that are independent where the literals are false; these leave some of their variables unset.
#[derive(Default)]
struct Gathered {
    literals: Vec<Literal>,
    unset: Vec<Literal>,
    clauses: Vec<u32>,
}

impl Gathered {
    /// One literal more to make false, if nothing here has its variable.
    fn settle(&mut self, extra: Literal) {
        let free = |held: &Literal| held.variable() != extra.variable();
        if self.literals.iter().all(free) && self.unset.iter().all(free) {
            self.literals.push(extra);
        }
    }

    fn step(mut self, problem: &Problem) -> Option<Step> {
        if self.clauses.is_empty() {
            return None;
        }
        self.literals.sort_unstable();
        self.clauses.sort_unstable();
        let bound = independent_bound(problem, &self.literals, &self.clauses)?;
        Some(Step {
            literals: self.literals,
            bound,
            reason: Reason::Independent {
                clauses: self.clauses,
            },
        })
    }
}

/// The resolution of two premises, unless it would hold a variable both ways.
fn resolution_of(a: &(u32, Step), b: &(u32, Step), pivot: usize) -> Option<Step> {
    Some(Step {
        literals: resolvent(&a.1.literals, &b.1.literals, pivot)?,
        bound: a.1.bound.min(b.1.bound),
        reason: Reason::Resolution {
            positive: a.0,
            negative: b.0,
            pivot: pivot as u16,
        },
    })
}

/// Adds to what is kept, in place of something else where it is full.
fn keep<T>(kept: &mut Vec<T>, new: T, most: usize, random: &mut Random) {
    if kept.len() < most {
        kept.push(new);
    } else {
        kept[random.below(most)] = new;
    }
}
