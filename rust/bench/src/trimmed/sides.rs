//! New steps that resolve with the last one of a chain, of all kinds but resolution.

use planner::bounds::{cost_bound, independent_bound, linear_bound, resolvent};
use planner::padding::Kind;
use planner::{Literal, Problem, Reason, Step, NONE};
use samples::random::Random;

/// How many literals the steps of a chain have.
const FEWEST: usize = 3;
pub const MOST: usize = 16;
/// How many clauses a step cites at the most.
const CITED: usize = 3;

const KINDS: [Kind; 4] = [Kind::Copy, Kind::Cost, Kind::Independent, Kind::Linear];

pub struct Sides<'a> {
    problem: &'a Problem,
    random: Random,
    /// The clauses that hold each literal, by its code: their places.
    holders: Vec<Vec<usize>>,
}

impl<'a> Sides<'a> {
    pub fn new(problem: &'a Problem, random: Random) -> Self {
        let mut holders = vec![Vec::new(); 2 * problem.variables() + 2];
        for (place, clause) in problem.clauses.iter().enumerate() {
            for literal in clause {
                holders[usize::from(literal.code())].push(place);
            }
        }
        Sides {
            problem,
            random,
            holders,
        }
    }

    /// Any clause.
    pub fn clause(&mut self) -> Step {
        let place = self.random.below(self.problem.clauses.len());
        self.copy_of(place)
    }

    fn copy_of(&self, place: usize) -> Step {
        Step {
            literals: self.problem.clauses[place].clone(),
            bound: NONE,
            reason: Reason::Copy {
                clause: place as u32 + 1,
            },
        }
    }

    /// A step that resolves with one of these literals, and on which of them. Clauses bring literals of their own: where these
    /// would be too many, the step has none but the chain's.
    pub fn step(&mut self, chain: &[Literal]) -> (Step, Literal) {
        let pivot = chain[self.random.below(chain.len())];
        let kind = KINDS[self.random.below(KINDS.len())];
        let step = match kind {
            Kind::Copy => self.copy(pivot.negated()),
            Kind::Independent => self.independent(pivot.negated()),
            _ => None,
        };
        let step = step.filter(|step| resolves_to(chain, &step.literals, pivot).is_some());
        let step = step.unwrap_or_else(|| {
            let literals = self.narrow(chain, pivot);
            match kind {
                Kind::Copy | Kind::Cost => cost(self.problem, literals),
                _ => self.linear(literals),
            }
        });
        (step, pivot)
    }

    fn copy(&mut self, held: Literal) -> Option<Step> {
        let holders = &self.holders[usize::from(held.code())];
        let place = *self.random.pick(holders)?;
        Some(self.copy_of(place))
    }

    /// Some clauses that are independent where the literal is false, and with it what is negative in them.
    fn independent(&mut self, held: Literal) -> Option<Step> {
        let mut made = None;
        let (mut literals, mut clauses) = (vec![held], Vec::new());
        for _ in 0..CITED {
            let place = self.random.below(self.problem.clauses.len());
            let clause = &self.problem.clauses[place];
            if clause.contains(&held.negated()) {
                continue;
            }
            let negative = clause.iter().filter(|literal| !literal.is_positive());
            let more = in_order(literals.iter().chain(negative).copied().collect());
            let cited = in_order([&clauses[..], &[place as u32 + 1]].concat());
            if let Some(bound) = independent_bound(self.problem, &more, &cited) {
                (literals, clauses) = (more, cited);
                made = Some(bound);
            }
        }
        Some(Step {
            literals,
            bound: made?,
            reason: Reason::Independent { clauses },
        })
    }

    /// The pivot's other literal and some that the chain has; new ones only where it has few.
    fn narrow(&mut self, chain: &[Literal], pivot: Literal) -> Vec<Literal> {
        let mut literals = vec![pivot.negated()];
        for other in chain {
            if *other != pivot && self.random.percent(30) {
                literals.push(*other);
            }
        }
        let few = chain.len() < 2 * FEWEST;
        let wanted = literals.len() + usize::from(few) * self.random.between(1, 2);
        while literals.len() < wanted {
            let variable = self.random.between(1, self.problem.variables());
            let taken = |held: &Literal| held.variable() == variable;
            if !chain.iter().chain(&literals).any(taken) {
                literals.push(Literal::new(variable, self.random.percent(50)));
            }
        }
        literals
    }

    fn linear(&mut self, literals: Vec<Literal>) -> Step {
        let literals = in_order(literals);
        let divisor = self.random.between(1, 9) as u16;
        let drawn = self.random.between(1, CITED);
        let count = self.problem.clauses.len();
        let clauses = (0..drawn).map(|_| self.random.between(1, count) as u32);
        let clauses = in_order(clauses.collect());
        let weighted = |clause| (clause, self.random.between(1, 999) as u16);
        let weights: Vec<(u32, u16)> = clauses.into_iter().map(weighted).collect();
        Step {
            bound: linear_bound(self.problem, &literals, divisor, &weights),
            literals,
            reason: Reason::Linear { divisor, weights },
        }
    }
}

fn in_order<T: Ord>(mut list: Vec<T>) -> Vec<T> {
    list.sort_unstable();
    list.dedup();
    list
}

pub fn cost(problem: &Problem, literals: Vec<Literal>) -> Step {
    let literals = in_order(literals);
    Step {
        bound: cost_bound(problem, &literals),
        literals,
        reason: Reason::Cost,
    }
}

/// What a chain's literals and a side's are resolved to, on a literal of the chain; nothing where that is too little or too
/// much for a chain.
pub fn resolves_to(chain: &[Literal], side: &[Literal], pivot: Literal) -> Option<Vec<Literal>> {
    let literals = match pivot.is_positive() {
        true => resolvent(chain, side, pivot.variable()),
        false => resolvent(side, chain, pivot.variable()),
    };
    literals.filter(|left| (FEWEST..=MOST).contains(&left.len()))
}
