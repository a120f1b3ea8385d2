//! Branch and bound with unit propagation and learned clauses. Every learned clause is a step, and
//! a bound that was good enough for a dearer best assignment stays good enough for a cheaper one,
//! so that one pass finds the optimum and its certificate.

mod early;
mod lower;
mod propagation;
mod trail;
mod weights;

use crate::certificate::Certificate;
use crate::problem::{Literal, Problem, NONE};
use crate::Plan;
pub use early::plan_in;
use lower::{outlook, Explanation, Outlook};
use propagation::Store;
use trail::Trail;
use weights::{Ascent, Weighted};

/// Which lower bounds the search looks for.
#[derive(Clone, Copy, Debug, Default, PartialEq, Eq)]
pub enum Bounds {
    /// Independent clauses (kind 3) and nothing more.
    Independent,
    /// Weights too (kind 5), where independent clauses do not reach.
    #[default]
    Weights,
}

/// How much work a search was.
#[derive(Clone, Copy, Debug, Default, PartialEq, Eq)]
pub struct Effort {
    /// The partial assignments, each after propagation, that were looked at.
    pub nodes: u64,
    pub conflicts: u64,
}

struct Search<'a> {
    problem: &'a Problem,
    certificate: Certificate<'a>,
    store: Store,
    trail: Trail,
    /// A clause that is broken before anything is decided.
    broken: Option<u32>,
    /// How much each variable took part in late conflicts: it guides the decisions.
    activity: Vec<f64>,
    bump: f64,
    best: u64,
    assignment: Vec<bool>,
    /// Nothing where no weights are wanted.
    ascent: Option<Ascent<'a>>,
    effort: Effort,
}

/// The plan of a least-cost assignment, or that none exists.
pub fn plan(problem: &Problem) -> Plan {
    plan_within(problem, u64::MAX).expect("no limit was set")
}

/// As `plan`, but gives up after so many conflicts.
pub fn plan_within(problem: &Problem, conflicts: u64) -> Option<Plan> {
    plan_by(problem, Bounds::default(), conflicts).0
}

/// As `plan_within`, with the bounds that are wanted; also tells how much work it was.
pub fn plan_by(problem: &Problem, bounds: Bounds, conflicts: u64) -> (Option<Plan>, Effort) {
    let mut search = Search::new(problem, bounds);
    let last = search.run(conflicts);
    let effort = search.effort;
    (last.map(|last| search.finish(last)), effort)
}

impl<'a> Search<'a> {
    fn new(problem: &'a Problem, bounds: Bounds) -> Self {
        let variables = problem.variables();
        let mut store = Store::new(variables);
        for clause in &problem.clauses {
            store.add(clause.clone(), None);
        }
        // Dear variables are decided first: false is their cheap value, and what that forces shows.
        let dearest = problem.costs.iter().copied().max().unwrap_or(0).max(1);
        let weight = |cost: &u32| f64::from(*cost) / f64::from(dearest);
        let mut search = Search {
            problem,
            certificate: Certificate::new(problem),
            store,
            trail: Trail::new(variables),
            broken: None,
            activity: problem.costs.iter().map(weight).collect(),
            bump: 1.0,
            best: NONE,
            assignment: vec![false; variables],
            ascent: (bounds == Bounds::Weights).then(|| Ascent::new(problem)),
            effort: Effort::default(),
        };
        search.broken = search.set_units();
        search
    }

    /// Goes on until there have been so many conflicts, from the first on; gives the empty cost clause once it is learned.
    fn run(&mut self, conflicts: u64) -> Option<u32> {
        while self.effort.conflicts < conflicts {
            self.effort.conflicts += 1;
            let step = match self.broken.take() {
                Some(step) => step,
                None => self.descend(),
            };
            let learned = self.analyze(step);
            if self.certificate.step(learned).literals.is_empty() {
                return Some(learned);
            }
            self.learn(learned);
        }
        None
    }

    /// Sets the clauses of one literal; a broken one, an empty one included, is a conflict.
    fn set_units(&mut self) -> Option<u32> {
        for number in 0..self.problem.clauses.len() {
            let clause = &self.problem.clauses[number];
            match clause.as_slice() {
                [] => return Some(self.step_of(number)),
                [only] => match self.trail.value(*only) {
                    Some(false) => return Some(self.step_of(number)),
                    Some(true) => {}
                    None => self.trail.assign(*only, Some(number)),
                },
                _ => {}
            }
        }
        None
    }

    /// The step that derives a clause; a clause of the sheet is copied when it is first needed.
    fn step_of(&mut self, clause: usize) -> u32 {
        let certificate = &mut self.certificate;
        let held = &mut self.store.clauses[clause];
        *held
            .step
            .get_or_insert_with(|| certificate.copy(clause as u32 + 1))
    }

    /// Propagates and decides until some step has all its literals false.
    fn descend(&mut self) -> u32 {
        loop {
            if let Some(broken) = self.store.propagate(&mut self.trail) {
                return self.step_of(broken);
            }
            self.effort.nodes += 1;
            match outlook(self.problem, &self.trail, self.best) {
                Outlook::Hopeless(explanation) => return self.explain(explanation),
                Outlook::Satisfied => self.improve(),
                Outlook::Undecided(unset) => match self.weighted() {
                    Some(explanation) => return self.explain(explanation),
                    None => self.decide(&unset),
                },
            }
        }
    }

    /// What weights show here, once there is an assignment to be cheaper than.
    fn weighted(&mut self) -> Option<Explanation> {
        let ascent = self.ascent.as_mut().filter(|_| self.best != NONE)?;
        let weighted = ascent.explanation(&self.trail, self.best)?;
        Some(Explanation::Linear(weighted))
    }

    fn explain(&mut self, explanation: Explanation) -> u32 {
        let certificate = &mut self.certificate;
        match explanation {
            Explanation::Cost { literals } => certificate.cost(literals),
            Explanation::Independent { literals, clauses } => certificate
                .independent(literals, clauses)
                .expect("the chosen clauses are independent"),
            Explanation::Linear(Weighted {
                literals,
                divisor,
                weights,
            }) => certificate.linear(literals, divisor, weights),
        }
    }

    /// Takes over a cheaper assignment; from now on its own cost ends this branch.
    fn improve(&mut self) {
        self.assignment = self.trail.assignment();
        self.best = self.problem.cost(&self.assignment);
    }

    /// Makes the most active of these literals' variables false, the first of equals.
    fn decide(&mut self, unset: &[Literal]) {
        let mut chosen = unset[0].variable();
        for variable in unset.iter().map(|literal| literal.variable()) {
            let (active, other) = (self.activity[variable - 1], self.activity[chosen - 1]);
            if active > other || (active == other && variable < chosen) {
                chosen = variable;
            }
        }
        self.trail.decide(Literal::negative(chosen));
    }

    /// Resolves backwards along the trail until one literal of the youngest level is left, or,
    /// at level 0, none at all. All literals stay false, so no variable ever stands both ways.
    fn analyze(&mut self, mut step: u32) -> u32 {
        self.bump *= 1.05;
        loop {
            let (youngest, second) = self.two_youngest(step);
            let Some(youngest) = youngest else {
                return step;
            };
            let level = self.trail.level_of(youngest);
            let alone = second.is_none_or(|other| self.trail.level_of(other) < level);
            if level > 0 && alone {
                return step;
            }
            let reason = self
                .trail
                .reason_of(youngest)
                .expect("a decision is first on its level");
            let reason = self.step_of(reason);
            self.activity[youngest.index()] += self.bump;
            let next = self.certificate.resolve(step, reason, youngest.variable());
            step = next.expect("literals that are all false never clash");
        }
    }

    /// The literals of a step that became false last and last but one.
    fn two_youngest(&self, step: u32) -> (Option<Literal>, Option<Literal>) {
        let (mut youngest, mut second) = (None, None);
        for literal in self.certificate.step(step).literals.iter().copied() {
            let after = |other: Option<Literal>| {
                other.is_none_or(|other| self.trail.place_of(literal) > self.trail.place_of(other))
            };
            if after(youngest) {
                (youngest, second) = (Some(literal), youngest);
            } else if after(second) {
                second = Some(literal);
            }
        }
        (youngest, second)
    }

    /// Goes back to where the learned clause forces its youngest literal.
    fn learn(&mut self, step: u32) {
        let (youngest, second) = self.two_youngest(step);
        let youngest = youngest.expect("the empty clause ends the search");
        let level = second.map_or(0, |other| self.trail.level_of(other));
        let mut literals = self.certificate.step(step).literals.clone();
        literals.sort_by_key(|literal| std::cmp::Reverse(self.trail.place_of(*literal)));
        for literal in &literals {
            self.activity[literal.index()] += self.bump;
        }
        self.trail.return_to(level);
        let clause = self.store.add(literals, Some(step));
        self.trail.assign(youngest, Some(clause));
        self.rescale();
    }

    /// Keeps the activities finite.
    fn rescale(&mut self) {
        if self.bump > 1e100 {
            self.bump /= 1e100;
            self.activity
                .iter_mut()
                .for_each(|activity| *activity /= 1e100);
        }
    }

    fn finish(self, last: u32) -> Plan {
        let steps = self.certificate.needed_by(last);
        Plan {
            claim: self.best,
            assignment: self.assignment,
            steps,
        }
    }
}
