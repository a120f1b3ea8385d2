//! The search for a plan of least cost: the order of its branches, its budget and its floor. How it is found what clauses force
//! is in other files, in three ways.

use crate::masks::{Limits, Problem, State, SEARCHED};
use crate::read::Fault;
use proved::{Found, NONE};

/// A choice: the variable that was settled by it, from 0, and the levels of what is kept for each node. At the first branch
/// `from` is the node's and `to` the next; the second branch does not need the node any more, and both are the node's.
#[derive(Clone, Copy)]
pub(crate) struct Choice {
    pub variable: usize,
    pub from: usize,
    pub to: usize,
}

/// Levels that a search may have: that of the first node, and one for each choice.
pub(crate) const LEVELS: usize = SEARCHED + 1;

/// A way to find what is forced.
pub(crate) trait Force {
    fn new(problem: &Problem) -> Self;

    /// Settles what is forced after a choice; false where the branch is to be left. The order in which clauses are looked at
    /// changes no answer: where none becomes false, the same is settled in the end, and where one does, the branch is left. So
    /// it may also be left as soon as one is false or it costs too much, with something forced still unsettled.
    fn force(&mut self, limits: &Limits, state: &mut State, choice: Choice) -> bool;
}

/// The answer to the sheet and the budget, where `run` is `search` in one of the ways.
pub(crate) fn answer(sheet: &[u8], run: impl FnOnce(Problem) -> Found) -> Found {
    match Problem::read(sheet) {
        Ok(Some(problem)) => run(problem),
        Ok(None) => Found {
            number: 0,
            place: 0,
            plan: None,
            choices: 0,
            ended: true,
            floor: NONE,
        },
        Err(Fault { number, place }) => Found {
            number: number as u32,
            place: place as u32,
            plan: None,
            choices: 0,
            ended: false,
            floor: 0,
        },
    }
}

pub(crate) fn search<F: Force>(problem: Problem, budget: u64) -> Found {
    let force = F::new(&problem);
    let mut search = Search {
        force,
        all: problem.all,
        limits: problem.limits,
        plan: None,
        left: budget,
        nodes: [State::default(); SEARCHED],
        depth: 0,
    };
    search.run(problem.start);
    search.answer(budget)
}

struct Search<F> {
    force: F,
    all: u64,
    limits: Limits,
    plan: Option<u64>,
    /// What is left of the budget.
    left: u64,
    /// The nodes above, of which a branch is untried, before the choice: `depth` of them.
    nodes: [State; SEARCHED],
    depth: usize,
}

impl<F: Force> Search<F> {
    /// Goes on until no node has an untried branch, or a choice is due and nothing left.
    fn run(&mut self, mut state: State) {
        let mut goes_on = true;
        loop {
            let next = if goes_on && state.settled() != self.all {
                self.first_branch(&mut state)
            } else {
                if goes_on {
                    self.plan = Some(state.trues);
                    self.limits.best = state.cost;
                }
                self.second_branch(&mut state)
            };
            let Some(next) = next else {
                return;
            };
            goes_on = next;
        }
    }

    #[inline(always)]
    fn first_branch(&mut self, state: &mut State) -> Option<bool> {
        self.nodes[self.depth % SEARCHED] = *state;
        self.depth += 1;
        self.left = self.left.checked_sub(1)?;
        let variable = self.lowest_unsettled(state);
        state.falses |= 1 << variable;
        let choice = Choice {
            variable,
            from: self.depth - 1,
            to: self.depth,
        };
        Some(self.force.force(&self.limits, state, choice))
    }

    /// The second branch of the lowest node that has it untried; nothing where there is none.
    #[inline(always)]
    fn second_branch(&mut self, state: &mut State) -> Option<bool> {
        loop {
            let depth = self.depth.checked_sub(1)?;
            self.left = self.left.checked_sub(1)?;
            self.depth = depth;
            *state = self.nodes[depth % SEARCHED];
            let variable = self.lowest_unsettled(state);
            // What it costs already may leave it, whatever is forced. Up to half of all choices end here.
            if self.limits.pay(state, 1 << variable) {
                let choice = Choice {
                    variable,
                    from: depth,
                    to: depth,
                };
                return Some(self.force.force(&self.limits, state, choice));
            }
        }
    }

    #[inline(always)]
    fn lowest_unsettled(&self, state: &State) -> usize {
        (self.all & !state.settled()).trailing_zeros() as usize % SEARCHED
    }

    /// Nodes below cost no less, so that the uppermost one with an untried branch has the floor.
    fn answer(&self, budget: u64) -> Found {
        let untried = self.nodes[..self.depth].first();
        let floor = untried.map_or(NONE, |node| node.cost);
        Found {
            number: 0,
            place: 0,
            plan: self.plan,
            choices: budget - self.left,
            ended: self.depth == 0,
            floor: floor.min(self.limits.best),
        }
    }
}
