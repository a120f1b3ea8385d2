//! Steps of which a wanted share is kept. The kept ones make several chains: in each the last step is resolved with a side, a
//! new step or an earlier kept one, again and again, and in the end the chains are resolved with each other, down to no
//! literals. So all that stands in them is kept. The idle ones are padding, and cite kept steps and idle ones.

use super::sides::{cost, resolves_to, Sides, MOST};
use planner::bounds::resolvent;
use planner::format::{step_body, Bodies};
use planner::padding::{Mix, Padding};
use planner::{Literal, Problem, Reason, Step};
use samples::random::Random;

/// How many chains there are. Some go on much more often than others, so that their steps lie near or not so near each other.
const CHAINS: usize = 16;
/// How many of 100 sides are to be earlier steps; for some chains none is found. With them somewhat more than half of the kept
/// steps are resolutions, as in the padding.
const EARLIER: usize = 40;
/// How many earlier steps are tried for one that resolves with a chain.
const TRIES: usize = 64;
/// How many bytes a step has at the end of a chain.
const CLOSING: usize = 40;

/// Steps of about `size` bytes with their pairs, of which so many of 100 are kept.
pub fn steps(problem: &Problem, seed: u64, share: usize, size: usize) -> Bodies {
    let mut chains = Chains::new(problem, Random::new(seed), share);
    while chains.bodies.size() + chains.closing() < size {
        let few = chains.random.between(1, CHAINS);
        let chain = chains.random.below(few);
        chains.go_on(chain);
    }
    chains.close();
    chains.bodies
}

/// A kept step under its number.
struct Premise {
    number: u32,
    bound: u64,
    literals: Box<[Literal]>,
}

struct Chains<'a> {
    problem: &'a Problem,
    random: Random,
    share: usize,
    idle: Padding<'a>,
    sides: Sides<'a>,
    bodies: Bodies,
    kept: Vec<Premise>,
    /// The last step of each chain, by its place among the kept ones.
    last: [usize; CHAINS],
}

impl<'a> Chains<'a> {
    /// Every chain begins with a clause.
    fn new(problem: &'a Problem, mut random: Random, share: usize) -> Self {
        let [first, second] = [(); 2].map(|()| Random::new(random.next_u64()));
        let mut chains = Chains {
            problem,
            random,
            share,
            idle: Padding::new(problem, first, Mix::Mixed),
            sides: Sides::new(problem, second),
            bodies: Bodies::default(),
            kept: Vec::new(),
            last: [0; CHAINS],
        };
        for chain in 0..CHAINS {
            let clause = chains.sides.clause();
            chains.last[chain] = chains.keep(clause);
        }
        chains
    }

    /// Adds a kept step, after as many idle ones as the share asks for; gives its place among the kept ones.
    fn keep(&mut self, step: Step) -> usize {
        while !self.random.percent(self.share) {
            let idle = self.idle.step();
            self.push(&idle);
        }
        let number = self.push(&step);
        self.kept.push(Premise {
            number,
            bound: step.bound,
            literals: step.literals.into(),
        });
        self.kept.len() - 1
    }

    fn push(&mut self, step: &Step) -> u32 {
        self.bodies.push(&step_body(step));
        let number = self.bodies.count() as u32;
        if self.share < 100 {
            self.idle.remember(number, step);
        }
        number
    }

    fn literals(&self, chain: usize) -> &[Literal] {
        &self.kept[self.last[chain]].literals
    }

    /// Resolves the last step of a chain with a side.
    fn go_on(&mut self, chain: usize) {
        let earlier = self.random.percent(EARLIER);
        if let Some((side, pivot)) = earlier.then(|| self.earlier(chain)).flatten() {
            return self.resolve(chain, side, pivot);
        }
        let literals = &self.kept[self.last[chain]].literals;
        let (step, pivot) = self.sides.step(literals);
        let side = self.keep(step);
        self.resolve(chain, side, pivot);
    }

    /// An earlier kept step that resolves with the chain's last one, and on which of its literals. How far back it lies is
    /// drawn by its order of magnitude.
    fn earlier(&mut self, chain: usize) -> Option<(usize, Literal)> {
        let count = self.kept.len();
        for _ in 0..TRIES {
            let reach = 1 << self.random.below(count.ilog2() as usize + 1);
            let place = count - self.random.between(1, reach);
            let (literals, side) = (self.literals(chain), &self.kept[place].literals);
            // Most would be too much, which their length tells.
            if literals.len() + side.len() > MOST + 2 {
                continue;
            }
            let clashes = |literal: &&Literal| side.contains(&literal.negated());
            if let Some(pivot) = literals.iter().find(clashes) {
                if resolves_to(literals, side, *pivot).is_some() {
                    return Some((place, *pivot));
                }
            }
        }
        None
    }

    /// Lengthens a chain by the resolution of its last step with the side, on a literal of that step.
    fn resolve(&mut self, chain: usize, side: usize, pivot: Literal) {
        let (first, second) = (&self.kept[self.last[chain]], &self.kept[side]);
        let (a, b) = match pivot.is_positive() {
            true => (first, second),
            false => (second, first),
        };
        let literals = resolvent(&a.literals, &b.literals, pivot.variable());
        let step = Step {
            literals: literals.expect("steps that resolve"),
            bound: a.bound.min(b.bound),
            reason: Reason::Resolution {
                positive: a.number,
                negative: b.number,
                pivot: pivot.variable() as u16,
            },
        };
        self.last[chain] = self.keep(step);
    }

    /// Resolves the chain with the cost step of the pivot's other literal and one more literal, or none.
    fn exchange(&mut self, chain: usize, pivot: Literal, more: Option<Literal>) {
        let literals = more.into_iter().chain([pivot.negated()]).collect();
        let side = self.keep(cost(self.problem, literals));
        self.resolve(chain, side, pivot);
    }

    /// Resolves all literals away but some.
    fn narrow(&mut self, chain: usize, left: &[Literal]) {
        for pivot in self.literals(chain).to_vec() {
            if !left.contains(&pivot) {
                self.exchange(chain, pivot, None);
            }
        }
    }

    /// About how many bytes `close` will add: two steps for each literal, and the idle ones among them.
    fn closing(&self) -> usize {
        let literals: usize = (0..CHAINS).map(|chain| self.literals(chain).len()).sum();
        2 * literals * CLOSING * 100 / self.share
    }

    /// Joins all chains to the first one, which has one literal each time and in the end none.
    fn close(&mut self) {
        let first = self.literals(0)[0];
        self.narrow(0, &[first]);
        for chain in 1..CHAINS {
            let held = self.literals(0)[0];
            let others = self.literals(chain).iter();
            let mut others = others.filter(|other| other.variable() != held.variable());
            let pair = [(); 2].map(|()| *others.next().expect("three literals at least"));
            self.narrow(chain, &pair);
            self.exchange(0, held, Some(pair[0].negated()));
            self.resolve(0, self.last[chain], pair[0].negated());
        }
        self.narrow(0, &[]);
    }
}
