//! Weights for the clauses that a node has not satisfied: a dual solution of the linear relaxation, whose value is a lower
//! bound. It is raised along its subgradient, and in whole numbers: so what is found is exact and is written as it stands.

use super::lower::paid;
use super::trail::Trail;
use crate::bounds::{linear_bound, linear_total, remainders};
use crate::problem::{Literal, Problem};

/// The greatest weight that a record can hold.
const MOST: i64 = u16::MAX as i64;

/// The greatest divisor. A coarse one loses bounds, above all where costs are small; a finer one hardly finds any more.
const FINEST: i64 = 1024;

/// How many steps along the subgradient a node may take.
const ROUNDS: usize = 30;

/// How many it may take where its weights are the first, and are what later nodes begin with.
const FIRST_ROUNDS: usize = 300;

/// After how many of them a node is given up that is not within an eighth of what it needs.
const TRIAL: usize = 8;

/// After how many steps without a better value they become half as long.
const PATIENCE: u32 = 5;

/// Weighted clauses, in rising order, and the literals, all false, under which they bound the cost.
pub struct Weighted {
    pub literals: Vec<Literal>,
    pub divisor: u16,
    pub weights: Vec<(u32, u16)>,
}

/// A clause without a true literal, cut down to its unset literals.
struct Unsatisfied {
    /// Where it stands in the sheet.
    place: usize,
    /// Where its unset literals stand among those of the node.
    start: usize,
    end: usize,
    /// 1 less the number of the negative ones: what the value gets for each unit of weight before any remainder counts.
    constant: i64,
    /// What the value gains for each unit of weight as the remainders are.
    slope: i64,
}

pub struct Ascent<'a> {
    problem: &'a Problem,
    divisor: i64,
    /// Of each clause of the sheet, as the last node left them: the next one is seldom far from it.
    weights: Vec<i64>,
    /// The remainder of each variable that the node's clauses have unset.
    left: Vec<i64>,
    clauses: Vec<Unsatisfied>,
    /// The unset literals of these clauses, one clause after the other, and their variables, each once.
    unset: Vec<Literal>,
    variables: Vec<usize>,
}

impl<'a> Ascent<'a> {
    /// The divisor is as large as weights up to the dearest variable's cost allow.
    pub fn new(problem: &'a Problem) -> Self {
        let dearest = problem.costs.iter().copied().max().unwrap_or(0).max(1);
        Ascent {
            problem,
            divisor: (MOST / i64::from(dearest)).clamp(1, FINEST),
            weights: vec![0; problem.clauses.len()],
            left: vec![0; problem.variables()],
            clauses: Vec::new(),
            unset: Vec::new(),
            variables: Vec::new(),
        }
    }

    /// Looks for weights by which no extension of the trail costs less than `target`, which is above what is paid already.
    pub fn explanation(&mut self, trail: &Trail, target: u64) -> Option<Weighted> {
        let missing = i64::try_from(target - paid(self.problem, trail)).ok()?;
        // The least total that is rounded up to the target, less what is paid.
        let needed = self.divisor.checked_mul(missing - 1)? + 1;
        // Where costs are large, weights do not reach as far: no need to try.
        if (self.problem.clauses.len() as i64) * MOST < needed {
            return None;
        }
        self.gather(trail);
        if !self.climb(needed, ROUNDS, TRIAL, |_| ()) {
            return None;
        }
        self.drop_idle();
        Some(self.explained(trail, target))
    }

    /// The best weights on the way up to `target`, whether it is reached or not, behind their divisor.
    pub fn best(&mut self, trail: &Trail, target: u64) -> Option<(u16, Vec<(u32, u16)>)> {
        let missing = i64::try_from(target.checked_sub(paid(self.problem, trail))?).ok()?;
        let needed = self.divisor.checked_mul(missing)?;
        let rounds = match trail.level() {
            0 => FIRST_ROUNDS,
            _ => ROUNDS,
        };
        self.gather(trail);
        let mut best = Vec::new();
        self.climb(needed, rounds, rounds, |weights| best = weights.to_vec());
        self.weights = best;
        // The remainders of these weights are not those of the last.
        self.value();
        self.drop_idle();
        self.coarsest(trail)
    }

    /// The weights over the least divisor, 1 or another power of 2 or that in use, that gives no less than the others.
    fn coarsest(&self, trail: &Trail) -> Option<(u16, Vec<(u32, u16)>)> {
        let literals: Vec<Literal> = trail.order().iter().map(|held| held.negated()).collect();
        let powers = (0..).map(|power| 1 << power);
        let coarser = powers.take_while(|divisor| *divisor < self.divisor);
        let (mut best, mut reached) = (None, None);
        for divisor in coarser.chain([self.divisor]) {
            let (weights, divisor) = (self.over(divisor), divisor as u16);
            let bound = linear_bound(self.problem, &literals, divisor, &weights);
            if !weights.is_empty() && reached.is_none_or(|other| bound > other) {
                (best, reached) = (Some((divisor, weights)), Some(bound));
            }
        }
        best
    }

    /// Finds the clauses that the trail has not satisfied.
    fn gather(&mut self, trail: &Trail) {
        self.clauses.clear();
        self.unset.clear();
        for (place, clause) in self.problem.clauses.iter().enumerate() {
            if clause.iter().any(|held| trail.value(*held) == Some(true)) {
                continue;
            }
            let start = self.unset.len();
            let unset = clause.iter().filter(|held| trail.value(**held).is_none());
            self.unset.extend(unset);
            let end = self.unset.len();
            let negative = self.unset[start..]
                .iter()
                .filter(|held| !held.is_positive());
            self.clauses.push(Unsatisfied {
                place,
                start,
                end,
                constant: 1 - negative.count() as i64,
                slope: 0,
            });
        }
        self.variables.clear();
        self.variables
            .extend(self.unset.iter().map(|held| held.index()));
        self.variables.sort_unstable();
        self.variables.dedup();
    }

    /// Goes up until the value is what is needed; false after so many rounds, or where after a trial that seems out of reach.
    /// Hands on the weights whenever they are better than all before.
    fn climb(
        &mut self,
        needed: i64,
        rounds: usize,
        trial: usize,
        mut better: impl FnMut(&[i64]),
    ) -> bool {
        // Steps are as long as a line to the goal would need. One that is aimed a little too high gets there sooner.
        let goal = needed + needed / 16;
        let (mut best, mut stale, mut halved) = (i64::MIN, 0, 0);
        for round in 0..rounds {
            let value = self.value();
            if value > best {
                better(&self.weights);
            }
            if value >= needed {
                return true;
            }
            stale = if value > best { 0 } else { stale + 1 };
            best = best.max(value);
            if stale == PATIENCE {
                (stale, halved) = (0, halved + 1);
            }
            let norm = self.slopes();
            if norm == 0 || (round == trial && best < needed - needed / 8) {
                return false;
            }
            self.advance((((goal - value) / norm) >> halved).max(1));
        }
        false
    }

    /// What the weights add to the paid cost, times the divisor; brings the remainders up to date.
    fn value(&mut self) -> i64 {
        for variable in &self.variables {
            self.left[*variable] = self.divisor * i64::from(self.problem.costs[*variable]);
        }
        let mut value = 0;
        for clause in &self.clauses {
            let weight = self.weights[clause.place];
            value += weight * clause.constant;
            for literal in &self.unset[clause.start..clause.end] {
                self.left[literal.index()] -= sign(*literal) * weight;
            }
        }
        let below = self.variables.iter().map(|at| self.left[*at].min(0));
        value + below.sum::<i64>()
    }

    /// Brings the slopes up to date and gives the sum of their squares. A weight that has come to its end has none.
    fn slopes(&mut self) -> i64 {
        let mut norm = 0;
        for clause in &mut self.clauses {
            let unset = self.unset[clause.start..clause.end].iter();
            let below = unset.filter(|held| self.left[held.index()] < 0);
            let slope = clause.constant - below.map(|held| sign(*held)).sum::<i64>();
            let weight = self.weights[clause.place];
            let ended = (weight == 0 && slope < 0) || (weight == MOST && slope > 0);
            clause.slope = if ended { 0 } else { slope };
            norm += clause.slope * clause.slope;
        }
        norm
    }

    fn advance(&mut self, step: i64) {
        for clause in &self.clauses {
            let weight = &mut self.weights[clause.place];
            *weight = (*weight + step * clause.slope).clamp(0, MOST);
        }
    }

    /// Takes the weight from every clause without which the value is no less.
    fn drop_idle(&mut self) {
        for clause in &self.clauses {
            let weight = self.weights[clause.place];
            let unset = &self.unset[clause.start..clause.end];
            let gained = unset.iter().map(|held| {
                let left = self.left[held.index()];
                (left + sign(*held) * weight).min(0) - left.min(0)
            });
            if gained.sum::<i64>() < weight * clause.constant {
                continue;
            }
            for held in unset {
                self.left[held.index()] += sign(*held) * weight;
            }
            self.weights[clause.place] = 0;
        }
    }

    /// With the least divisor, 1 or another power of 2, that does as well as the one in use: finer weights are for where
    /// coarse ones fall short.
    fn explained(&self, trail: &Trail, target: u64) -> Weighted {
        let finest = self.shortened(trail, target, self.divisor);
        let finest = finest.expect("the climb came to a total that reaches the target");
        let powers = (0..).map(|power| 1 << power);
        let mut coarser = powers
            .take_while(|divisor| *divisor < self.divisor)
            .filter_map(|divisor| self.shortened(trail, target, divisor));
        let as_short = |other: &Weighted| other.literals.len() <= finest.literals.len();
        coarser.find(as_short).unwrap_or(finest)
    }

    /// The weights over another divisor, if they reach the target there, with few literals: of the false ones those are left
    /// out, the youngest first, that cost the total nothing or no more than it has to spare.
    fn shortened(&self, trail: &Trail, target: u64, divisor: i64) -> Option<Weighted> {
        let (weights, divisor) = (self.over(divisor), divisor as u16);
        let mut literals: Vec<Literal> = trail.order().iter().map(|held| held.negated()).collect();
        let total = linear_total(self.problem, &literals, divisor, &weights);
        // The loss comes to the bound after the division, so the total has to reach the target without it.
        let target = (target - self.problem.standing_loss()) as i64;
        let mut spare = total - i64::from(divisor) * (target - 1) - 1;
        if spare < 0 || weights.is_empty() {
            return None;
        }
        let left = remainders(self.problem, divisor, &weights);
        literals.reverse();
        literals.retain(|literal| {
            // A true variable adds its remainder and a false one nothing, but either, once unset, the lesser of the two.
            let lost = (-sign(*literal) * left[literal.index()]).max(0);
            let needed = lost > spare;
            spare -= if needed { 0 } else { lost };
            needed
        });
        Some(Weighted {
            literals,
            divisor,
            weights,
        })
    }

    /// The weights under their clauses' numbers, over a divisor no greater than that in use, and to the nearest whole number.
    fn over(&self, divisor: i64) -> Vec<(u32, u16)> {
        let mut weights = Vec::new();
        for clause in &self.clauses {
            let weight = self.weights[clause.place] * divisor + self.divisor / 2;
            if weight >= self.divisor {
                weights.push((clause.place as u32 + 1, (weight / self.divisor) as u16));
            }
        }
        weights
    }
}

/// How the literal grows with its variable.
fn sign(literal: Literal) -> i64 {
    if literal.is_positive() {
        1
    } else {
        -1
    }
}
