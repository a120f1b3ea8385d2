//! Random small sheets, and whole derivations of the least cost on them.

use super::*;
use reference::brute::least_cost;
use std::collections::{BTreeMap, BTreeSet};

/// A sheet as lists, and the steps derived from it so far.
#[derive(Clone)]
pub struct Derivation {
    pub costs: Vec<u32>,
    clauses: Vec<Vec<u16>>,
    pub steps: Vec<Vec<u8>>,
    bounding: Bounding,
    /// A step of that kind whose bound reaches this is a leaf. No bound of one reaches "none".
    pub enough: u64,
    /// Where resolutions may state less than their resolvents, the chance by which they do.
    chance: Option<Numbers>,
    /// How many resolutions state less.
    pub wider_count: u32,
}

/// By which steps a branch can be left before all variables have values.
#[derive(Clone, Copy)]
pub enum Bounding {
    Nothing,
    IndependentSets,
    Weights { divisor: u16 },
}

impl Bounding {
    pub fn random(numbers: &mut Numbers) -> Bounding {
        match numbers.below(4) {
            0 => Bounding::Nothing,
            1 => Bounding::IndependentSets,
            divisor => Bounding::Weights {
                divisor: divisor as u16 - 1,
            },
        }
    }
}

/// A derived cost clause and the number of its step.
pub struct Derived {
    step: u32,
    pub codes: BTreeSet<u16>,
    pub bound: u64,
}

impl Derivation {
    pub fn random(numbers: &mut Numbers) -> Derivation {
        let variable_count = 1 + numbers.below(6);
        let clause_count = numbers.below(9);
        let costs = (0..variable_count).map(|_| numbers.below(10) as u32);
        let costs = costs.collect();
        let mut clause = || {
            let variables = 1..=variable_count as u16;
            let chosen = variables.filter_map(|variable| match numbers.below(5) {
                0 | 1 => Some(pos(variable)),
                2 => Some(neg(variable)),
                _ => None,
            });
            chosen.collect()
        };
        let clauses = (0..clause_count).map(|_| clause()).collect();
        Derivation {
            costs,
            clauses,
            steps: vec![],
            bounding: Bounding::Nothing,
            enough: NONE,
            chance: None,
            wider_count: 0,
        }
    }

    /// The same sheet, with such steps for leaves wherever they bear out the least cost.
    pub fn with(&self, bounding: Bounding) -> Derivation {
        Derivation {
            bounding,
            enough: least_cost(&self.sheet()).unwrap_or(NONE),
            ..self.clone()
        }
    }

    /// The same, with resolutions that may state less than their resolvents.
    pub fn widened(self, chance: Numbers) -> Derivation {
        Derivation {
            chance: Some(chance),
            ..self
        }
    }

    pub fn sheet(&self) -> Vec<u8> {
        let clauses: Vec<&[u16]> = self.clauses.iter().map(Vec::as_slice).collect();
        sheet(&self.costs, &clauses)
    }

    fn push(&mut self, body: Vec<u8>, codes: BTreeSet<u16>, bound: u64) -> Derived {
        self.steps.push(body);
        Derived {
            step: self.steps.len() as u32,
            codes,
            bound,
        }
    }

    /// A cost clause that is false under the values given to the first variables, by trying both values of the
    /// next one. Its step is the last one so far.
    pub fn derive(&mut self, values: &mut Vec<bool>) -> Derived {
        if let Some(leaf) = self.leaf(values) {
            return leaf;
        }
        let variable = values.len() as u16 + 1;
        values.push(true);
        let b = self.derive(values);
        values.pop();
        if !b.codes.contains(&neg(variable)) {
            return b;
        }
        values.push(false);
        let a = self.derive(values);
        values.pop();
        if !a.codes.contains(&pos(variable)) {
            return a;
        }
        self.resolve(&a, &b, values)
    }

    /// The index of the first clause that the values break.
    pub fn first_broken(&self, values: &[bool]) -> Option<usize> {
        let is_false = |code: &u16| {
            let value = values.get(*code as usize / 2 - 1);
            value == Some(&!code.is_multiple_of(2))
        };
        let is_broken = |codes: &Vec<u16>| codes.iter().all(is_false);
        self.clauses.iter().position(is_broken)
    }

    /// The clauses that no value makes true and that positive literals alone can still make true, by their numbers,
    /// with the indexes of the variables of those. The values break none of the clauses.
    fn open_clauses(&self, values: &[bool]) -> Vec<(u32, Vec<usize>)> {
        let mut open = vec![];
        for (codes, number) in self.clauses.iter().zip(1..) {
            let (settled, unsettled): (Vec<u16>, Vec<u16>) = codes
                .iter()
                .partition(|code| **code as usize / 2 <= values.len());
            let is_true = |code: &u16| values[*code as usize / 2 - 1] == code.is_multiple_of(2);
            let is_positive = |code: &u16| code.is_multiple_of(2);
            if !settled.iter().any(is_true) && unsettled.iter().all(is_positive) {
                let indexes = unsettled.iter().map(|code| *code as usize / 2 - 1);
                open.push((number, indexes.collect()));
            }
        }
        open
    }

    /// Clauses that are independent under the values and of one another, each taken if those before it let it, and
    /// the sum of their least costs.
    fn independent_set(&self, values: &[bool]) -> (Vec<u32>, u64) {
        let (mut cited, mut sum) = (vec![], 0);
        let mut taken = BTreeSet::new();
        for (number, indexes) in self.open_clauses(values) {
            if indexes.iter().all(|index| !taken.contains(index)) {
                let costs = indexes.iter().map(|index| self.costs[*index]);
                sum += u64::from(costs.min().expect("the clause is not broken"));
                taken.extend(indexes);
                cited.push(number);
            }
        }
        (cited, sum)
    }

    /// Weights that keep the remainder of every unsettled variable from falling below zero. Each clause first takes
    /// half of what it can, so that those after it get some, and in a second round all of it.
    fn weights(&self, values: &[bool], divisor: u16) -> Vec<(u32, u16)> {
        let costs = self.costs.iter().map(|cost| divisor * *cost as u16);
        let mut remainders: Vec<u16> = costs.collect();
        let mut weights = BTreeMap::new();
        for part in [2, 1] {
            for (number, indexes) in self.open_clauses(values) {
                let least = indexes.iter().map(|index| remainders[*index]).min();
                let weight = least.expect("the clause is not broken").div_ceil(part);
                for index in indexes {
                    remainders[index] -= weight;
                }
                *weights.entry(number).or_insert(0) += weight;
            }
        }
        weights.retain(|_, weight| *weight > 0);
        weights.into_iter().collect()
    }

    /// What the values cost.
    pub fn cost(&self, values: &[bool]) -> u64 {
        let true_costs = self.costs.iter().zip(values).filter(|(_, value)| **value);
        true_costs.map(|(cost, _)| u64::from(*cost)).sum()
    }

    /// An independent set, or weights, whose bound is enough.
    fn bounding_leaf(&mut self, values: &[bool]) -> Option<Derived> {
        let codes = falsified_by(values);
        let (body, bound) = match self.bounding {
            Bounding::Nothing => return None,
            Bounding::IndependentSets => self.independent_body(values, &codes)?,
            Bounding::Weights { divisor } => self.weighted_body(values, &codes, divisor)?,
        };
        (bound >= self.enough).then(|| self.push(body, codes.into_iter().collect(), bound))
    }

    fn independent_body(&self, values: &[bool], codes: &[u16]) -> Option<(Vec<u8>, u64)> {
        let (cited, sum) = self.independent_set(values);
        if cited.is_empty() {
            return None;
        }
        let bound = self.cost(values) + sum;
        Some((independent_step(codes, bound, &cited), bound))
    }

    /// No literal of a cited clause is true under the values, so what a clause takes off for its negative literals
    /// comes back from their variables: the total is that of the weights and of the true variables' costs.
    fn weighted_body(
        &self,
        values: &[bool],
        codes: &[u16],
        divisor: u16,
    ) -> Option<(Vec<u8>, u64)> {
        let entries = self.weights(values, divisor);
        if entries.is_empty() {
            return None;
        }
        let weights = entries.iter().map(|(_, weight)| u64::from(*weight));
        let bound = self.cost(values) + weights.sum::<u64>().div_ceil(u64::from(divisor));
        Some((weighted_step(codes, bound, divisor, &entries), bound))
    }

    /// A clause that the values break, a step whose bound is enough, or the cost of all values.
    fn leaf(&mut self, values: &[bool]) -> Option<Derived> {
        if let Some(index) = self.first_broken(values) {
            let codes = self.clauses[index].clone();
            let body = clause_step(&codes, index as u32 + 1);
            return Some(self.push(body, codes.into_iter().collect(), NONE));
        }
        if let Some(leaf) = self.bounding_leaf(values) {
            return Some(leaf);
        }
        if values.len() < self.costs.len() {
            return None;
        }
        let true_indexes: Vec<usize> = (0..values.len()).filter(|i| values[*i]).collect();
        let codes: Vec<u16> = true_indexes.iter().map(|i| neg(*i as u16 + 1)).collect();
        let bound = self.cost(values);
        Some(self.push(cost_step(&codes, bound), codes.into_iter().collect(), bound))
    }

    /// The variable after those that have values is the pivot.
    fn resolve(&mut self, a: &Derived, b: &Derived, values: &[bool]) -> Derived {
        let variable = values.len() as u16 + 1;
        let mut codes: BTreeSet<u16> = a.codes.union(&b.codes).copied().collect();
        codes.remove(&pos(variable));
        codes.remove(&neg(variable));
        let (codes, bound) = self.widen(codes, a.bound.min(b.bound), values);
        let list: Vec<u16> = codes.iter().copied().collect();
        let body = resolution_step(&list, bound, a.step, b.step, variable);
        self.push(body, codes, bound)
    }

    /// By chance, further literals that the values make false too, and a bound that is no more than enough. The branch
    /// is left with either, so the derivation still comes to its close.
    fn widen(
        &mut self,
        mut codes: BTreeSet<u16>,
        mut bound: u64,
        values: &[bool],
    ) -> (BTreeSet<u16>, u64) {
        let exact = (codes.len(), bound);
        if let Some(chance) = &mut self.chance {
            let further = falsified_by(values).into_iter();
            codes.extend(further.filter(|_| chance.below(2) == 0));
            if chance.below(2) == 0 {
                bound = bound.min(self.enough);
            }
        }
        self.wider_count += u32::from((codes.len(), bound) != exact);
        (codes, bound)
    }
}

/// The literals that the values make false, one for each value.
fn falsified_by(values: &[bool]) -> Vec<u16> {
    let falsified = |(value, variable): (&bool, u16)| match value {
        true => neg(variable),
        false => pos(variable),
    };
    values.iter().zip(1..).map(falsified).collect()
}

/// All assignments of this many variables.
pub fn assignments(variable_count: usize) -> Vec<Vec<bool>> {
    let values = |bits: usize| (0..variable_count).map(|i| bits >> i & 1 == 1).collect();
    (0..1 << variable_count).map(values).collect()
}

/// The record of an assignment of at most 8 variables, with its cost as the claim.
pub fn record_of(derivation: &Derivation, values: &[bool]) -> (u64, Vec<u8>) {
    let (mut cost, mut bits) = (0, 0);
    for (index, _) in values.iter().enumerate().filter(|(_, value)| **value) {
        cost += u64::from(derivation.costs[index]);
        bits |= 1 << index;
    }
    (cost, record(cost, &[bits], &derivation.steps))
}
