//! Kind 5 against trying every assignment. What a step that passes states is true of every assignment that satisfies
//! the sheet, whatever its weights; and the total is found by another way than document 02's.

mod common;

use common::*;
use reference::brute::{confirms, confirms_within, least_cost};
use reference::judge;

/// A sheet as lists, and a step of kind 5 but for its bound.
struct Case {
    costs: Vec<u32>,
    clauses: Vec<Vec<u16>>,
    codes: Vec<u16>,
    divisor: u16,
    entries: Vec<(u32, u16)>,
}

/// Literals of some of the variables, each of either sign.
fn random_literals(numbers: &mut Numbers, variable_count: usize) -> Vec<u16> {
    let variables = 1..=variable_count as u16;
    let chosen = variables.filter_map(|variable| match numbers.below(6) {
        0 | 1 => Some(pos(variable)),
        2 => Some(neg(variable)),
        _ => None,
    });
    chosen.collect()
}

impl Case {
    /// At least one clause is cited.
    fn random(numbers: &mut Numbers) -> Case {
        let variable_count = 1 + numbers.below(6);
        let clause_count = 1 + numbers.below(6);
        let costs = (0..variable_count).map(|_| numbers.below(12) as u32);
        let costs = costs.collect();
        let clauses = (0..clause_count).map(|_| random_literals(numbers, variable_count));
        let clauses = clauses.collect();
        let codes = match numbers.below(3) {
            0 => vec![],
            _ => random_literals(numbers, variable_count),
        };
        let always_cited = 1 + numbers.below(clause_count) as u32;
        let cited = (1..=clause_count as u32)
            .filter(|clause| *clause == always_cited || numbers.below(3) > 0);
        let cited: Vec<u32> = cited.collect();
        let weights = cited.iter().map(|_| 1 + numbers.below(14) as u16);
        let weights: Vec<u16> = weights.collect();
        Case {
            costs,
            clauses,
            codes,
            divisor: 1 + numbers.below(4) as u16,
            entries: cited.into_iter().zip(weights).collect(),
        }
    }

    fn sheet(&self) -> Vec<u8> {
        let clauses: Vec<&[u16]> = self.clauses.iter().map(Vec::as_slice).collect();
        sheet(&self.costs, &clauses)
    }

    /// The number of the answer to the step with this bound. 19 says that it passes: under the claim "none" no step
    /// of kind 5 closes.
    fn number(&self, bound: u64) -> u32 {
        let step = weighted_step(&self.codes, bound, self.divisor, &self.entries);
        judge(&self.sheet(), &record(NONE, &[0], &[step])).number
    }

    /// The assignments that make every literal of the step false. There is always one.
    fn falsifying(&self) -> impl Iterator<Item = u32> + '_ {
        let falsifies = |x: &u32| self.codes.iter().all(|code| !is_true(*code, *x));
        (0..1_u32 << self.costs.len()).filter(falsifies)
    }

    fn is_model(&self, x: u32) -> bool {
        let satisfied = |clause: &Vec<u16>| clause.iter().any(|code| is_true(*code, x));
        self.clauses.iter().all(satisfied)
    }

    fn cost(&self, x: u32) -> u64 {
        let costs = self.costs.iter().enumerate();
        let paid = costs.filter(|(index, _)| x >> index & 1 == 1);
        paid.map(|(_, cost)| u64::from(*cost)).sum()
    }

    /// The cost times the divisor, where a cited clause need not be satisfied: its weight is paid if no literal is
    /// true and is paid back for every true literal but one. For a model this is never above the cost.
    fn relaxed_cost(&self, x: u32) -> i64 {
        let mut cost = i64::from(self.divisor) * self.cost(x) as i64;
        for (clause, weight) in &self.entries {
            let codes = self.clauses[*clause as usize - 1].iter();
            let true_count = codes.filter(|code| is_true(**code, x)).count() as i64;
            cost -= i64::from(*weight) * (true_count - 1);
        }
        cost
    }

    /// The total, as the least relaxed cost: the sum over variables lets each take the value that adds less, and so
    /// does trying every assignment.
    fn total(&self) -> i64 {
        let costs = self.falsifying().map(|x| self.relaxed_cost(x));
        costs.min().expect("literals that rise can all be false")
    }

    /// The first number, from 0 on, that is enough for the total.
    fn bound(&self) -> u64 {
        let divisor = u64::from(self.divisor);
        let total = self.total();
        (0..)
            .find(|bound| (divisor * bound) as i64 >= total)
            .unwrap()
    }
}

/// How often the totals, bounds and models were such that a wrong rule would have shown.
#[derive(Default)]
struct Seen {
    below_zero: u32,
    zero: u32,
    rounded: u32,
    without_model: u32,
    tight: u32,
    closing: u32,
    within: u32,
}

impl Seen {
    fn add(&mut self, case: &Case, bound: u64) {
        let total = case.total();
        let models = case.falsifying().filter(|x| case.is_model(*x));
        let least = models.map(|x| case.cost(x)).min();
        self.below_zero += u32::from(total < 0);
        self.zero += u32::from(total == 0);
        self.rounded += u32::from(total > 0 && total % i64::from(case.divisor) != 0);
        self.without_model += u32::from(least.is_none());
        self.tight += u32::from(bound > 0 && least == Some(bound));
    }
}

/// Whatever the weights: a model that makes the step's literals false costs at least the bound.
fn assert_true_of_every_model(case: &Case, bound: u64) {
    for x in case.falsifying().filter(|x| case.is_model(*x)) {
        assert!(case.cost(x) >= bound);
    }
}

/// Just the one bound passes, of all that come near the total or the costs.
fn assert_only_bound(case: &Case, bound: u64) {
    let sum: u64 = case.costs.iter().map(|cost| u64::from(*cost)).sum();
    let greatest = 2 + sum.max(bound);
    for candidate in (0..=greatest).chain([bound + (1 << 32), NONE - 1, NONE]) {
        let number = if candidate == bound { 19 } else { 24 };
        assert_eq!(case.number(candidate), number);
    }
}

#[test]
fn random_weights_state_what_is_true_of_every_model() {
    let mut numbers = Numbers::from(5);
    let mut seen = Seen::default();
    for _ in 0..5_000 {
        let case = Case::random(&mut numbers);
        let bound = case.bound();
        assert_only_bound(&case, bound);
        assert_true_of_every_model(&case, bound);
        seen.add(&case, bound);
    }
    assert!(seen.below_zero > 400 && seen.zero > 100);
    assert!(seen.rounded > 400 && seen.without_model > 200);
    assert!(seen.tight > 200);
}

/// Without literals the step is the close of a record that claims its bound, if that is what the best model costs.
/// Every other model is told how much dearer than the bound it is.
#[test]
fn random_weights_close_at_the_least_cost_and_above_it_never() {
    let mut numbers = Numbers::from(6);
    let mut seen = Seen::default();
    for _ in 0..5_000 {
        let mut case = Case::random(&mut numbers);
        case.codes.clear();
        let (sheet, bound) = (case.sheet(), case.bound());
        let least = least_cost(&sheet);
        let steps = [weighted_step(&[], bound, case.divisor, &case.entries)];
        for x in case.falsifying().filter(|x| case.is_model(*x)) {
            let record = record(case.cost(x), &[x as u8], &steps);
            let answer = judge(&sheet, &record);
            if case.cost(x) == bound {
                assert_eq!(answer, accepted(bound, u64::from(x.count_ones()), 1));
                assert_eq!(least, Some(bound));
                assert!(confirms(&sheet, &record, &answer));
                seen.closing += u32::from(bound > 0);
            } else {
                let gap = case.cost(x) - bound;
                let open_count = u64::from(x.count_ones());
                assert_eq!(answer, within(gap, case.cost(x), open_count, 1));
                assert!(confirms_within(&sheet, &record, &answer));
                seen.within += u32::from(bound > 0);
            }
        }
    }
    assert!(seen.closing > 100 && seen.within > 1_000);
}

/// All sheets of two clauses over variables of cost 1 and 2, all lists of the step and all weights from 1 to 4.
fn every_case(divisor: u16) -> Vec<Case> {
    let mut cases = vec![];
    for first in every_list(2) {
        for second in every_list(2) {
            for codes in every_list(2) {
                for weights in 0..16 {
                    cases.push(Case {
                        costs: vec![1, 2],
                        clauses: vec![first.clone(), second.clone()],
                        codes: codes.clone(),
                        divisor,
                        entries: vec![(1, 1 + weights % 4), (2, 1 + weights / 4)],
                    });
                }
            }
        }
    }
    cases
}

#[test]
fn two_clauses_over_2_variables_under_every_settling() {
    let mut seen = Seen::default();
    for divisor in 1..=3 {
        for case in every_case(divisor) {
            let bound = case.bound();
            assert_only_bound(&case, bound);
            assert_true_of_every_model(&case, bound);
            seen.add(&case, bound);
        }
    }
    assert!(seen.below_zero > 1_000 && seen.zero > 1_000);
    assert!(seen.rounded > 1_000 && seen.without_model > 1_000);
    assert!(seen.tight > 1_000);
}
