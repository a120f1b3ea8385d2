//! The bytes of a small sheet and record, and the sheet of eight clauses planned both ways.

mod common;

use common::clause;
use planner::certificate::Certificate;
use planner::{format, search, tree, Plan, Problem, Reason};

fn two_clauses() -> Problem {
    Problem {
        loss: None,
        costs: vec![3, 5],
        clauses: vec![clause(&[1, 2]), clause(&[1, -2])],
    }
}

fn eight_clauses() -> Problem {
    let clauses: [&[i32]; 8] = [
        &[2, 4],
        &[2, -5],
        &[4, -5],
        &[5, 6],
        &[1, 3, -6],
        &[-1, 3, -6],
        &[2, 3, 5, -6],
        &[2, -3, 5, -6],
    ];
    let clauses = clauses.iter().map(|literals| clause(literals)).collect();
    Problem {
        loss: None,
        costs: (1..=6).collect(),
        clauses,
    }
}

#[test]
fn sheet_bytes_are_those_of_the_paper() {
    let expected = [
        2, 0, 2, 0, 3, 0, 0, 0, 5, 0, 0, 0, 0x1C, 0, 0, 0, 4, 0, 0, 0, 0x20, 0, 0, 0, 4, 0, 0, 0,
        2, 0, 4, 0, 2, 0, 5, 0,
    ];
    assert_eq!(format::sheet(&two_clauses()), expected);
}

#[test]
fn record_offsets_are_those_of_the_paper() {
    let problem = two_clauses();
    let mut certificate = Certificate::new(&problem);
    let (first, second) = (certificate.copy(1), certificate.copy(2));
    let both = certificate.resolve(first, second, 2).unwrap();
    let cost = certificate.cost(clause(&[-1]));
    let last = certificate.resolve(both, cost, 1).unwrap();
    let plan = Plan {
        claim: 3,
        assignment: vec![true, false],
        steps: certificate.needed_by(last),
    };
    let record = plan.record();
    let offset = |step: usize| record[13 + 8 * step];
    assert_eq!(record.len(), 153);
    assert_eq!([0, 1, 2, 3, 4].map(offset), [53, 73, 93, 117, 131]);
    assert_eq!(record[12], 1);
}

#[test]
fn weights_are_stored_after_their_divisor() {
    let problem = two_clauses();
    let mut certificate = Certificate::new(&problem);
    let step = certificate.linear(clause(&[1]), 2, vec![(1, 5), (2, 0x1234)]);
    // Clause 2 has one negative literal, so that its weight counts for nothing; variable 2 has more left than its cost.
    assert_eq!(certificate.step(step).bound, 3);
    let expected = [
        5, 0, 1, 0, 3, 0, 0, 0, 0, 0, 0, 0, 2, 0, 2, 0, 1, 0, 0, 0, 5, 0, 2, 0, 0, 0, 0x34, 0x12,
    ];
    assert_eq!(format::step_body(certificate.step(step)), expected);
}

#[test]
fn eight_clauses_cost_eleven_both_ways() {
    let problem = eight_clauses();
    for plan in [tree::plan(&problem), search::plan(&problem)] {
        assert_eq!(plan.claim, 11);
        assert_eq!(plan.assignment, [false, true, false, true, true, false]);
        let last = plan.steps.last().unwrap();
        assert_eq!((last.literals.as_slice(), last.bound), ([].as_slice(), 11));
    }
}

#[test]
fn a_resolvent_that_holds_a_variable_both_ways_is_refused() {
    let clauses = vec![clause(&[1, 2]), clause(&[-1, -2])];
    let problem = Problem {
        loss: None,
        costs: vec![3, 5],
        clauses,
    };
    let mut certificate = Certificate::new(&problem);
    let (first, second) = (certificate.copy(1), certificate.copy(2));
    assert_eq!(certificate.resolve(first, second, 1), None);
}

#[test]
fn nothing_satisfies_an_empty_clause_and_nothing_is_cheapest_without_clauses() {
    let broken = Problem {
        loss: None,
        costs: vec![7],
        clauses: vec![clause(&[])],
    };
    let free = Problem {
        loss: None,
        costs: vec![7],
        clauses: Vec::new(),
    };
    for planned in [tree::plan, search::plan] {
        let plan = planned(&broken);
        assert_eq!(plan.claim, planner::NONE);
        assert_eq!(plan.steps.len(), 1);
        assert_eq!(plan.steps[0].reason, Reason::Copy { clause: 1 });
        assert_eq!(planned(&free).claim, 0);
    }
}
