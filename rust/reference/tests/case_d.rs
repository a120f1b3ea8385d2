//! Case D: the example of document 001, section 3.2, with the derivation that its text walks through.

mod common;

use common::*;
use reference::{judge, line};

/// Variables 2, 4 and 5.
const ASSIGNMENT: u8 = 0b01_1010;

fn copy(clause: u32) -> Vec<u8> {
    clause_step(CLAUSES_D[clause as usize - 1], clause)
}

/// Either variable 5 is true, and then 2 and 4 are too; or 6 is, and then 2 and 3 are too. Both ways cost 11.
fn steps_d() -> Vec<Vec<u8>> {
    vec![
        cost_step(&[neg(2), neg(4), neg(5)], 11),
        copy(3),
        resolution_step(&[neg(2), neg(5)], 11, 2, 1, 4),
        copy(2),
        resolution_step(&[neg(5)], 11, 4, 3, 2),
        cost_step(&[neg(2), neg(3), neg(6)], 11),
        copy(5),
        copy(6),
        resolution_step(&[pos(3), neg(6)], NONE, 7, 8, 1),
        resolution_step(&[neg(2), neg(6)], 11, 9, 6, 3),
        copy(7),
        copy(8),
        resolution_step(&[pos(2), pos(5), neg(6)], NONE, 11, 12, 3),
        resolution_step(&[pos(5), neg(6)], 11, 13, 10, 2),
        copy(4),
        resolution_step(&[pos(5)], 11, 15, 14, 6),
        resolution_step(&[], 11, 16, 5, 5),
    ]
}

#[test]
fn the_derivation_is_accepted_as_least_11() {
    let answer = judge(&sheet_d(), &record(11, &[ASSIGNMENT], &steps_d()));
    assert_eq!(answer, accepted(11, 3, 17));
    assert_eq!(line(&answer), "least 11 open 3 steps 17");
}

/// With 2 and 5 true, clause 3 has 4 alone left, at 4: the bound 11 comes without resolving 4 away.
#[test]
fn an_independent_set_gives_the_bound_of_steps_1_to_3() {
    let mut steps = steps_d();
    steps[2] = independent_step(&[neg(2), neg(5)], 11, &[3]);
    let answer = judge(&sheet_d(), &record(11, &[ASSIGNMENT], &steps));
    assert_eq!(answer, accepted(11, 3, 17));
}

/// Step 9 holds "2 shut" as well, which step 14 resolves away, and step 10 "5 open", which step 14 has anyway. The
/// bounds "none" of steps 9 and 13 come down to the claim.
#[test]
fn wider_statements_on_the_way_are_accepted() {
    let mut steps = steps_d();
    steps[8] = resolution_step(&[neg(2), pos(3), neg(6)], 11, 7, 8, 1);
    steps[9] = resolution_step(&[neg(2), pos(5), neg(6)], 11, 9, 6, 3);
    steps[12] = resolution_step(&[pos(2), pos(5), neg(6)], 11, 11, 12, 3);
    let answer = judge(&sheet_d(), &record(11, &[ASSIGNMENT], &steps));
    assert_eq!(answer, accepted(11, 3, 17));
}

/// Step 5 is one of the last step's premises: what it holds besides "5 shut" is still there at the end.
#[test]
fn damaged_a_wider_statement_that_the_last_step_lacks_a_literal_of() {
    let mut steps = steps_d();
    steps[4] = resolution_step(&[neg(5), pos(6)], 11, 4, 3, 2);
    let judged = |steps: &[Vec<u8>]| judge(&sheet_d(), &record(11, &[ASSIGNMENT], steps));
    assert_eq!(judged(&steps), refused(17, 17));
    steps[16] = resolution_step(&[pos(6)], 11, 16, 5, 5);
    assert_eq!(judged(&steps), refused(19, 17));
}

/// Variables 1, 2, 4 and 5 satisfy every clause too, at cost 12.
#[test]
fn a_dearer_assignment_is_within_1() {
    let answer = judge(&sheet_d(), &record(12, &[ASSIGNMENT | 0b1], &steps_d()));
    assert_eq!(answer, within(1, 12, 4, 17));
    assert_eq!(line(&answer), "within 1 cost 12 open 4 steps 17");
}

#[test]
fn damaged_a_cost_step_that_counts_a_positive_literal() {
    let mut steps = steps_d();
    steps[5] = cost_step(&[neg(2), pos(3), neg(6)], 11);
    assert_eq!(
        judge(&sheet_d(), &record(11, &[ASSIGNMENT], &steps)),
        refused(13, 6)
    );
}

#[test]
fn damaged_the_greater_bound_of_a_resolution() {
    let mut steps = steps_d();
    steps[9] = resolution_step(&[neg(2), neg(6)], NONE, 9, 6, 3);
    assert_eq!(
        judge(&sheet_d(), &record(11, &[ASSIGNMENT], &steps)),
        refused(18, 10)
    );
}

#[test]
fn damaged_a_step_left_out() {
    let mut steps = steps_d();
    steps.pop();
    assert_eq!(
        judge(&sheet_d(), &record(11, &[ASSIGNMENT], &steps)),
        refused(19, 16)
    );
}

#[test]
fn damaged_the_assignment_breaks_clause_3() {
    // Variables 2 and 5 only.
    assert_eq!(
        judge(&sheet_d(), &record(7, &[0b01_0010], &steps_d())),
        refused(10, 3)
    );
}
