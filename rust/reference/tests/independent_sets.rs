//! Refusals 14, 20, 21, 22 and 15: kind 3.

mod common;

use common::*;
use reference::{judge, Answer};
use std::collections::BTreeSet;

/// One step over costs 1, 2, 4, 8, 16, 32, so that a bound tells which variables it counts. Under the claim
/// "none" no assignment has to satisfy the clauses before the step is reached.
fn judge_on(clauses: &[&[u16]], body: Vec<u8>) -> Answer {
    let sheet = sheet(&[1, 2, 4, 8, 16, 32], clauses);
    judge(&sheet, &record(NONE, &[0], &[body]))
}

/// The step passes at this bound (and does not close), and meets 15 at every other.
fn assert_bound(clauses: &[&[u16]], codes: &[u16], cited: &[u32], bound: u64) {
    let judged = |bound| judge_on(clauses, independent_step(codes, bound, cited));
    assert_eq!(judged(bound), refused(19, 1));
    for wrong in (0..=64).chain([bound + (1 << 32), NONE - 1, NONE]) {
        if wrong != bound {
            assert_eq!(judged(wrong), refused(15, 1));
        }
    }
}

/// The step meets this number at every bound, so never 15.
fn assert_fault(number: u32, clauses: &[&[u16]], codes: &[u16], cited: &[u32]) {
    for bound in (0..=64).chain([NONE - 1, NONE]) {
        let answer = judge_on(clauses, independent_step(codes, bound, cited));
        assert_eq!(answer, refused(number, 1));
    }
}

#[test]
fn one_clause_costs_its_cheapest_variable() {
    assert_bound(&[&[pos(2), pos(3), pos(5)]], &[], &[1], 2);
}

#[test]
fn clauses_without_a_common_variable_add_up() {
    let clauses: [&[u16]; 3] = [&[pos(1), pos(4)], &[pos(2), pos(5)], &[pos(3), pos(6)]];
    assert_bound(&clauses, &[], &[1, 2, 3], 1 + 2 + 4);
    assert_bound(&clauses, &[], &[1, 3], 1 + 4);
}

#[test]
fn variables_settled_true_are_paid_for_wherever_they_stand() {
    // Variable 6 stands in no clause; variable 5 stands in clause 1 as a false literal.
    let clauses: [&[u16]; 2] = [&[pos(2), pos(3), neg(5)], &[pos(1)]];
    assert_bound(&clauses, &[neg(5), neg(6)], &[1], 16 + 32 + 2);
    assert_bound(&clauses, &[neg(5), neg(6)], &[1, 2], 16 + 32 + 2 + 1);
}

#[test]
fn variables_settled_false_cost_nothing() {
    assert_bound(&[&[pos(2), pos(3)]], &[pos(1), pos(6)], &[1], 2);
}

#[test]
fn the_least_cost_is_that_of_the_unsettled_variables_alone() {
    assert_bound(&[&[pos(1), pos(3), pos(4)]], &[pos(1)], &[1], 4);
    assert_bound(&[&[pos(1), pos(3), pos(4)]], &[pos(1), pos(3)], &[1], 8);
}

#[test]
fn a_settled_variable_may_stand_in_two_cited_clauses() {
    let clauses: [&[u16]; 2] = [&[pos(1), pos(3)], &[pos(2), pos(3)]];
    assert_bound(&clauses, &[pos(3)], &[1, 2], 1 + 2);
    let clauses: [&[u16]; 2] = [&[pos(1), neg(3)], &[pos(2), neg(3)]];
    assert_bound(&clauses, &[neg(3)], &[1, 2], 4 + 1 + 2);
}

#[test]
fn a_clause_that_is_not_cited_does_not_matter() {
    let clauses: [&[u16]; 3] = [&[pos(1), pos(2)], &[pos(2), pos(3)], &[pos(4)]];
    assert_bound(&clauses, &[], &[1, 3], 1 + 8);
}

#[test]
fn an_independent_set_may_close_by_itself() {
    let clauses: [&[u16]; 2] = [&[pos(1), pos(2)], &[pos(3)]];
    let steps = [independent_step(&[], 5, &[1, 2])];
    let answer = judge(&sheet(&[1, 2, 4], &clauses), &record(5, &[0b101], &steps));
    assert_eq!(answer, accepted(5, 2, 1));
}

#[test]
fn refusal_14_a_literal_already_true() {
    assert_fault(14, &[&[pos(1), pos(2)]], &[neg(1)], &[1]);
    assert_fault(14, &[&[neg(1), pos(2)]], &[pos(1)], &[1]);
}

#[test]
fn refusal_20_an_unsettled_literal_that_is_negative() {
    assert_fault(20, &[&[pos(1), neg(2)]], &[], &[1]);
    assert_fault(20, &[&[neg(2)]], &[], &[1]);
    assert_fault(20, &[&[pos(1), neg(2)]], &[pos(1)], &[1]);
    // Settled, the negative literal is false and does no harm.
    assert_bound(&[&[pos(1), neg(2)]], &[neg(2)], &[1], 2 + 1);
}

#[test]
fn refusal_21_no_variable_unsettled() {
    assert_fault(21, &[&[pos(1)]], &[pos(1)], &[1]);
    assert_fault(21, &[&[pos(1), neg(2)]], &[pos(1), neg(2)], &[1]);
    // Other clauses may have every variable settled.
    assert_bound(&[&[pos(1)], &[pos(2)]], &[pos(1)], &[2], 2);
}

#[test]
fn refusal_21_the_empty_clause_leaves_no_variable_unsettled() {
    assert_fault(21, &[&[]], &[], &[1]);
    assert_fault(21, &[&[pos(1)], &[]], &[neg(6)], &[1, 2]);
}

#[test]
fn refusal_22_an_unsettled_variable_in_two_cited_clauses() {
    let clauses: [&[u16]; 3] = [&[pos(1), pos(3)], &[pos(2)], &[pos(3), pos(4)]];
    assert_fault(22, &clauses, &[], &[1, 3]);
    assert_fault(22, &clauses, &[], &[1, 2, 3]);
    assert_fault(22, &clauses, &[pos(4)], &[1, 3]);
    assert_bound(&clauses, &[pos(3)], &[1, 3], 1 + 8);
}

#[test]
fn refusal_22_by_any_clause_cited_before() {
    for shared in [pos(1), pos(2), pos(3)] {
        let clauses: [&[u16]; 4] = [&[pos(1)], &[pos(2)], &[pos(3)], &[shared, pos(4)]];
        assert_fault(22, &clauses, &[], &[1, 2, 3, 4]);
    }
    let clauses: [&[u16]; 4] = [&[pos(1)], &[pos(2)], &[pos(3)], &[pos(4)]];
    assert_bound(&clauses, &[], &[1, 2, 3, 4], 1 + 2 + 4 + 8);
}

#[test]
fn refusal_22_equal_clauses_are_two_clauses_all_the_same() {
    let clauses: [&[u16]; 2] = [&[pos(1), pos(3)], &[pos(1), pos(3)]];
    assert_fault(22, &clauses, &[], &[1, 2]);
    assert_bound(&clauses, &[], &[2], 1);
}

/// Clauses 1 and 3 share variable 1. Clause 1 is in order for all that, so clause 2 is the first with a fault.
#[test]
fn refusal_22_is_the_later_clauses_alone() {
    let clauses: [&[u16]; 3] = [&[pos(1)], &[neg(4)], &[pos(1), pos(2)]];
    assert_fault(22, &clauses, &[], &[1, 3]);
    assert_fault(20, &clauses, &[], &[1, 2, 3]);
    // With 2 true, clause 3 has a fault that comes before the shared variable.
    assert_fault(14, &clauses, &[neg(2)], &[1, 3]);
}

#[test]
fn a_fault_of_any_cited_clause() {
    let clauses: [&[u16]; 3] = [&[pos(1)], &[pos(2)], &[pos(3), neg(4)]];
    assert_fault(20, &clauses, &[], &[1, 2, 3]);
    assert_fault(20, &clauses, &[], &[3]);
    assert_fault(21, &clauses, &[pos(1)], &[1, 2]);
    assert_fault(14, &clauses, &[neg(2)], &[1, 2]);
}

#[test]
fn the_four_at_the_greatest_variable() {
    let open: &[u16] = &[pos(1_024)];
    let shut: &[u16] = &[neg(1_024)];
    let sheet = sheet(&[1; 1_024], &[open, open, shut]);
    let judged = |codes: &[u16], cited: &[u32]| {
        let step = independent_step(codes, 1, cited);
        judge(&sheet, &record(NONE, &[0; 128], &[step]))
    };
    assert_eq!(judged(&[], &[1]), refused(19, 1));
    assert_eq!(judged(shut, &[1]), refused(14, 1));
    assert_eq!(judged(&[], &[3]), refused(20, 1));
    assert_eq!(judged(open, &[1]), refused(21, 1));
    assert_eq!(judged(&[], &[1, 2]), refused(22, 1));
}

/// The tests below put clauses together under one settling: 1 is true and 2 false.
const SETTLING: [u16; 2] = [neg(1), pos(2)];

/// A clause in order, cited first so that a later one can share variable 5 with it.
const SOUND: &[u16] = &[pos(5), pos(6)];

/// What [`SOUND`] alone comes to: variable 1 is paid for, and 5 is the cheaper of the clause's two.
const SOUND_BOUND: u64 = 1 + 16;

/// Clauses with one fault each, by its number. No two of them share an unsettled variable.
const FAULTY: [(u32, &[u16]); 4] = [
    (14, &[pos(1), pos(3)]),
    (20, &[pos(2), neg(4)]),
    (21, &[neg(1), pos(2)]),
    (22, &[pos(2), pos(5)]),
];

/// Document 02's order, which is not that of the numbers alone: 15 comes after all of them.
#[test]
fn each_fault_by_itself_comes_before_15() {
    assert_bound(&[SOUND], &SETTLING, &[1], SOUND_BOUND);
    for (number, clause) in FAULTY {
        assert_fault(number, &[SOUND, clause], &SETTLING, &[1, 2]);
    }
}

/// Clauses with two faults or three. 20 with 21 and 21 with 22 cannot be had, since 21 leaves nothing unsettled:
/// `two_clauses_over_3_variables_under_every_settling` tries them all.
#[test]
fn faults_of_one_clause_come_in_the_order_14_20_21_22() {
    // Of each clause, the number it meets and what is left of it without that fault, with the number of that.
    let cases: [(&[u16], u32, &[u16], u32); 6] = [
        (&[pos(1), neg(4)], 14, &[neg(4)], 20),
        (&[pos(1), pos(2)], 14, &[pos(2)], 21),
        (&[pos(1), pos(5)], 14, &[pos(5)], 22),
        (&[neg(4), pos(5)], 20, &[pos(5)], 22),
        (&[pos(1), neg(5)], 14, &[neg(5)], 20),
        (&[pos(1), neg(4), pos(5)], 14, &[neg(4), pos(5)], 20),
    ];
    for (clause, number, rest, number_of_rest) in cases {
        assert_fault(number, &[SOUND, clause], &SETTLING, &[1, 2]);
        assert_fault(number_of_rest, &[SOUND, rest], &SETTLING, &[1, 2]);
    }
}

/// A fault that comes earlier is found at whichever literal it stands.
#[test]
fn each_condition_is_tried_over_the_whole_clause_before_the_next() {
    let shared: &[u16] = &[pos(3)];
    // 14 and 20, 14 and 22, 20 and 22: the earlier fault at the first literal, then at the last.
    assert_fault(14, &[&[pos(1), neg(3)]], &[neg(1)], &[1]);
    assert_fault(14, &[&[neg(3), pos(6)]], &[neg(6)], &[1]);
    assert_fault(14, &[shared, &[pos(1), pos(3)]], &[neg(1)], &[1, 2]);
    assert_fault(14, &[shared, &[pos(3), pos(6)]], &[neg(6)], &[1, 2]);
    assert_fault(20, &[shared, &[neg(1), pos(3)]], &[], &[1, 2]);
    assert_fault(20, &[shared, &[pos(3), neg(6)]], &[], &[1, 2]);
    // 14 and 21: every literal is settled, and one of them is true.
    assert_fault(14, &[&[pos(1), pos(6)]], &[neg(1), pos(6)], &[1]);
    assert_fault(14, &[&[pos(1), pos(6)]], &[pos(1), neg(6)], &[1]);
    // 20 and 22 at the same literal.
    assert_fault(20, &[shared, &[neg(3)]], &[], &[1, 2]);
}

/// Every two of the faulty clauses, both ways round, so also where the second's number comes earlier.
#[test]
fn of_two_faulty_clauses_the_first_cited_decides() {
    for (number, first) in FAULTY {
        for (second_number, second) in FAULTY {
            let clauses = [SOUND, first, second];
            assert_fault(number, &clauses, &SETTLING, &[1, 2, 3]);
            assert_fault(second_number, &clauses, &SETTLING, &[1, 3]);
        }
    }
}

/// Without a clause in order before them. 22 alone takes one, so it is not among the first here.
#[test]
fn the_first_cited_decides_from_the_first_clause_on() {
    for (number, first) in FAULTY.into_iter().filter(|(number, _)| *number != 22) {
        for (_, second) in FAULTY {
            assert_fault(number, &[first, second], &SETTLING, &[1, 2]);
        }
    }
}

#[test]
fn the_place_of_each_fault_is_the_step() {
    for (number, clause) in FAULTY {
        let sheet = sheet(&[1, 2, 4, 8, 16, 32], &[SOUND, clause]);
        let sound = independent_step(&SETTLING, SOUND_BOUND, &[1]);
        for place in 1..=4 {
            let mut steps = vec![sound.clone(); place - 1];
            steps.push(independent_step(&SETTLING, SOUND_BOUND, &[1, 2]));
            // A step after it, whose own fault would come first in one and the same step.
            steps.push(vec![]);
            let answer = judge(&sheet, &record(NONE, &[0], &steps));
            assert_eq!(answer, refused(number, place as u64));
        }
    }
}

#[test]
fn refusals_8_and_9_come_before_each_fault() {
    for (_, clause) in FAULTY {
        let clauses = [SOUND, clause];
        let cited_wrongly: [&[u32]; 4] = [&[1, 2, 3], &[0, 1, 2], &[1, 2, 2], &[1, 2, 1]];
        for cited in cited_wrongly {
            assert_fault(9, &clauses, &SETTLING, cited);
        }
        let mut cut_short = independent_step(&SETTLING, SOUND_BOUND, &[1, 2]);
        cut_short.pop();
        assert_eq!(judge_on(&clauses, cut_short), refused(8, 1));
    }
}

/// How variables 1, 2 and 3 stand in a list of literals: positive, negative or not at all.
type Signs = [Option<bool>; 3];

fn every_signs() -> Vec<Signs> {
    let sign = |digit: usize| [None, Some(true), Some(false)][digit % 3];
    let signs = |code: usize| [sign(code), sign(code / 3), sign(code / 9)];
    (0..27).map(signs).collect()
}

fn codes(signs: &Signs) -> Vec<u16> {
    let code = |(sign, variable): (&Option<bool>, u16)| match sign {
        Some(true) => Some(pos(variable)),
        Some(false) => Some(neg(variable)),
        None => None,
    };
    signs.iter().zip(1..).filter_map(code).collect()
}

/// Which of 14, 20, 21 and 22 apply to a clause under the step's literals, each looked for by itself.
fn faults(step: &Signs, clause: &Signs, cited_before: &Signs) -> [bool; 4] {
    let any = |holds: &dyn Fn(usize) -> bool| (0..3).any(holds);
    let unsettled = |v: usize| clause[v].is_some() && step[v].is_none();
    [
        // The step's literals are made false, so one of the other sign is true.
        any(&|v| matches!((step[v], clause[v]), (Some(s), Some(c)) if s != c)),
        any(&|v| unsettled(v) && clause[v] == Some(false)),
        !any(&unsettled),
        any(&|v| unsettled(v) && cited_before[v].is_some()),
    ]
}

/// All choices of a step's literals and two clauses.
fn every_three() -> Vec<[Signs; 3]> {
    let mut all = vec![];
    for step in every_signs() {
        for first in every_signs() {
            for second in every_signs() {
                all.push([step, first, second]);
            }
        }
    }
    all
}

/// All 27 clauses over 3 variables, in twos, under all 27 lists of literals: the answer is the first fault of the
/// first clause that has one, else 15. And of the six pairs of faults in one clause, four occur: those of 21 with
/// 20 or 22 would take an unsettled variable where there is none.
#[test]
fn two_clauses_over_3_variables_under_every_settling() {
    const NUMBERS: [u32; 4] = [14, 20, 21, 22];
    let mut met = BTreeSet::new();
    let mut met_together = BTreeSet::new();
    for [step, first, second] in every_three() {
        let of_first = faults(&step, &first, &[None; 3]);
        let of_second = faults(&step, &second, &first);
        let mut in_order = of_first.iter().chain(&of_second);
        let at = in_order.position(|applies| *applies);
        let number = at.map_or(15, |at| NUMBERS[at % 4]);
        // No sum of costs is "none", so where no clause has a fault the bound has one.
        let body = independent_step(&codes(&step), NONE, &[1, 2]);
        let answer = judge_on(&[&codes(&first), &codes(&second)], body);
        assert_eq!(answer, refused(number, 1));
        met.insert(number);
        for (i, j) in [(0, 1), (0, 2), (0, 3), (1, 2), (1, 3), (2, 3)] {
            if of_second[i] && of_second[j] {
                met_together.insert((NUMBERS[i], NUMBERS[j]));
            }
        }
    }
    assert_eq!(met, BTreeSet::from([14, 15, 20, 21, 22]));
    let possible = BTreeSet::from([(14, 20), (14, 21), (14, 22), (20, 22)]);
    assert_eq!(met_together, possible);
}
