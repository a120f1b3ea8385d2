//! Refusals 8, 9, 12, 13 and 16 to 19: the steps, but for independent sets and weighted clauses. Resolutions that state
//! less than their resolvents have their own file.

mod common;

use common::*;
use reference::{judge, Answer};

/// Sheet A with this one step. The assignment and the claim 3 are in order, so the step is reached.
fn judge_step(body: Vec<u8>) -> Answer {
    judge_steps(&[body])
}

fn judge_steps(bodies: &[Vec<u8>]) -> Answer {
    judge(&sheet_a(), &record(3, &[0x01], bodies))
}

/// Record A with one of its steps (from 1) replaced.
fn judge_with(step_number: usize, body: Vec<u8>) -> Answer {
    let mut steps = steps_a();
    steps[step_number - 1] = body;
    judge_steps(&steps)
}

/// What a step in order is answered where it has literals, so that it does not close: the step itself was not refused.
const PASSES: (u32, u64) = (19, 1);

fn assert_step(body: Vec<u8>, (number, place): (u32, u64)) {
    assert_eq!(judge_step(body), refused(number, place));
}

#[test]
fn refusal_8_body_too_short() {
    assert_eq!(judge_step(cost_step(&[], 0)), within(3, 3, 1, 1));
    for length in 0..12 {
        assert_step(cost_step(&[], 0)[..length].to_vec(), (8, 1));
    }
}

#[test]
fn refusal_8_literals_cut_short() {
    let body = cost_step(&[pos(1), pos(2)], 0);
    assert_eq!(body.len(), 16);
    assert_step(body.clone(), PASSES);
    for length in 12..16 {
        assert_step(body[..length].to_vec(), (8, 1));
    }
}

#[test]
fn refusal_8_more_literals_than_the_body_holds() {
    for count in [2_u16, 256, 32_768, 65_535] {
        let body = edited(&cost_step(&[pos(1)], 0), 2, &count.to_le_bytes());
        assert_step(body, (8, 1));
    }
}

#[test]
fn refusal_8_kind_unknown() {
    for kind in [0, 6, 7, 133, 255] {
        for tail_length in [0, 4, 8, 10, 14] {
            assert_step(step(kind, &[], 0, &vec![0; tail_length]), (8, 1));
        }
    }
}

#[test]
fn refusal_8_byte_1_not_0() {
    for byte in [1, 2, 255] {
        assert_step(edited(&cost_step(&[], 0), 1, &[byte]), (8, 1));
    }
}

#[test]
fn refusal_8_literals_of_no_variable() {
    for code in [0, 1, 6, 7, 65_535] {
        assert_step(cost_step(&[code], 0), (8, 1));
    }
    assert_step(cost_step(&[pos(2)], 0), PASSES);
    assert_step(cost_step(&[neg(2)], 5), PASSES);
}

#[test]
fn refusal_8_literals_not_rising() {
    let (p1, n1, p2, n2) = (pos(1), neg(1), pos(2), neg(2));
    for codes in [[p1, p1], [p1, n1], [n1, p1], [p2, p1], [n2, p1], [p2, n2]] {
        assert_step(cost_step(&codes, 0), (8, 1));
    }
    assert_step(cost_step(&[p1, p2], 0), PASSES);
    assert_step(cost_step(&[n1, n2], 8), PASSES);
}

/// For each kind, tails of 0 to 20 bytes, all zero: refusal 9 says that the length was right.
#[test]
fn refusal_8_tail_of_the_wrong_length() {
    let right_lengths = [
        (1, vec![4]),
        (3, vec![4, 8, 12, 16, 20]),
        (4, vec![10]),
        (5, vec![8, 14, 20]),
    ];
    for (kind, right) in right_lengths {
        for length in 0..=20 {
            let number = if right.contains(&length) { 9 } else { 8 };
            assert_step(step(kind, &[], 0, &vec![0; length]), (number, 1));
        }
    }
    for length in 1..=20 {
        assert_step(step(2, &[], 0, &vec![0; length]), (8, 1));
    }
}

#[test]
fn refusal_8_is_told_at_the_step() {
    for step_number in 1..=5 {
        let body = edited(&steps_a()[step_number - 1], 1, &[1]);
        assert_eq!(
            judge_with(step_number, body),
            refused(8, step_number as u64)
        );
    }
}

#[test]
fn refusal_8_comes_before_9() {
    assert_step(step(1, &[0], NONE, &four_bytes(&[0])), (8, 1));
    assert_step(resolution_step(&[0], NONE, 0, 0, 1), (8, 1));
}

/// Sheet A has clauses 1 and 2; the literals are those of clause 2.
#[test]
fn refusal_9_a_clause_not_1_to_m() {
    let citing = |clause| clause_step(&[pos(1), neg(2)], clause);
    assert_step(citing(2), PASSES);
    for clause in [0, 3, 4, 258, 65_538, u32::MAX] {
        assert_step(citing(clause), (9, 1));
    }
}

#[test]
fn refusal_9_a_sheet_without_clauses_has_none_to_cite() {
    let judged = |body| judge(&sheet(&[7], &[]), &record(0, &[0], &[body]));
    for clause in [0, 1, 2] {
        assert_eq!(judged(clause_step(&[], clause)), refused(9, 1));
        assert_eq!(judged(independent_step(&[], 0, &[clause])), refused(9, 1));
        let weighted = weighted_step(&[], 0, 1, &[(clause, 1)]);
        assert_eq!(judged(weighted), refused(9, 1));
    }
}

#[test]
fn refusal_9_independent_clauses_not_1_to_m_or_not_rising() {
    let lists: [&[u32]; 8] = [
        &[0],
        &[3],
        &[u32::MAX],
        &[0, 1],
        &[1, 3],
        &[1, 1],
        &[2, 1],
        &[1, 2, 2],
    ];
    for clauses in lists {
        assert_step(independent_step(&[], 3, clauses), (9, 1));
    }
    assert_step(independent_step(&[pos(2)], 3, &[1]), PASSES);
    assert_step(independent_step(&[neg(2)], 8, &[2]), PASSES);
}

#[test]
fn refusal_9_a_step_not_earlier() {
    for cited in [0, 3, 4, 5, 6, 257, u32::MAX] {
        let as_a = resolution_step(&[pos(1)], NONE, cited, 2, 2);
        let as_b = resolution_step(&[pos(1)], NONE, 1, cited, 2);
        assert_eq!(judge_with(3, as_a), refused(9, 3));
        assert_eq!(judge_with(3, as_b), refused(9, 3));
    }
}

#[test]
fn refusal_9_the_first_step_has_no_earlier_one() {
    for cited in [0, 1, 2] {
        assert_step(resolution_step(&[], NONE, cited, cited, 1), (9, 1));
    }
}

#[test]
fn refusal_9_comes_before_the_numbers_of_the_kind() {
    assert_step(step(1, &[], 0, &four_bytes(&[3])), (9, 1));
    assert_step(independent_step(&[pos(1)], 99, &[1, 3]), (9, 1));
    assert_step(resolution_step(&[pos(2)], 99, 1, 1, 9), (9, 1));
}

#[test]
fn refusal_12_literals_that_are_not_the_clauses() {
    let (p1, n1, p2, n2) = (pos(1), neg(1), pos(2), neg(2));
    let lists: [&[u16]; 5] = [&[], &[p1], &[p2], &[n1, p2], &[p1, n2]];
    for codes in lists {
        assert_step(clause_step(codes, 1), (12, 1));
    }
    assert_step(clause_step(&[p1, p2], 1), PASSES);
}

#[test]
fn refusal_12_more_literals_than_the_clause_has() {
    let sheet = sheet(&[3, 5], &[&[pos(1)]]);
    let steps = [clause_step(&[pos(1), pos(2)], 1)];
    let answer = judge(&sheet, &record(3, &[0x01], &steps));
    assert_eq!(answer, refused(12, 1));
}

#[test]
fn refusal_12_a_bound_that_is_not_none() {
    for bound in [0, 3, NONE - 1] {
        let body = step(1, &[pos(1), pos(2)], bound, &four_bytes(&[1]));
        assert_step(body, (12, 1));
    }
}

#[test]
fn refusal_13_a_bound_that_is_not_the_sum() {
    let passes = refused(19, 1);
    let cases: [(&[u16], u64, Answer); 4] = [
        (&[], 0, within(3, 3, 1, 1)),
        (&[pos(1), pos(2)], 0, passes),
        (&[pos(1), neg(2)], 5, passes),
        (&[neg(1), neg(2)], 8, passes),
    ];
    for (codes, sum, answer) in cases {
        assert_eq!(judge_step(cost_step(codes, sum)), answer);
        for wrong in [sum.wrapping_sub(1), sum + 1, sum + (1 << 32), NONE] {
            assert_step(cost_step(codes, wrong), (13, 1));
        }
    }
}

#[test]
fn refusal_16_the_pivot_is_positive_in_a_and_negative_in_b() {
    // Step 1 holds "2 open" and step 2 "2 shut": swapped, neither holds its own.
    let swapped = resolution_step(&[pos(1)], NONE, 2, 1, 2);
    assert_eq!(judge_with(3, swapped), refused(16, 3));
    let only_in_a = resolution_step(&[pos(1)], NONE, 1, 1, 2);
    assert_eq!(judge_with(3, only_in_a), refused(16, 3));
    let only_in_b = resolution_step(&[pos(1)], NONE, 2, 2, 2);
    assert_eq!(judge_with(3, only_in_b), refused(16, 3));
    // "1 open" is in both, "1 shut" in neither.
    let other_variable = resolution_step(&[neg(2)], NONE, 1, 2, 1);
    assert_eq!(judge_with(3, other_variable), refused(16, 3));
}

/// 32,770 doubled leaves the code of "2 open" in 16 bits.
#[test]
fn refusal_16_a_pivot_that_is_no_variable() {
    for pivot in [0, 3, 4, 258, 32_768, 32_770, 65_535] {
        let body = resolution_step(&[pos(1)], NONE, 1, 2, pivot);
        assert_eq!(judge_with(3, body), refused(16, 3));
    }
}

/// The resolvent is {1 open}, and of the nine lists over two variables six are without it.
#[test]
fn refusal_17_a_literal_of_the_resolvent_is_missing() {
    let mut lists = every_list(2);
    lists.retain(|codes| !codes.contains(&pos(1)));
    assert_eq!(lists.len(), 6);
    for codes in lists {
        let body = resolution_step(&codes, NONE, 1, 2, 2);
        assert_eq!(judge_with(3, body), refused(17, 3));
    }
}

/// The resolvent of {1, 2 open} and {1, 2 shut} on 1 holds variable 2 both ways: no list of literals will do.
#[test]
fn refusal_17_a_variable_both_ways() {
    let clauses: [&[u16]; 2] = [&[pos(1), pos(2)], &[neg(1), neg(2)]];
    for codes in every_list(2) {
        let steps = [
            clause_step(clauses[0], 1),
            clause_step(clauses[1], 2),
            resolution_step(&codes, NONE, 1, 2, 1),
        ];
        let answer = judge(&sheet(&[3, 5], &clauses), &record(3, &[0x01], &steps));
        assert_eq!(answer, refused(17, 3));
    }
}

/// Written out as a list, the resolvent that holds a variable both ways does not rise.
#[test]
fn refusal_8_a_resolvent_written_with_a_variable_both_ways() {
    let clauses: [&[u16]; 2] = [&[pos(1), pos(2)], &[neg(1), neg(2)]];
    let steps = [
        clause_step(clauses[0], 1),
        clause_step(clauses[1], 2),
        resolution_step(&[pos(2), neg(2)], NONE, 1, 2, 1),
    ];
    let answer = judge(&sheet(&[3, 5], &clauses), &record(3, &[0x01], &steps));
    assert_eq!(answer, refused(8, 3));
}

#[test]
fn refusal_18_a_bound_above_the_lesser() {
    // Step 5 has premises with "none" and 3.
    for bound in [4, 6, 3 + (1 << 32), NONE - 1, NONE] {
        let body = resolution_step(&[], bound, 3, 4, 1);
        assert_eq!(judge_with(5, body), refused(18, 5));
    }
    // Step 3 has "none" in both, and no bound is above that. A low one is the lesser of step 5's premises.
    for bound in [3, NONE - 1, NONE] {
        let body = resolution_step(&[pos(1)], bound, 1, 2, 2);
        assert_eq!(judge_with(3, body), accepted(3, 1, 5));
    }
    for bound in [0, 2] {
        let body = resolution_step(&[pos(1)], bound, 1, 2, 2);
        assert_eq!(judge_with(3, body), refused(18, 5));
    }
}

/// Two bounds that are costs: neither their sum nor the greater will do, whichever premise has the lesser.
#[test]
fn refusal_18_the_lesser_may_be_either_premises() {
    let sheet = sheet(&[6, 5, 4], &[]);
    let a_lesser = [
        cost_step(&[neg(1), pos(2)], 6),
        cost_step(&[neg(2), neg(3)], 9),
    ];
    let b_lesser = [
        cost_step(&[neg(1), pos(2), neg(3)], 10),
        cost_step(&[neg(2)], 5),
    ];
    for (premises, lesser) in [(a_lesser, 6), (b_lesser, 5)] {
        let judged = |bound| {
            let resolved = resolution_step(&[neg(1), neg(3)], bound, 1, 2, 2);
            judge(
                &sheet,
                &record(0, &[0], &[&premises[..], &[resolved]].concat()),
            )
        };
        for passing in [0, lesser - 1, lesser] {
            assert_eq!(judged(passing), refused(19, 3));
        }
        for wrong in [lesser + 1, 9, 10, 15, NONE] {
            assert_eq!(judged(wrong), refused(18, 3));
        }
    }
}

/// The resolvent of {1, 2 open} and {2 shut} on 2 is {1 open}, and the lesser bound is 5.
#[test]
fn refusals_16_17_18_in_rising_order() {
    let judged = |codes: &[u16], bound, b| {
        judge_steps(&[
            clause_step(&[pos(1), pos(2)], 1),
            cost_step(&[neg(2)], 5),
            resolution_step(codes, bound, 1, b, 2),
        ])
    };
    assert_eq!(judged(&[pos(2)], 6, 1), refused(16, 3));
    assert_eq!(judged(&[pos(2)], 6, 2), refused(17, 3));
    assert_eq!(judged(&[pos(1)], 6, 2), refused(18, 3));
    assert_eq!(judged(&[pos(1)], 5, 2), refused(19, 3));
}

#[test]
fn refusal_19_literals_left_at_the_end() {
    let steps = steps_a();
    for length in 1..5 {
        assert_eq!(judge_steps(&steps[..length]), refused(19, length as u64));
    }
}

#[test]
fn only_the_last_step_can_close() {
    let mut steps = steps_a();
    steps.push(cost_step(&[neg(1)], 3));
    assert_eq!(judge_steps(&steps), refused(19, 6));
    steps[5] = cost_step(&[], 0);
    assert_eq!(judge_steps(&steps), within(3, 3, 1, 6));
    steps.push(resolution_step(&[], 3, 3, 4, 1));
    assert_eq!(judge_steps(&steps), accepted(3, 1, 7));
}

#[test]
fn refusal_19_the_claim_none_takes_the_bound_none() {
    let judged = |steps: &[Vec<u8>]| judge(&sheet_a(), &record(NONE, &[0], steps));
    assert_eq!(judged(&steps_a()), refused(19, 5));
    assert_eq!(judged(&[cost_step(&[], 0)]), refused(19, 1));
}

#[test]
fn the_first_faulty_step_is_told_whatever_follows() {
    let first_fault = cost_step(&[neg(1)], 4);
    let steps = [first_fault, vec![], step(9, &[], 0, &[])];
    assert_eq!(judge_steps(&steps), refused(13, 1));
    // The refusals of a step run step by step: a greater number at an earlier step comes first.
    let wrong_citation = clause_step(&[], 9);
    assert_eq!(judge_steps(&[wrong_citation, vec![]]), refused(9, 1));
    // A step in order before it changes the place alone.
    let steps = [&[cost_step(&[], 0)], &steps[..]].concat();
    assert_eq!(judge_steps(&steps), refused(13, 2));
}

#[test]
fn steps_are_judged_under_the_claim_none_too() {
    let judged = |steps: &[Vec<u8>]| judge(&sheet(&[7], &[&[]]), &record(NONE, &[0], steps));
    assert_eq!(judged(&[vec![]]), refused(8, 1));
    assert_eq!(judged(&[clause_step(&[], 2)]), refused(9, 1));
    assert_eq!(judged(&[clause_step(&[pos(1)], 1)]), refused(12, 1));
    let with_fault = [clause_step(&[], 1), cost_step(&[], 1), clause_step(&[], 1)];
    assert_eq!(judged(&with_fault), refused(13, 2));
}
