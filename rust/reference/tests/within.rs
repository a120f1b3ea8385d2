//! Answers that are neither acceptance nor refusal: the last step has no literals and a bound below the claimed cost.

mod common;

use common::*;
use reference::{judge, Answer, Verdict};

#[test]
fn least_and_none_are_the_acceptances() {
    for (answer, verdict) in [
        (accepted(3, 1, 5), Verdict::Least),
        (accepted(0, 0, 1), Verdict::Least),
        (accepted(NONE - 1, 1, 1), Verdict::Least),
        (accepted(NONE, 0, 1), Verdict::NoneExists),
    ] {
        assert_eq!(answer.verdict(), verdict);
        assert!(answer.accepts() && !answer.refuses());
    }
}

#[test]
fn within_is_neither_acceptance_nor_refusal() {
    for gap in [1, 5, 8, 1 << 32, NONE] {
        let answer = within(gap, 8, 2, 5);
        assert_eq!(answer.verdict(), Verdict::Within);
        assert!(!answer.accepts() && !answer.refuses());
    }
}

#[test]
fn every_other_number_is_a_refusal() {
    for number in (1..=24).chain([u32::MAX]) {
        let answer = refused(number, 1);
        assert_eq!(answer.verdict(), Verdict::Refused);
        assert!(answer.refuses() && !answer.accepts());
    }
}

/// Variable 1 has to be true, at 5, and variable 2 costs 1 more. No model costs anything else.
fn sheet_at_5_or_6() -> Vec<u8> {
    sheet(&[5, 1], &[&[pos(1)]])
}

/// The steps of each kind that can end without literals and with a bound above 0, ending with this one; and the number
/// that a wrong bound meets.
fn endings(bound: u64) -> [(u32, Vec<Vec<u8>>); 3] {
    let resolved = vec![
        clause_step(&[pos(1)], 1),
        cost_step(&[neg(1)], 5),
        resolution_step(&[], bound, 1, 2, 1),
    ];
    [
        (15, vec![independent_step(&[], bound, &[1])]),
        (18, resolved),
        (24, vec![weighted_step(&[], bound, 1, &[(1, 5)])]),
    ]
}

#[test]
fn the_last_bound_equal_to_the_claim_and_one_below_it() {
    for (_, steps) in endings(5) {
        let judged = |claim, bits| judge(&sheet_at_5_or_6(), &record(claim, &[bits], &steps));
        let t = steps.len() as u64;
        assert_eq!(judged(5, 0b01), accepted(5, 1, t));
        assert_eq!(judged(6, 0b11), within(1, 6, 2, t));
    }
}

/// What a step states is true of the record's own assignment, so no last bound is above the claim: either the claim
/// is not the assignment's cost, or the bound is not what the step comes to.
#[test]
fn the_last_bound_is_never_one_above_the_claim() {
    for (_, steps) in endings(5) {
        let judged = |claim, bits| judge(&sheet_at_5_or_6(), &record(claim, &[bits], &steps));
        assert_eq!(judged(4, 0b01), refused(11, 0));
        assert_eq!(judged(1, 0b10), refused(10, 1));
    }
    for (claim, bits) in [(5, 0b01), (6, 0b11)] {
        for (number, steps) in endings(claim + 1) {
            let answer = judge(&sheet_at_5_or_6(), &record(claim, &[bits], &steps));
            assert_eq!(answer, refused(number, steps.len() as u64));
        }
    }
}

/// A step of kind 2 without literals has the bound 0, and no other.
#[test]
fn the_last_bound_0_around_the_claim() {
    let judged = |claim, bits, bound| {
        let steps = [cost_step(&[], bound)];
        judge(&sheet(&[1, 1], &[]), &record(claim, &[bits], &steps))
    };
    assert_eq!(judged(0, 0b00, 0), accepted(0, 0, 1));
    assert_eq!(judged(1, 0b10, 0), within(1, 1, 1, 1));
    assert_eq!(judged(2, 0b11, 0), within(2, 2, 2, 1));
    for (claim, bits) in [(0, 0b00), (1, 0b10), (2, 0b11)] {
        assert_eq!(judged(claim, bits, 1), refused(13, 1));
        assert_eq!(judged(claim, bits, NONE), refused(13, 1));
    }
}

/// The bound "none" without literals says that there is no model, so no assignment gets as far as the close.
#[test]
fn the_last_bound_none_leaves_no_gap() {
    let judged = |claim, bits| {
        let steps = [clause_step(&[], 1)];
        judge(&sheet(&[7], &[&[]]), &record(claim, &[bits], &steps))
    };
    assert_eq!(judged(0, 0), refused(10, 1));
    assert_eq!(judged(7, 1), refused(10, 1));
    assert_eq!(judged(NONE, 0), accepted(NONE, 0, 1));
}

/// There is no cost to take the bound from, however great it is, and whether there is a model or not.
#[test]
fn refusal_19_the_claim_none_with_a_bound_that_is_a_cost() {
    for (_, steps) in endings(5) {
        let answer = judge(&sheet_at_5_or_6(), &record(NONE, &[0], &steps));
        assert_eq!(answer, refused(19, steps.len() as u64));
    }
    let without_model = sheet(&[u32::MAX], &[&[], &[pos(1)]]);
    let bounded = [
        cost_step(&[], 0),
        independent_step(&[], u64::from(u32::MAX), &[2]),
        weighted_step(&[], 65_535, 1, &[(1, 65_535)]),
        weighted_step(&[], 65_535 + 7, 1, &[(1, 65_535), (2, 7)]),
    ];
    for body in bounded {
        assert!(stated(&body).1 < NONE);
        let answer = judge(&without_model, &record(NONE, &[0], &[body]));
        assert_eq!(answer, refused(19, 1));
    }
}

/// Record A's claim is 3. The bounds of these steps are below it, equal to it and above it.
#[test]
fn refusal_19_literals_left_whatever_the_bound() {
    let (p1, n1, p2, n2) = (pos(1), neg(1), pos(2), neg(2));
    let last_steps = [
        cost_step(&[p1], 0),
        cost_step(&[p1, p2], 0),
        cost_step(&[n1], 3),
        independent_step(&[p2], 3, &[1]),
        weighted_step(&[p2], 2, 1, &[(1, 2)]),
        cost_step(&[n2], 5),
        cost_step(&[n1, n2], 8),
        clause_step(&[p1, p2], 1),
    ];
    let bounds = last_steps.iter().map(|body| stated(body).1);
    assert_eq!(bounds.collect::<Vec<u64>>(), [0, 0, 3, 3, 2, 5, 8, NONE]);
    for last in last_steps {
        // Alone, after a step that has no literals, and after one that would close.
        let alone = vec![last.clone()];
        let after_bound = vec![cost_step(&[], 0), last.clone()];
        let after_close = [&steps_a()[..], &[last]].concat();
        for steps in [alone, after_bound, after_close] {
            let t = steps.len() as u64;
            for (claim, bits) in [(3, 0b01), (8, 0b11), (NONE, 0b00)] {
                let answer = judge(&sheet_a(), &record(claim, &[bits], &steps));
                assert_eq!(answer, refused(19, t));
            }
        }
    }
}

/// The gap is what the last step leaves, even where an earlier one leaves less or none.
#[test]
fn the_last_step_decides_over_the_gap() {
    let mut steps = steps_a();
    let judged = |steps: &[Vec<u8>], claim, bits| {
        let answer = judge(&sheet_a(), &record(claim, &[bits], steps));
        assert_eq!(answer.step_count, steps.len() as u64);
        answer
    };
    assert_eq!(judged(&steps, 3, 0b01), accepted(3, 1, 5));
    assert_eq!(judged(&steps, 8, 0b11), within(5, 8, 2, 5));
    steps.push(cost_step(&[], 0));
    assert_eq!(judged(&steps, 3, 0b01), within(3, 3, 1, 6));
    assert_eq!(judged(&steps, 8, 0b11), within(8, 8, 2, 6));
    steps.push(resolution_step(&[], 3, 3, 4, 1));
    assert_eq!(judged(&steps, 3, 0b01), accepted(3, 1, 7));
    assert_eq!(judged(&steps, 8, 0b11), within(5, 8, 2, 7));
}

/// The last step of record A may have any bound up to 3, and the gap is taken from the bound that it has.
#[test]
fn a_last_bound_below_the_lesser_leaves_a_greater_gap() {
    let judged = |bound, claim, bits| {
        let mut steps = steps_a();
        steps[4] = resolution_step(&[], bound, 3, 4, 1);
        judge(&sheet_a(), &record(claim, &[bits], &steps))
    };
    for bound in 0..3 {
        assert_eq!(judged(bound, 3, 0b01), within(3 - bound, 3, 1, 5));
        assert_eq!(judged(bound, 8, 0b11), within(8 - bound, 8, 2, 5));
        assert_eq!(judged(bound, NONE, 0b00), refused(19, 5));
    }
    assert_eq!(judged(3, 3, 0b01), accepted(3, 1, 5));
    assert_eq!(judged(3, 8, 0b11), within(5, 8, 2, 5));
}

/// Both premises have "none". Any other bound is a cost, however great, and the claim "none" is not one.
#[test]
fn refusal_19_the_claim_none_with_a_last_bound_below_none() {
    let sheet = sheet(&[7], &[&[pos(1)], &[neg(1)]]);
    let judged = |bound| {
        let steps = [
            clause_step(&[pos(1)], 1),
            clause_step(&[neg(1)], 2),
            resolution_step(&[], bound, 1, 2, 1),
        ];
        judge(&sheet, &record(NONE, &[0], &steps))
    };
    assert_eq!(judged(NONE), accepted(NONE, 0, 3));
    for bound in [0, 7, NONE - 1] {
        assert_eq!(judged(bound), refused(19, 3));
    }
}

/// Nine variables, so the assignment has two bytes; their costs tell which ones are true.
#[test]
fn a_gap_that_is_the_whole_claim() {
    let costs: Vec<u32> = (0..9).map(|index| 1 << index).collect();
    let judged = |bits: u16| {
        let steps = [cost_step(&[], 0)];
        let record = record(u64::from(bits), &bits.to_le_bytes(), &steps);
        judge(&sheet(&costs, &[]), &record)
    };
    assert_eq!(judged(0), accepted(0, 0, 1));
    for bits in 1..1_u16 << 9 {
        let cost = u64::from(bits);
        let open_count = u64::from(bits.count_ones());
        assert_eq!(judged(bits), within(cost, cost, open_count, 1));
    }
}

/// The greatest claim there is, less 0, less one variable's cost, and less all but one: no gap is cut at 32 bits.
#[test]
fn the_greatest_gaps() {
    let bodies: Vec<Vec<u8>> = (1..=1_024).map(|v| two_bytes(&[pos(v)])).collect();
    let sheet = sheet_of_bodies(&[u32::MAX; 1_024], &bodies);
    let cost = u64::from(u32::MAX);
    let claim = 1_024 * cost;
    let numbers: Vec<u32> = (1..=1_024).collect();
    let judged = |body| judge(&sheet, &record(claim, &[0xFF; 128], &[body]));
    let answer_to = |cited: usize| {
        let bound = cited as u64 * cost;
        judged(independent_step(&[], bound, &numbers[..cited]))
    };
    assert_eq!(judged(cost_step(&[], 0)), within(claim, claim, 1_024, 1));
    assert_eq!(answer_to(1), within(1_023 * cost, claim, 1_024, 1));
    assert_eq!(answer_to(1_023), within(cost, claim, 1_024, 1));
    assert_eq!(answer_to(1_024), accepted(claim, 1_024, 1));
}

/// Record A4 with one fault each. The steps end as they did, and the fault is told all the same.
#[test]
fn a_fault_before_the_close_is_told_and_no_gap() {
    let (sheet, whole) = (sheet_a(), record_a4());
    let assert_fault = |at: usize, new: &[u8], answer: Answer| {
        assert_eq!(judge(&sheet, &edited(&whole, at, new)), answer);
    };
    assert_eq!(judge(&sheet, &whole), within(5, 8, 2, 5));
    assert_fault(0, &9_u64.to_le_bytes(), refused(11, 0));
    assert_fault(0, &3_u64.to_le_bytes(), refused(11, 0));
    assert_fault(0, &NONE.to_le_bytes(), refused(6, 0));
    assert_fault(8, &four_bytes(&[0]), refused(5, 0));
    assert_fault(12, &[0x02], refused(10, 2));
    assert_fault(12, &[0x07], refused(6, 0));
    assert_fault(17, &four_bytes(&[19]), refused(7, 2));
    assert_fault(54, &[1], refused(8, 1));
    assert_fault(107, &four_bytes(&[3]), refused(9, 3));
    assert_fault(57, &[0], refused(12, 1));
    assert_fault(121, &[4], refused(13, 4));
    assert_fault(107, &four_bytes(&[1, 1]), refused(16, 3));
    assert_fault(105, &two_bytes(&[neg(1)]), refused(17, 3));
    assert_fault(135, &[4], refused(18, 5));
    assert_eq!(judge(&sheet[..35], &whole), refused(3, 2));
    assert_eq!(judge(&[], &whole), refused(2, 0));
}

/// The faults of kinds 3 and 5, before a last step that would leave a gap.
#[test]
fn a_fault_of_kind_3_or_5_is_told_and_no_gap() {
    let (p1, p2, n2) = (pos(1), pos(2), neg(2));
    let faulty = [
        (14, independent_step(&[neg(1)], 3, &[1])),
        (15, independent_step(&[], 2, &[1])),
        (20, independent_step(&[], 3, &[2])),
        (21, independent_step(&[p1, p2], 0, &[1])),
        (22, independent_step(&[n2], 8, &[2, 3])),
        (23, weighted_step(&[], 0, 0, &[(1, 1)])),
        (24, weighted_step(&[], 3, 1, &[(1, 2)])),
    ];
    let sheet = sheet(&[3, 5], &[&[p1, p2], &[p1, n2], &[p1]]);
    for (number, body) in faulty {
        let judged = |steps: &[Vec<u8>]| judge(&sheet, &record(8, &[0b11], steps));
        let last = independent_step(&[], 3, &[1]);
        let sound = weighted_step(&[], 2, 1, &[(1, 2)]);
        assert_eq!(judged(&[sound, last.clone()]), within(5, 8, 2, 2));
        assert_eq!(judged(&[body.clone(), last]), refused(number, 1));
        assert_eq!(judged(&[body]), refused(number, 1));
    }
}
