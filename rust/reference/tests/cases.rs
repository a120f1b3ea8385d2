//! The lettered cases of document 01, but for D, which has its own file. C3 and C4 have their numbers from document
//! 02's change 1, and A4 is within by its change 3. A7 and E are as they were before its change 5.

mod common;

use common::*;
use reference::{judge, line};

#[test]
fn sheet_a_and_record_a_have_the_printed_lengths_and_offsets() {
    let (sheet, record) = (sheet_a(), record_a());
    assert_eq!((sheet.len(), record.len()), (36, 153));
    let offset = |pair: usize| u32::from_le_bytes(record[13 + 8 * pair..][..4].try_into().unwrap());
    assert_eq!([0, 1, 2, 3, 4].map(offset), [53, 73, 93, 117, 131]);
}

#[test]
fn the_builders_write_sheet_a_and_record_a_byte_for_byte() {
    let clauses: [&[u16]; 2] = [&[pos(1), pos(2)], &[pos(1), neg(2)]];
    assert_eq!(sheet(&[3, 5], &clauses), sheet_a());
    assert_eq!(record(3, &[0x01], &steps_a()), record_a());
}

#[test]
fn a1_record_a_is_accepted() {
    let answer = judge(&sheet_a(), &record_a());
    assert_eq!(answer, accepted(3, 1, 5));
    assert_eq!(line(&answer), "least 3 open 1 steps 5");
}

#[test]
fn a2_claim_4() {
    let record = edited(&record_a(), 0, &4_u64.to_le_bytes());
    assert_eq!(judge(&sheet_a(), &record), refused(11, 0));
}

#[test]
fn a3_arrangement_02() {
    let record = edited(&record_a(), 12, &[0x02]);
    assert_eq!(judge(&sheet_a(), &record), refused(10, 2));
}

#[test]
fn a4_arrangement_03_claim_8() {
    let answer = judge(&sheet_a(), &record_a4());
    assert_eq!(answer, within(5, 8, 2, 5));
    assert_eq!(line(&answer), "within 5 cost 8 open 2 steps 5");
}

#[test]
fn a5_claim_none() {
    let record = edited(&record_a(), 0, &NONE.to_le_bytes());
    assert_eq!(judge(&sheet_a(), &record), refused(6, 0));
}

/// Step 3's citations stand at 107 (a) and 111 (b).
#[test]
fn a6_step_3_cites_1_twice() {
    let record = edited(&record_a(), 107, &four_bytes(&[1, 1]));
    assert_eq!(judge(&sheet_a(), &record), refused(16, 3));
}

#[test]
fn a7_step_5_with_bound_4() {
    let record = edited(&record_a(), 135, &4_u64.to_le_bytes());
    assert_eq!(judge(&sheet_a(), &record), refused(18, 5));
}

#[test]
fn a8_step_3_cites_3() {
    let as_a = edited(&record_a(), 107, &four_bytes(&[3]));
    let as_b = edited(&record_a(), 111, &four_bytes(&[3]));
    let as_both = edited(&record_a(), 107, &four_bytes(&[3, 3]));
    for record in [as_a, as_b, as_both] {
        assert_eq!(judge(&sheet_a(), &record), refused(9, 3));
    }
}

#[test]
fn b1_no_rules() {
    let answer = judge(&sheet(&[7], &[]), &record(0, &[0], &[cost_step(&[], 0)]));
    assert_eq!(answer, accepted(0, 0, 1));
    assert_eq!(line(&answer), "least 0 open 0 steps 1");
}

#[test]
fn b2_an_empty_rule_and_the_claim_none() {
    let steps = [clause_step(&[], 1)];
    let answer = judge(&sheet(&[7], &[&[]]), &record(NONE, &[0], &steps));
    assert_eq!(answer, accepted(NONE, 0, 1));
    assert_eq!(line(&answer), "none open 0 steps 1");
}

#[test]
fn c1_the_step_passes_and_the_close_does_not() {
    assert_eq!(judge(&sheet_c(), &record_c1()), refused(19, 1));
}

#[test]
fn c2_bound_8() {
    let record = record_c(independent_step(&[pos(5), neg(6)], 8, &[1, 2]));
    assert_eq!(judge(&sheet_c(), &record), refused(15, 1));
}

#[test]
fn c3_without_5_open() {
    let record = record_c(independent_step(&[neg(6)], 9, &[1, 2]));
    assert_eq!(judge(&sheet_c(), &record), refused(22, 1));
}

#[test]
fn c4_citing_rule_3_as_well() {
    let record = record_c(independent_step(&[pos(5), neg(6)], 9, &[1, 2, 3]));
    assert_eq!(judge(&sheet_c(), &record), refused(20, 1));
}

#[test]
fn e_a_resolvent_that_holds_a_paddle_both_ways() {
    let clauses: [&[u16]; 2] = [&[pos(1), pos(2)], &[neg(1), neg(2)]];
    let steps = [
        clause_step(clauses[0], 1),
        clause_step(clauses[1], 2),
        resolution_step(&[], NONE, 1, 2, 1),
    ];
    let answer = judge(&sheet(&[3, 5], &clauses), &record(3, &[0x01], &steps));
    assert_eq!(answer, refused(17, 3));
}
