//! Refusals 1 to 4: the sizes and the sheet. The record is empty, so a sheet in order is seen by refusal 5.

mod common;

use common::searcher::assert_not_searched;
use common::*;
use reference::{judge, oversize, sheet_is_valid};

/// The sheet alone is at fault, with this refusal.
fn assert_refused(sheet: &[u8], number: u32, place: u64) {
    assert_eq!(judge(sheet, &[]), refused(number, place));
    assert_eq!(judge(sheet, &record_a()), refused(number, place));
    assert!(!sheet_is_valid(sheet));
}

/// None of refusals 1 to 4: the empty record is the first fault.
fn assert_valid(sheet: &[u8]) {
    assert_eq!(judge(sheet, &[]), refused(5, 0));
    assert!(sheet_is_valid(sheet));
}

#[test]
fn refusal_1_by_the_length_of_either_file() {
    assert!(!oversize(0, 0));
    assert!(!oversize(4_294_967_295, 4_294_967_295));
    assert!(oversize(4_294_967_296, 0));
    assert!(oversize(0, 4_294_967_296));
    assert!(oversize(u64::MAX, u64::MAX));
}

/// The bytes are never looked at, so the system need not supply the memory behind them.
#[test]
#[ignore = "needs 4 GiB of memory"]
fn refusal_1_comes_before_every_fault_of_the_bytes() {
    let too_long = vec![0_u8; 4_294_967_296];
    let longest = &too_long[1..];
    assert_eq!(judge(&too_long, &[]), refused(1, 0));
    assert_eq!(judge(&[], &too_long), refused(1, 0));
    assert_eq!(judge(&sheet_a(), &too_long), refused(1, 0));
    assert_eq!(judge(longest, longest), refused(2, 0));
    assert_eq!(judge(&sheet_a(), longest), refused(5, 0));
    assert!(!sheet_is_valid(&too_long));
    assert_not_searched(&too_long, 1, 0);
    assert_not_searched(longest, 2, 0);
}

#[test]
fn sheet_a_is_valid() {
    assert_valid(&sheet_a());
}

#[test]
fn refusal_2_under_4_bytes() {
    for length in 0..4 {
        assert_refused(&sheet_a()[..length], 2, 0);
    }
}

#[test]
fn refusal_2_variables_from_1_to_1024() {
    assert_refused(&sheet(&[], &[]), 2, 0);
    assert_valid(&sheet(&[7], &[]));
    assert_valid(&sheet(&[7; 1_024], &[]));
    assert_refused(&sheet(&[7; 1_025], &[]), 2, 0);
    assert_refused(&sheet(&[7; 65_535], &[]), 2, 0);
}

#[test]
fn refusal_2_clauses_from_0_to_4096() {
    let clause: &[u16] = &[pos(1)];
    let clauses = [clause; 4_097];
    assert_valid(&sheet(&[7], &clauses[..4_096]));
    assert_refused(&sheet(&[7], &clauses), 2, 0);
}

#[test]
fn refusal_2_costs_cut_short() {
    let no_clauses = sheet(&[3, 5], &[]);
    assert_eq!(no_clauses.len(), 12);
    for length in 4..12 {
        assert_refused(&no_clauses[..length], 2, 0);
    }
    assert_valid(&no_clauses);
}

#[test]
fn refusal_2_pairs_cut_short() {
    for length in 12..28 {
        assert_refused(&sheet_a()[..length], 2, 0);
    }
    // With the pairs whole, it is the missing bodies that are told.
    assert_refused(&sheet_a()[..28], 3, 2);
}

#[test]
fn refusal_3_without_clauses_the_file_ends_with_the_costs() {
    let mut longer = sheet(&[7], &[]);
    longer.push(0);
    assert_refused(&longer, 3, 0);
}

#[test]
fn refusal_3_the_first_offset_is_the_end_of_the_pairs() {
    for offset in [0, 27, 29, 32, 36, u32::MAX] {
        assert_refused(&edited(&sheet_a(), 12, &four_bytes(&[offset])), 3, 1);
    }
}

#[test]
fn refusal_3_a_later_offset_is_the_end_before_it() {
    for offset in [0, 28, 31, 33, 36, u32::MAX] {
        assert_refused(&edited(&sheet_a(), 20, &four_bytes(&[offset])), 3, 2);
    }
}

#[test]
fn refusal_3_a_wrong_length_is_told_at_the_next_pair() {
    for length in [0, 3, 5, u32::MAX] {
        assert_refused(&edited(&sheet_a(), 16, &four_bytes(&[length])), 3, 2);
    }
}

#[test]
fn refusal_3_the_last_end_is_told_at_the_last_pair() {
    for length in [0, 3, 5, u32::MAX] {
        assert_refused(&edited(&sheet_a(), 24, &four_bytes(&[length])), 3, 2);
    }
    let mut longer = sheet_a();
    longer.push(0);
    assert_refused(&longer, 3, 2);
    assert_refused(&sheet_a()[..35], 3, 2);
}

#[test]
fn refusal_3_the_first_of_two_wrong_pairs_is_told() {
    let pairs = four_bytes(&[29, 4, 32, 4]);
    assert_refused(&edited(&sheet_a(), 12, &pairs), 3, 1);
}

/// In 32 bits, 28 + 4,294,967,295 would come round to 27, and 27 + 9 is the file's end.
#[test]
fn refusal_3_ends_do_not_wrap() {
    let pairs = four_bytes(&[28, u32::MAX, 27, 9]);
    assert_refused(&edited(&sheet_a(), 12, &pairs), 3, 2);
}

#[test]
fn refusal_3_over_all_clauses_comes_before_4() {
    let bad_clause_1 = edited(&sheet_a(), 28, &two_bytes(&[0]));
    assert_refused(&bad_clause_1, 4, 1);
    assert_refused(&bad_clause_1[..35], 3, 2);
}

/// Clause 1 is in order, clause 2 has this body; there are two variables.
fn sheet_with_second_body(body: &[u8]) -> Vec<u8> {
    sheet_of_bodies(&[3, 5], &[two_bytes(&[pos(1)]), body.to_vec()])
}

#[test]
fn refusal_4_odd_length() {
    assert_valid(&sheet_with_second_body(&[]));
    assert_refused(&sheet_with_second_body(&[2]), 4, 2);
    assert_valid(&sheet_with_second_body(&[2, 0]));
    assert_refused(&sheet_with_second_body(&[2, 0, 4]), 4, 2);
    assert_valid(&sheet_with_second_body(&[2, 0, 4, 0]));
}

#[test]
fn refusal_4_variable_not_1_to_n() {
    for code in [0, 1, 6, 7, 65_534, 65_535] {
        assert_refused(&sheet_with_second_body(&two_bytes(&[code])), 4, 2);
    }
    for code in [2, 3, 4, 5] {
        assert_valid(&sheet_with_second_body(&two_bytes(&[code])));
    }
}

#[test]
fn refusal_4_variables_not_rising() {
    let (p1, n1, p2, n2) = (pos(1), neg(1), pos(2), neg(2));
    for codes in [[p1, p1], [p1, n1], [n1, p1], [p2, p1], [n2, n1], [p2, n2]] {
        assert_refused(&sheet_with_second_body(&two_bytes(&codes)), 4, 2);
    }
    for codes in [[p1, p2], [n1, p2], [p1, n2], [n1, n2]] {
        assert_valid(&sheet_with_second_body(&two_bytes(&codes)));
    }
}

#[test]
fn refusal_4_the_first_of_two_bad_clauses_is_told() {
    assert_refused(&sheet(&[3], &[&[pos(2)], &[0]]), 4, 1);
    assert_refused(&sheet(&[3], &[&[neg(1)], &[pos(1)], &[0]]), 4, 3);
}
