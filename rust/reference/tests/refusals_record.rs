//! Refusals 5, 6, 7, 10 and 11: the record before its steps are opened.

mod common;

use common::*;
use reference::judge;

/// No clauses, so every assignment satisfies the sheet, and one cost for every variable.
fn free_sheet(variable_count: usize, cost: u32) -> Vec<u8> {
    sheet(&vec![cost; variable_count], &[])
}

/// A record that closes at 0.
fn record_at_0(assignment: &[u8]) -> Vec<u8> {
    record(0, assignment, &[cost_step(&[], 0)])
}

#[test]
fn refusal_5_head_cut_short() {
    for length in 0..12 {
        assert_eq!(judge(&sheet_a(), &record_a()[..length]), refused(5, 0));
    }
}

#[test]
fn refusal_5_assignment_or_pairs_cut_short() {
    for length in 12..53 {
        assert_eq!(judge(&sheet_a(), &record_a()[..length]), refused(5, 0));
    }
    // With the pairs whole, it is the missing bodies that are told.
    assert_eq!(judge(&sheet_a(), &record_a()[..53]), refused(7, 5));
}

#[test]
fn refusal_5_no_steps() {
    assert_eq!(judge(&sheet_a(), &record(3, &[0x01], &[])), refused(5, 0));
    let emptied = edited(&record_a(), 8, &four_bytes(&[0]));
    assert_eq!(judge(&sheet_a(), &emptied), refused(5, 0));
}

#[test]
fn refusal_5_more_steps_than_any_file_holds() {
    let crowded = edited(&record_a(), 8, &four_bytes(&[u32::MAX]));
    assert_eq!(judge(&sheet_a(), &crowded), refused(5, 0));
}

/// 2^29 pairs take 2^32 bytes: a length kept in 32 bits would see none.
#[test]
fn refusal_5_the_length_of_the_pairs_does_not_wrap() {
    let crowded = edited(&record_a(), 8, &four_bytes(&[1 << 29]));
    assert_eq!(judge(&sheet_a(), &crowded), refused(5, 0));
}

#[test]
fn the_assignment_takes_a_byte_for_every_8_variables_begun() {
    for (variable_count, byte_count) in [(1, 1), (7, 1), (8, 1), (9, 2), (16, 2), (17, 3)] {
        let sheet = free_sheet(variable_count, 0);
        let exact = record_at_0(&vec![0; byte_count]);
        assert_eq!(judge(&sheet, &exact), accepted(0, 0, 1));
        // One byte more moves the pairs away from where they are looked for.
        let longer = record_at_0(&vec![0; byte_count + 1]);
        assert_eq!(judge(&sheet, &longer), refused(7, 1));
    }
}

#[test]
fn refusal_6_a_spare_bit() {
    let sheet = free_sheet(7, 0);
    assert_eq!(judge(&sheet, &record_at_0(&[0x7F])), accepted(0, 7, 1));
    assert_eq!(judge(&sheet, &record_at_0(&[0x80])), refused(6, 0));
    assert_eq!(judge(&sheet, &record_at_0(&[0xFF])), refused(6, 0));
}

#[test]
fn refusal_6_eight_variables_leave_no_spare_bit() {
    let sheet = free_sheet(8, 0);
    assert_eq!(judge(&sheet, &record_at_0(&[0x80])), accepted(0, 1, 1));
    assert_eq!(judge(&sheet, &record_at_0(&[0xFF])), accepted(0, 8, 1));
}

#[test]
fn refusal_6_every_bit_but_the_first_is_spare_for_one_variable() {
    for byte in 0..=255_u8 {
        let answer = judge(&free_sheet(1, 0), &record_at_0(&[byte]));
        match byte {
            0 | 1 => assert_eq!(answer, accepted(0, u64::from(byte), 1)),
            _ => assert_eq!(answer, refused(6, 0)),
        }
    }
}

#[test]
fn refusal_6_spare_bits_of_the_last_byte_only() {
    let sheet = free_sheet(9, 0);
    let accepted_9 = accepted(0, 9, 1);
    assert_eq!(judge(&sheet, &record_at_0(&[0xFF, 0x01])), accepted_9);
    assert_eq!(judge(&sheet, &record_at_0(&[0, 0x02])), refused(6, 0));
}

#[test]
fn refusal_6_a_bit_under_the_claim_none() {
    let sheet = sheet(&[7; 9], &[&[]]);
    let judged = |bits: &[u8]| judge(&sheet, &record(NONE, bits, &[clause_step(&[], 1)]));
    assert_eq!(judged(&[0, 0]), accepted(NONE, 0, 1));
    for bits in [[0x01, 0], [0x80, 0], [0, 0x01], [0, 0x02]] {
        assert_eq!(judged(&bits), refused(6, 0));
    }
}

#[test]
fn refusal_6_comes_before_7() {
    let mut both = record_at_0(&[0x02]);
    both.push(0);
    assert_eq!(judge(&free_sheet(1, 0), &both), refused(6, 0));
}

/// The pairs of record A start at 13.
#[test]
fn refusal_7_a_wrong_offset_is_told_at_its_pair() {
    for (index, offset) in [53_u32, 73, 93, 117, 131].into_iter().enumerate() {
        for wrong in [0, offset - 1, offset + 1, u32::MAX] {
            let record = edited(&record_a(), 13 + 8 * index, &four_bytes(&[wrong]));
            assert_eq!(judge(&sheet_a(), &record), refused(7, index as u64 + 1));
        }
    }
}

#[test]
fn refusal_7_a_wrong_length_is_told_at_the_next_pair_or_at_the_last() {
    let lengths = [(20_u32, 2), (20, 3), (24, 4), (14, 5), (22, 5)];
    for (index, (length, place)) in lengths.into_iter().enumerate() {
        for wrong in [0, length - 1, length + 1, u32::MAX] {
            let record = edited(&record_a(), 17 + 8 * index, &four_bytes(&[wrong]));
            assert_eq!(judge(&sheet_a(), &record), refused(7, place));
        }
    }
}

#[test]
fn refusal_7_the_last_end_one_short_and_one_long() {
    let mut longer = record_a();
    longer.push(0);
    assert_eq!(judge(&sheet_a(), &longer), refused(7, 5));
    assert_eq!(judge(&sheet_a(), &record_a()[..152]), refused(7, 5));
}

/// In 32 bits, 29 + 4,294,967,295 would come round to 28, and 28 + 13 is the file's end.
#[test]
fn refusal_7_ends_do_not_wrap() {
    let two_steps = record(0, &[0], &[cost_step(&[], 0), vec![]]);
    assert_eq!(two_steps.len(), 41);
    let wrapped = edited(&two_steps, 13, &four_bytes(&[29, u32::MAX, 28, 13]));
    assert_eq!(judge(&free_sheet(1, 0), &wrapped), refused(7, 2));
}

#[test]
fn refusal_7_comes_before_10_and_11() {
    let broken = edited(&record_a(), 12, &[0x02]);
    assert_eq!(judge(&sheet_a(), &broken[..152]), refused(7, 5));
}

#[test]
fn refusal_7_over_all_steps_comes_before_8() {
    let unknown_kind = edited(&record_a(), 53, &[0]);
    assert_eq!(judge(&sheet_a(), &unknown_kind), refused(8, 1));
    assert_eq!(judge(&sheet_a(), &unknown_kind[..152]), refused(7, 5));
}

#[test]
fn refusal_10_the_first_broken_clause_is_told() {
    let clauses: [&[u16]; 3] = [&[neg(1), pos(2)], &[pos(1)], &[pos(2)]];
    let sheet = sheet(&[3, 5], &clauses);
    let judged = |bits: u8, claim| judge(&sheet, &record(claim, &[bits], &steps_a()));
    assert_eq!(judged(0b00, 0), refused(10, 2));
    assert_eq!(judged(0b01, 3), refused(10, 1));
    assert_eq!(judged(0b10, 5), refused(10, 2));
    // Nothing is broken, so the first step is reached; it is no copy of clause 1.
    assert_eq!(judged(0b11, 8), refused(12, 1));
}

#[test]
fn refusal_10_no_assignment_satisfies_the_empty_clause() {
    let sheet = sheet(&[7], &[&[pos(1)], &[]]);
    let steps = [clause_step(&[], 2)];
    assert_eq!(judge(&sheet, &record(7, &[1], &steps)), refused(10, 2));
    let none = judge(&sheet, &record(NONE, &[0], &steps));
    assert_eq!(none, accepted(NONE, 0, 1));
}

#[test]
fn refusal_10_comes_before_11() {
    let broken = edited(&record_a(), 12, &[0x02]);
    let both = edited(&broken, 0, &9_u64.to_le_bytes());
    assert_eq!(judge(&sheet_a(), &both), refused(10, 2));
}

#[test]
fn refusal_11_any_other_cost() {
    let high_half = 3 + (1 << 32);
    for claim in [0, 2, 4, 5, 8, high_half, NONE - 1] {
        let record = edited(&record_a(), 0, &u64::to_le_bytes(claim));
        assert_eq!(judge(&sheet_a(), &record), refused(11, 0));
    }
}

#[test]
fn refusal_10_comes_before_every_fault_of_a_step() {
    let unknown_kind = edited(&record_a(), 53, &[0]);
    let both = edited(&unknown_kind, 12, &[0x02]);
    assert_eq!(judge(&sheet_a(), &both), refused(10, 2));
}

#[test]
fn refusal_11_comes_before_every_fault_of_a_step() {
    let unknown_kind = edited(&record_a(), 53, &[0]);
    let both = edited(&unknown_kind, 0, &9_u64.to_le_bytes());
    assert_eq!(judge(&sheet_a(), &unknown_kind), refused(8, 1));
    assert_eq!(judge(&sheet_a(), &both), refused(11, 0));
}

/// Every variable is forced, at the greatest cost there is: 1,024 times 4,294,967,295.
#[test]
fn the_greatest_sum_of_costs_does_not_wrap() {
    let clauses: Vec<Vec<u8>> = (1..=1_024).map(|v| two_bytes(&[pos(v)])).collect();
    let sheet = sheet_of_bodies(&[u32::MAX; 1_024], &clauses);
    let numbers: Vec<u32> = (1..=1_024).collect();
    let sum = 4_398_046_510_080;
    let steps = [independent_step(&[], sum, &numbers)];
    let judged = |claim| judge(&sheet, &record(claim, &[0xFF; 128], &steps));
    assert_eq!(judged(sum), accepted(sum, 1_024, 1));
    assert_eq!(judged(sum % (1 << 32)), refused(11, 0));
}

#[test]
fn the_largest_sheet_head_is_accepted() {
    let clause: &[u16] = &[neg(1_024)];
    let sheet = sheet(&[1; 1_024], &[clause; 4_096]);
    assert_eq!(judge(&sheet, &record_at_0(&[0; 128])), accepted(0, 0, 1));
}
