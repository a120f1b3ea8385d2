//! Any bytes at all: an answer always comes, it has one of the three shapes, and what is not refused is true.

mod common;

use common::*;
use reference::brute::{confirms, confirms_within, within_reach};
use reference::{judge, sheet_is_valid, show, Answer, Verdict};
use std::collections::BTreeSet;

/// What documents 01 and 02 say of every answer, whatever the files. Only an answer that is within has a gap.
fn check_shape(sheet: &[u8], record: &[u8], answer: &Answer) {
    assert!(answer.number <= 24);
    assert_eq!(sheet_is_valid(sheet), !(1..=4).contains(&answer.number));
    match answer.verdict() {
        Verdict::Least | Verdict::NoneExists => {
            assert!(within_reach(sheet) && confirms(sheet, record, answer));
        }
        Verdict::Within => {
            assert!(within_reach(sheet) && confirms_within(sheet, record, answer));
            let bound = answer.cost - answer.gap;
            assert_eq!(stated_last(sheet, record), (0, bound));
        }
        Verdict::Refused => check_refusal(answer),
    }
}

fn check_refusal(answer: &Answer) {
    assert_eq!(*answer, refused(answer.number, answer.place));
    let has_no_place = [1, 2, 5, 6, 11].contains(&answer.number);
    assert!(!has_no_place || answer.place == 0);
    let has_a_place = !has_no_place && answer.number != 3;
    assert!(!has_a_place || answer.place >= 1);
}

/// How many answers were acceptances and how many within, and the numbers of the refusals.
#[derive(Default)]
struct Met {
    accepted: u32,
    within: u32,
    refusals: BTreeSet<u32>,
}

impl Met {
    fn add(&mut self, answer: &Answer) {
        match answer.verdict() {
            Verdict::Least | Verdict::NoneExists => self.accepted += 1,
            Verdict::Within => self.within += 1,
            Verdict::Refused => {
                self.refusals.insert(answer.number);
            }
        }
    }

    /// Every refusal of the judgement but these was met. 25 is the writer's alone.
    fn assert_all_refusals_but(&self, never: &[u32]) {
        let expected: BTreeSet<u32> = (1..=24).filter(|n| !never.contains(n)).collect();
        assert_eq!(self.refusals, expected);
    }
}

/// Showing any step keeps inside the two files.
fn check_showing(sheet: &[u8], record: &[u8], step: u64) {
    let shown = show(sheet, record, step).as_ptr_range();
    let inside = |file: &[u8]| {
        let file = file.as_ptr_range();
        file.start <= shown.start && shown.end <= file.end
    };
    assert!(inside(sheet) || inside(record));
}

/// Every byte of either file set to every value, one byte at a time.
fn met_by_one_byte(sheet: &[u8], record: &[u8]) -> Met {
    let mut met = Met::default();
    for value in 0..=255 {
        for at in 0..sheet.len() {
            let damaged = edited(sheet, at, &[value]);
            let answer = judge(&damaged, record);
            check_shape(&damaged, record, &answer);
            met.add(&answer);
        }
        for at in 0..record.len() {
            let damaged = edited(record, at, &[value]);
            let answer = judge(sheet, &damaged);
            check_shape(sheet, &damaged, &answer);
            check_showing(sheet, &damaged, at as u64 % 7);
            met.add(&answer);
        }
    }
    met
}

/// Of the numbers of kind 3 there is 21 alone: one byte makes a step of kind 3 from a copy of a clause, and a copy
/// settles every variable of its clause. No tail here has a length that kind 5 has. The rest are case C's and example
/// 3's, but for 1, which takes files of 4 GiB.
#[test]
fn every_byte_of_case_a_set_to_every_value() {
    let met = met_by_one_byte(&sheet_a(), &record_a());
    met.assert_all_refusals_but(&[1, 14, 15, 19, 20, 22, 23, 24]);
    assert!(met.accepted > 0);
    // The last bound may be 0, 1 or 2. A dearer assignment takes two bytes, its own and that of its cost.
    assert_eq!(met.within, 3);
}

/// The same with a loss of 7 on the sheet and in the costs. The last bound may be any up to 9.
#[test]
fn every_byte_of_case_a_with_a_loss_set_to_every_value() {
    let record = record(10, &[0b01], &steps_with_loss(7, &steps_a()));
    let met = met_by_one_byte(&marked(7, &sheet_a()), &record);
    met.assert_all_refusals_but(&[1, 14, 15, 19, 20, 22, 23, 24]);
    assert!(met.accepted > 0);
    assert_eq!(met.within, 10);
}

/// The same steps under a claim that they leave a gap to: the same refusals, and not one acceptance.
#[test]
fn every_byte_of_case_a4_set_to_every_value() {
    let met = met_by_one_byte(&sheet_a(), &record_a4());
    met.assert_all_refusals_but(&[1, 14, 15, 19, 20, 22, 23, 24]);
    assert!(met.within > 0);
    assert_eq!(met.accepted, 0);
}

/// A statement that is wider than it has to be meets the same refusals.
#[test]
fn every_byte_of_a_record_with_a_wider_statement_set_to_every_value() {
    let met = met_by_one_byte(&sheet_a(), &record(3, &[0b01], &steps_a_wider()));
    met.assert_all_refusals_but(&[1, 14, 15, 19, 20, 22, 23, 24]);
    assert!(met.accepted > 0);
    assert_eq!(met.within, 3);
}

/// One step of kind 3 with literals: nothing is accepted or within, and there is no number of another kind. One byte
/// does not settle all variables of a cited clause, so there is no 21; and read as kind 5, the tail cites a clause
/// beyond the last, so there is neither 23 nor 24.
#[test]
fn every_byte_of_case_c1_set_to_every_value() {
    let met = met_by_one_byte(&sheet_c(), &record_c1());
    met.assert_all_refusals_but(&[1, 12, 13, 16, 17, 18, 21, 23, 24]);
    assert_eq!((met.accepted, met.within), (0, 0));
}

/// One step of kind 5 with literals. Of the numbers of the kinds there are its own alone.
#[test]
fn every_byte_of_example_3_set_to_every_value() {
    let met = met_by_one_byte(&sheet_c(), &record_c(example_3(11)));
    let expected = BTreeSet::from([2, 3, 4, 5, 6, 7, 8, 9, 10, 11, 19, 23, 24]);
    assert_eq!(met.refusals, expected);
    assert_eq!((met.accepted, met.within), (0, 0));
}

#[test]
fn every_beginning_of_case_a() {
    let (sheet, record) = (sheet_a(), record_a());
    for length in 0..sheet.len() {
        let (number, place) = if length < 28 { (2, 0) } else { (3, 2) };
        assert_eq!(judge(&sheet[..length], &record), refused(number, place));
    }
    for length in 0..record.len() {
        let (number, place) = if length < 53 { (5, 0) } else { (7, 5) };
        assert_eq!(judge(&sheet, &record[..length]), refused(number, place));
    }
}

#[test]
fn random_bytes() {
    let mut numbers = Numbers::from(3);
    let mut met = Met::default();
    for round in 0..200_000 {
        let mut bytes = |length| -> Vec<u8> {
            let most = [2, 4, 256][round % 3];
            (0..length).map(|_| numbers.below(most) as u8).collect()
        };
        let (sheet, record) = (bytes(round % 41), bytes(round % 67));
        let answer = judge(&sheet, &record);
        check_shape(&sheet, &record, &answer);
        met.add(&answer);
    }
    assert_eq!(met.refusals, BTreeSet::from([2, 3, 5, 7]));
    assert_eq!((met.accepted, met.within), (0, 0));
}

/// Step bodies of random bytes inside a record whose pairs are in order, so that every body is opened. These bits are
/// the assignment.
fn met_by_random_bodies(sheet: &[u8], claim: u64, bits: u8, whole: &[Vec<u8>]) -> Met {
    let mut numbers = Numbers::from(4);
    let mut met = Met::default();
    for _ in 0..100_000 {
        let mut steps = whole.to_vec();
        for body in &mut steps {
            if numbers.below(3) == 0 {
                let at = numbers.below(body.len());
                body[at] = numbers.below(8) as u8;
            }
            if numbers.below(40) == 0 {
                body.truncate(numbers.below(26));
            }
        }
        let record = record(claim, &[bits], &steps);
        let answer = judge(sheet, &record);
        check_shape(sheet, &record, &answer);
        check_showing(sheet, &record, numbers.below(7) as u64);
        met.add(&answer);
    }
    met
}

#[test]
fn random_step_bodies_of_kinds_1_2_and_4() {
    let met = met_by_random_bodies(&sheet_a(), 3, 0b01, &steps_a());
    let expected = BTreeSet::from([8, 9, 12, 13, 16, 17, 18, 21]);
    assert_eq!(met.refusals, expected);
    // A lower bound at the end leaves a gap.
    assert!(met.accepted > 0 && met.within > 0);
    // With both variables true there is always one.
    let met = met_by_random_bodies(&sheet_a(), 8, 0b11, &steps_a());
    assert_eq!(met.refusals, expected);
    assert!(met.accepted == 0 && met.within > 0);
}

/// Case C1's step between a copy of clause 1 and a step that closes at 1, which is what clause 1 costs.
#[test]
fn random_step_bodies_of_kinds_1_and_3() {
    let whole = [
        clause_step(CLAUSES_C[0], 1),
        independent_step(&[pos(5), neg(6)], 9, &[1, 2]),
        independent_step(&[], 1, &[1]),
    ];
    let met = met_by_random_bodies(&sheet_c(), 1, 0b00_0001, &whole);
    let expected = BTreeSet::from([8, 9, 12, 14, 15, 20, 21, 22]);
    assert_eq!(met.refusals, expected);
    assert!(met.accepted > 0);
}

/// The same with weights: example 3's step, and one that closes at 1. 21 is again that of a copy read as kind 3.
#[test]
fn random_step_bodies_of_kinds_1_and_5() {
    let whole = [
        clause_step(CLAUSES_C[0], 1),
        example_3(11),
        weighted_step(&[], 1, 1, &[(1, 1)]),
    ];
    let met = met_by_random_bodies(&sheet_c(), 1, 0b00_0001, &whole);
    assert_eq!(met.refusals, BTreeSet::from([8, 9, 12, 21, 23, 24]));
    assert!(met.accepted > 0);
}
