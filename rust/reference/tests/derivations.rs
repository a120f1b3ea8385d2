//! Whole derivations on small sheets: the least assignment has one that is accepted, no other assignment has. A dearer
//! one is told how much dearer it is.

mod common;

use common::derivation::*;
use common::*;
use reference::brute::{confirms, confirms_within, least_cost};
use reference::{judge, Verdict};
use std::collections::BTreeSet;

/// How many of the records judged were for the least cost, for a greater one, for an assignment that breaks a
/// clause, and for "none"; and how many steps of kinds 3 and 5 there were.
#[derive(Default)]
struct Seen {
    least: u32,
    dearer: u32,
    breaking: u32,
    none: u32,
    independent: usize,
    weighted: usize,
}

fn judge_every_claim(derivation: &Derivation, bound: u64, seen: &mut Seen) {
    let sheet = derivation.sheet();
    let t = derivation.steps.len() as u64;
    let steps_of = |kind| {
        derivation
            .steps
            .iter()
            .filter(|body| body[0] == kind)
            .count()
    };
    seen.independent += steps_of(3);
    seen.weighted += steps_of(5);
    let none = judge(&sheet, &record(NONE, &[0], &derivation.steps));
    if bound == NONE {
        assert_eq!(none, accepted(NONE, 0, t));
        seen.none += 1;
    } else {
        assert_eq!(none, refused(19, t));
    }
    for values in assignments(derivation.costs.len()) {
        let (cost, record) = record_of(derivation, &values);
        let answer = judge(&sheet, &record);
        if let Some(index) = derivation.first_broken(&values) {
            assert_eq!(answer, refused(10, index as u64 + 1));
            seen.breaking += 1;
            continue;
        }
        let open_count = values.iter().filter(|value| **value).count() as u64;
        if cost == bound {
            assert_eq!(answer, accepted(cost, open_count, t));
            seen.least += 1;
        } else {
            assert_eq!(answer, within(cost - bound, cost, open_count, t));
            seen.dearer += 1;
        }
    }
}

#[test]
fn an_assignment_is_accepted_exactly_when_it_is_the_least() {
    let mut numbers = Numbers::from(1);
    let mut seen = Seen::default();
    for _ in 0..300 {
        let plain = Derivation::random(&mut numbers);
        let least = least_cost(&plain.sheet());
        let divisor = 1 + numbers.below(3) as u16;
        let independent = plain.with(Bounding::IndependentSets);
        let weighted = plain.with(Bounding::Weights { divisor });
        for mut derivation in [independent, weighted, plain] {
            let close = derivation.derive(&mut vec![]);
            assert_eq!(close.codes, BTreeSet::new());
            assert_eq!(close.bound, least.unwrap_or(NONE));
            judge_every_claim(&derivation, close.bound, &mut seen);
        }
    }
    assert!(seen.least > 400 && seen.dearer > 400);
    assert!(seen.breaking > 400 && seen.none > 40);
    assert!(seen.independent > 200 && seen.weighted > 200);
}

/// Resolutions that hold further literals and lower bounds lead to the same close.
#[test]
fn wider_statements_are_accepted_exactly_for_the_least_too() {
    let mut numbers = Numbers::from(9);
    let mut seen = Seen::default();
    let mut wider_count = 0;
    for seed in 0..300 {
        let plain = Derivation::random(&mut numbers);
        let divisor = 1 + numbers.below(3) as u16;
        for bounding in [
            Bounding::Nothing,
            Bounding::IndependentSets,
            Bounding::Weights { divisor },
        ] {
            let mut derivation = plain.with(bounding).widened(Numbers::from(seed));
            let close = derivation.derive(&mut vec![]);
            assert_eq!(close.codes, BTreeSet::new());
            assert_eq!(close.bound, derivation.enough);
            judge_every_claim(&derivation, close.bound, &mut seen);
            wider_count += derivation.wider_count;
        }
    }
    assert!(wider_count > 400);
    assert!(seen.least > 400 && seen.dearer > 400 && seen.none > 40);
}

/// A sheet and a record of it that is not refused: the one accepted as none, or any that is accepted as least or is
/// within.
fn unrefused_files(numbers: &mut Numbers) -> (Vec<u8>, Vec<u8>) {
    let bounding = match numbers.below(4) {
        0 | 1 => Bounding::IndependentSets,
        divisor => Bounding::Weights {
            divisor: divisor as u16,
        },
    };
    let mut derivation = Derivation::random(numbers).with(bounding);
    if numbers.below(2) == 0 {
        derivation = derivation.widened(numbers.clone());
    }
    derivation.derive(&mut vec![]);
    let sheet = derivation.sheet();
    let mut records = vec![record(NONE, &[0], &derivation.steps)];
    for values in assignments(derivation.costs.len()) {
        records.push(record_of(&derivation, &values).1);
    }
    // Where no assignment satisfies the sheet, the claim "none" is left; elsewhere the assignments that do.
    records.retain(|record| !judge(&sheet, record).refuses());
    let record = records.swap_remove(numbers.below(records.len()));
    (sheet, record)
}

/// One or two bytes set to small values, mostly of the record.
fn damage(numbers: &mut Numbers, sheet: &mut [u8], record: &mut [u8]) {
    for _ in 0..=numbers.below(2) {
        if numbers.below(4) == 0 {
            sheet[numbers.below(sheet.len())] = numbers.below(14) as u8;
        } else {
            record[numbers.below(record.len())] = numbers.below(14) as u8;
        }
    }
}

#[test]
fn damaged_files_are_refused_or_what_they_say_is_still_true() {
    let mut numbers = Numbers::from(2);
    let mut refusals = BTreeSet::new();
    let (mut damaged_and_accepted, mut damaged_and_within) = (0, 0);
    for _ in 0..300 {
        let whole = unrefused_files(&mut numbers);
        for _ in 0..200 {
            let (mut sheet, mut record) = whole.clone();
            damage(&mut numbers, &mut sheet, &mut record);
            let answer = judge(&sheet, &record);
            match answer.verdict() {
                Verdict::Refused => {
                    assert_eq!(answer, refused(answer.number, answer.place));
                    refusals.insert(answer.number);
                }
                Verdict::Within => {
                    assert!(confirms_within(&sheet, &record, &answer));
                    damaged_and_within += u32::from((sheet, record) != whole);
                }
                Verdict::Least | Verdict::NoneExists => {
                    assert!(confirms(&sheet, &record, &answer));
                    damaged_and_accepted += u32::from((sheet, record) != whole);
                }
            }
        }
    }
    assert!(damaged_and_accepted > 100 && damaged_and_within > 100);
    // All of the judgement's but 1, which takes files of 4 GiB. Two bytes neither bring literals into the last step nor
    // turn a claim into "none", but one byte takes a last bound of "none" below that claim: that is where 19 comes
    // from.
    assert_eq!(refusals, (2..=24).collect());
}
