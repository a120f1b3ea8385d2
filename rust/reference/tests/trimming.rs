//! Trimming a record: which steps are kept and by which numbers they are cited then, what both buffers hold afterwards,
//! and that the trimmed record is judged as the record was, but for its step count.

mod common;

use common::derivation::*;
use common::trimmer::*;
use common::writer::{buffer, not_written, written};
use common::*;
use reference::{judge, trim, Verdict};
use std::collections::{BTreeMap, BTreeSet};

/// The steps of record A, and three that lead nowhere: a cost step, a resolution of it and of a step that is kept, and
/// one of that resolution.
fn steps_a_and_idle() -> Vec<Vec<u8>> {
    vec![
        cost_step(&[neg(2)], 5),
        clause_step(&[pos(1), pos(2)], 1),
        clause_step(&[pos(1), neg(2)], 2),
        resolution_step(&[pos(1)], NONE, 2, 3, 2),
        resolution_step(&[pos(1)], 5, 2, 1, 2),
        cost_step(&[neg(1)], 3),
        resolution_step(&[], 3, 5, 6, 1),
        resolution_step(&[], 3, 4, 6, 1),
    ]
}

const MARKS_A: [u8; 8] = [0, 1, 1, 1, 0, 1, 0, 1];

/// The bytes of document 01 come back.
#[test]
fn record_a_is_what_is_left() {
    let padded = record(3, &[0x01], &steps_a_and_idle());
    assert_eq!(judge(&sheet_a(), &padded), accepted(3, 1, 8));
    assert_trimmed(&sheet_a(), &padded, &MARKS_A, &record_a());
}

#[test]
fn a_record_with_a_gap_is_trimmed_and_keeps_its_gap() {
    let padded = record(8, &[0x03], &steps_a_and_idle());
    assert_eq!(judge(&sheet_a(), &padded), within(5, 8, 2, 8));
    assert_trimmed(&sheet_a(), &padded, &MARKS_A, &record_a4());
}

#[test]
fn a_record_that_claims_none() {
    let sheet = sheet(&[7], &[&[pos(1)], &[neg(1)]]);
    let steps = [
        cost_step(&[], 0),
        clause_step(&[pos(1)], 1),
        cost_step(&[neg(1)], 7),
        clause_step(&[neg(1)], 2),
        resolution_step(&[], 7, 2, 3, 1),
        resolution_step(&[], NONE, 2, 4, 1),
    ];
    let result = hex("FF FF FF FF FF FF FF FF 03 00 00 00
         00
         25 00 00 00 12 00 00 00
         37 00 00 00 12 00 00 00
         49 00 00 00 16 00 00 00
         01 00 01 00 FF FF FF FF FF FF FF FF 02 00 01 00 00 00
         01 00 01 00 FF FF FF FF FF FF FF FF 03 00 02 00 00 00
         04 00 00 00 FF FF FF FF FF FF FF FF 01 00 00 00 02 00 00 00 01 00");
    let padded = record(NONE, &[0], &steps);
    assert_eq!(judge(&sheet, &padded), accepted(NONE, 0, 6));
    assert_trimmed(&sheet, &padded, &[0, 1, 0, 1, 0, 1], &result);
}

#[test]
fn a_record_without_idle_steps_stays_as_it_is() {
    let wider = record(3, &[0x01], &steps_a_wider());
    for whole in [record_a(), record_a4(), wider] {
        let t = whole[8] as usize;
        assert_trimmed(&sheet_a(), &whole, &vec![1; t], &whole);
    }
}

#[test]
fn a_record_of_one_step_stays_as_it_is() {
    let one_step = record(0, &[0], &[cost_step(&[], 0)]);
    assert_trimmed(&sheet(&[7], &[]), &one_step, &[1], &one_step);
    let empty = sheet(&[7], &[&[]]);
    let one_step = record(NONE, &[0], &[clause_step(&[], 1)]);
    assert_trimmed(&empty, &one_step, &[1], &one_step);
}

/// Five clauses that are true where variable 1 is. The last two are those that the steps here cite: as many steps are
/// before them, so the numbers could be taken for steps'.
fn sheet_of_five() -> Vec<u8> {
    let all: &[u16] = &[pos(1), pos(2), pos(3)];
    let clauses = [all, all, all, &[pos(1), pos(2)], &[pos(1), pos(3)]];
    sheet(&[3, 5, 7], &clauses)
}

/// Five steps that lead nowhere on that sheet.
fn five_idle() -> Vec<Vec<u8>> {
    vec![
        cost_step(&[neg(1)], 3),
        clause_step(&[pos(1), pos(2)], 4),
        independent_step(&[pos(1)], 12, &[4, 5]),
        resolution_step(&[pos(2)], 3, 2, 1, 1),
        weighted_step(&[pos(1)], 12, 1, &[(4, 5), (5, 7)]),
    ]
}

/// The last step cites clauses, if anything.
#[test]
fn all_but_the_last_step_goes() {
    for last in [
        cost_step(&[], 0),
        independent_step(&[], 3, &[4]),
        weighted_step(&[], 3, 1, &[(4, 3)]),
        weighted_step(&[], 2, 2, &[(4, 2), (5, 2)]),
    ] {
        let steps = [five_idle(), vec![last.clone()]].concat();
        let marks = [0, 0, 0, 0, 0, 1];
        let result = record(3, &[0x01], &[last]);
        assert_trimmed(
            &sheet_of_five(),
            &record(3, &[0x01], &steps),
            &marks,
            &result,
        );
    }
}

#[test]
fn all_but_a_copy_of_the_empty_clause_goes() {
    let sheet = sheet(&[3], &[&[pos(1)], &[neg(1)], &[]]);
    let steps = [
        clause_step(&[pos(1)], 1),
        clause_step(&[neg(1)], 2),
        resolution_step(&[], NONE, 1, 2, 1),
        clause_step(&[], 3),
    ];
    let result = record(NONE, &[0], &steps[3..]);
    let padded = record(NONE, &[0], &steps);
    assert_trimmed(&sheet, &padded, &[0, 0, 0, 1], &result);
}

/// Steps of every kind on the same sheet, none of them idle, with this number for the first.
fn steps_of_every_kind(first: u32) -> Vec<Vec<u8>> {
    let number = |index: u32| first + index;
    vec![
        clause_step(&[pos(1), pos(2)], 4),
        cost_step(&[neg(2)], 5),
        resolution_step(&[pos(1), pos(2)], 5, number(0), number(1), 2),
        independent_step(&[pos(1), neg(2)], 12, &[5]),
        resolution_step(&[pos(1), pos(3)], 4, number(2), number(3), 2),
        weighted_step(&[pos(1), neg(3)], 12, 1, &[(4, 5)]),
        resolution_step(&[pos(1)], 4, number(4), number(5), 3),
        cost_step(&[neg(1)], 3),
        resolution_step(&[], 3, number(6), number(7), 1),
    ]
}

/// Some of the resolutions are wider than they have to be.
#[test]
fn cited_clauses_keep_their_numbers_and_cited_steps_do_not() {
    let steps = [five_idle(), steps_of_every_kind(6)].concat();
    let marks = [[0; 5].as_slice(), &[1; 9]].concat();
    let result = record(3, &[0x01], &steps_of_every_kind(1));
    let padded = record(3, &[0x01], &steps);
    assert_trimmed(&sheet_of_five(), &padded, &marks, &result);
    assert_trimmed(&sheet_of_five(), &result, &[1; 9], &result);
}

/// One step that leads nowhere, before each of the others and behind none.
#[test]
fn an_idle_step_anywhere() {
    let whole = record(3, &[0x01], &steps_of_every_kind(1));
    for index in 0..9 {
        for idle in five_idle().into_iter().filter(|body| body[0] != 4) {
            let steps = with_idle(&steps_of_every_kind(1), index, idle);
            let mut marks = [1; 10];
            marks[index] = 0;
            let padded = record(3, &[0x01], &steps);
            assert_trimmed(&sheet_of_five(), &padded, &marks, &whole);
        }
    }
}

/// The second step is a premise of the fourth and of the fourth's other premise.
#[test]
fn a_step_cited_twice_is_kept_once() {
    let whole = record(3, &[0x01], &steps_a_wider());
    let steps = with_idle(&steps_a_wider(), 1, cost_step(&[], 0));
    let padded = record(3, &[0x01], &steps);
    assert_trimmed(&sheet_a(), &padded, &[1, 0, 1, 1, 1, 1, 1], &whole);
}

/// A clause is resolved with two others, and what comes of it with each other. Variables 1 and 3 are true.
#[test]
fn a_diamond() {
    let clauses: [&[u16]; 3] = [&[pos(1), pos(2)], &[neg(1), pos(3)], &[neg(2), neg(3)]];
    let sheet = sheet(&[3, 5, 0], &clauses);
    let steps = [
        clause_step(clauses[0], 1),
        clause_step(clauses[1], 2),
        clause_step(clauses[2], 3),
        resolution_step(&[pos(2), pos(3)], NONE, 1, 2, 1),
        resolution_step(&[pos(1), neg(3)], NONE, 1, 3, 2),
        resolution_step(&[pos(1), pos(2)], NONE, 4, 5, 3),
        cost_step(&[neg(1)], 3),
        resolution_step(&[pos(2)], 3, 6, 7, 1),
        cost_step(&[neg(2)], 5),
        resolution_step(&[], 3, 8, 9, 2),
    ];
    let whole = record(3, &[0b101], &steps);
    assert_eq!(judge(&sheet, &whole), accepted(3, 2, 10));
    assert_trimmed(&sheet, &whole, &[1; 10], &whole);
    let idle = resolution_step(&[pos(2), pos(3)], NONE, 1, 2, 1);
    let padded = record(3, &[0b101], &with_idle(&steps, 3, idle));
    let marks = [1, 1, 1, 0, 1, 1, 1, 1, 1, 1, 1];
    assert_trimmed(&sheet, &padded, &marks, &whole);
}

/// A list holds a variable in one way alone, so no step has both literals of a pivot.
#[test]
fn a_step_that_cites_one_step_twice_is_refused() {
    for pivot in [1, 2] {
        let twice = resolution_step(&[pos(1), pos(2)], NONE, 1, 1, pivot);
        let steps = with_idle(&steps_a(), 1, twice);
        assert_refused(&sheet_a(), &record(3, &[0x01], &steps), 16, 2);
    }
}

/// Record A with so many resolutions between, each of the one before it, and so many idle steps behind each.
fn chain(link_count: usize, idle_count: usize) -> Vec<Vec<u8>> {
    let mut steps = steps_a()[..2].to_vec();
    let mut latest = 1;
    for _ in 0..link_count {
        steps.push(resolution_step(&[pos(1), pos(2)], NONE, latest, 2, 2));
        latest = steps.len() as u32;
        steps.extend(vec![cost_step(&[neg(2)], 5); idle_count]);
    }
    steps.push(resolution_step(&[pos(1)], NONE, latest, 2, 2));
    let a = steps.len() as u32;
    steps.push(cost_step(&[neg(1)], 3));
    steps.push(resolution_step(&[], 3, a, a + 1, 1));
    steps
}

/// Step numbers of more than one byte, before and after.
#[test]
fn long_chains() {
    for (link_count, idle_count) in [(1, 1), (10, 30), (300, 0), (300, 1), (600, 2)] {
        let (padded, whole) = (chain(link_count, idle_count), chain(link_count, 0));
        let (marks, kept) = kept(&padded);
        assert_eq!(kept, whole);
        let [padded, whole] = [padded, whole].map(|steps| record(3, &[0x01], &steps));
        assert_trimmed(&sheet_a(), &padded, &marks, &whole);
    }
}

/// Numbers of three bytes before, and of two after.
#[test]
fn a_chain_of_a_hundred_thousand_steps() {
    let (padded, whole) = (chain(20_000, 4), chain(20_000, 0));
    let [padded_record, whole] = [&padded, &whole].map(|steps| record(3, &[0x01], steps));
    let (answer, marks, out) = trim_into(&sheet_a(), &padded_record, padded.len(), whole.len());
    assert_eq!(answer, written(whole.len()));
    assert_eq!(out, whole);
    assert_eq!(marks, kept(&padded).0);
}

#[test]
fn a_sheet_with_a_loss() {
    for loss in [0, 1, 9, u32::MAX] {
        let sheet = marked(loss, &sheet_a());
        let [padded, whole] = [steps_a_and_idle(), steps_a()].map(|s| steps_with_loss(loss, &s));
        for (claim, bits) in [(3, 0x01), (8, 0x03)] {
            let claim = with_loss(loss, claim);
            let [padded, whole] = [&padded, &whole].map(|steps| record(claim, &[bits], steps));
            assert_trimmed(&sheet, &padded, &MARKS_A, &whole);
        }
    }
}

/// 9 bytes, with bits in the first and in the last.
#[test]
fn a_long_assignment_is_kept() {
    let sheet = sheet(&[1; 70], &[]);
    let bits = [0x81, 0, 0, 0, 0, 0, 0, 0, 0x21];
    let steps = [cost_step(&[neg(70)], 1), cost_step(&[], 0)];
    let padded = record(4, &bits, &steps);
    assert_eq!(judge(&sheet, &padded), within(4, 4, 4, 2));
    assert_trimmed(&sheet, &padded, &[0, 1], &record(4, &bits, &steps[1..]));
}

/// Every mark buffer up to some bytes more than are needed. The output is not looked at before.
#[test]
fn refusal_27_when_there_are_fewer_marks_than_steps() {
    let padded = record(3, &[0x01], &steps_a_and_idle());
    for length in [0, 152, 153, 154, padded.len()] {
        for mark_count in 0..8 {
            let left = trim_into(&sheet_a(), &padded, mark_count, length);
            let stayed = (buffer(mark_count), buffer(length));
            assert_eq!(left, (not_written(27, 0), stayed.0, stayed.1));
        }
    }
    for mark_count in 8..30 {
        let (answer, marks, out) = trim_into(&sheet_a(), &padded, mark_count, 153);
        assert_eq!((answer, out), (written(153), record_a()));
        assert_eq!(marks[..8], MARKS_A);
        assert_eq!(marks[8..], buffer(mark_count)[8..]);
    }
}

/// Every output up to some bytes more than are needed. What is needed goes by the result, not by the record. The marks
/// are there already.
#[test]
fn refusal_28_when_the_output_is_shorter_than_the_result() {
    let padded = record(3, &[0x01], &steps_a_and_idle());
    for length in 0..153 {
        let (answer, marks, out) = trim_into(&sheet_a(), &padded, 10, length);
        assert_eq!((answer, out), (not_written(28, 0), buffer(length)));
        assert_eq!(marks, [&MARKS_A, &buffer(10)[8..]].concat());
    }
    for length in 153..300 {
        let (answer, marks, out) = trim_into(&sheet_a(), &padded, 8, length);
        assert_eq!((answer, &marks[..]), (written(153), &MARKS_A[..]));
        assert_eq!(out[..153], record_a());
        assert_eq!(out[153..], buffer(length)[153..]);
    }
}

#[test]
fn refusals_of_either_file() {
    let (sheet_a, record_a) = (sheet_a(), record_a());
    assert_refused(&[], &[], 2, 0);
    assert_refused(&[], &record_a, 2, 0);
    assert_refused(&edited(&sheet_a, 12, &[29]), &record_a, 3, 1);
    assert_refused(&sheet(&[3], &[&[pos(2)]]), &record_a, 4, 1);
    assert_refused(&sheet_a, &[], 5, 0);
    assert_refused(&sheet_a, &record(3, &[0x01], &[]), 5, 0);
    assert_refused(&sheet_a, &edited(&record_a, 12, &[0x05]), 6, 0);
    assert_refused(&sheet_a, &record_a[..152], 7, 5);
    assert_refused(&sheet_a, &edited(&record_a, 12, &[0x00]), 10, 1);
    assert_refused(&sheet_a, &edited(&record_a, 0, &[4]), 11, 0);
    assert_refused(&sheet_a, &record(3, &[0x01], &steps_a()[..4]), 19, 4);
    assert_refused(&sheet_a, &record(NONE, &[0], &steps_a()), 19, 5);
    assert_refused(&sheet_c(), &record_c1(), 19, 1);
}

/// The step that is at fault is the third of four, and nobody cites it: without it the record would not be refused.
#[test]
fn refusals_of_an_idle_step() {
    let faulty = [
        (8, step(6, &[], 0, &[])),
        (8, step(4, &[], 0, &four_bytes(&[1, 2]))),
        (9, clause_step(&[], 4)),
        (9, resolution_step(&[pos(3), pos(5)], 1, 2, 3, 1)),
        (9, resolution_step(&[pos(3), pos(5)], 1, 0, 1, 1)),
        (12, clause_step(&[pos(1)], 1)),
        (13, cost_step(&[neg(1)], 2)),
        (14, independent_step(&[neg(1)], 1, &[1])),
        (15, independent_step(&[pos(5), neg(6)], 8, &[1, 2])),
        (16, resolution_step(&[pos(3), pos(5)], 1, 1, 2, 1)),
        (16, resolution_step(&[pos(3), pos(5)], 1, 2, 2, 1)),
        (17, resolution_step(&[pos(3)], 1, 2, 1, 1)),
        (18, resolution_step(&[pos(3), pos(5)], 2, 2, 1, 1)),
        (20, independent_step(&[pos(5), neg(6)], 9, &[1, 2, 3])),
        (21, independent_step(&[pos(1), pos(3), pos(5)], 0, &[1])),
        (22, independent_step(&[neg(6)], 9, &[1, 2])),
        (23, weighted_step(&[], 0, 0, &[(1, 1)])),
        (24, example_3(10)),
    ];
    let around = [
        cost_step(&[neg(1)], 1),
        clause_step(CLAUSES_C[0], 1),
        cost_step(&[], 0),
    ];
    let result = record(1, &[0x01], &around[2..]);
    assert_trimmed(
        &sheet_c(),
        &record(1, &[0x01], &around),
        &[0, 0, 1],
        &result,
    );
    for (number, body) in faulty {
        let steps = with_idle(&around, 2, body);
        assert_refused(&sheet_c(), &record(1, &[0x01], &steps), number, 3);
    }
}

/// A record that the judgement does not refuse is trimmed, and a refused one gives its refusal.
#[test]
fn every_byte_of_a_record_set_to_every_value() {
    let padded = record(3, &[0x01], &steps_a_and_idle());
    let mut met = BTreeMap::new();
    for at in 0..padded.len() {
        for value in 0..=255 {
            let damaged = edited(&padded, at, &[value]);
            let judged = judge(&sheet_a(), &damaged);
            if judged.refuses() {
                assert_refused(&sheet_a(), &damaged, judged.number, judged.place);
            } else {
                assert_trimmed_as_lists(&sheet_a(), &damaged);
            }
            *met.entry(judged.number).or_insert(0) += 1;
        }
    }
    let numbers: BTreeSet<u32> = met.keys().copied().collect();
    let wanted = [0, 5, 6, 7, 8, 9, 10, 11, 12, 13, 16, 17, 18, 21];
    assert_eq!(numbers, BTreeSet::from(wanted), "{met:?}");
}

/// Takes a record of at most 8 variables apart, and has the builders write what is kept.
fn assert_trimmed_as_lists(sheet: &[u8], record_bytes: &[u8]) {
    let in_4_bytes = |at: usize| u32::from_le_bytes(record_bytes[at..at + 4].try_into().unwrap());
    let body = |index: u32| {
        let pair = 13 + 8 * index as usize;
        let start = in_4_bytes(pair) as usize;
        record_bytes[start..start + in_4_bytes(pair + 4) as usize].to_vec()
    };
    let steps: Vec<Vec<u8>> = (0..in_4_bytes(8)).map(body).collect();
    let claim = u64::from_le_bytes(record_bytes[..8].try_into().unwrap());
    let (marks, kept) = kept(&steps);
    let result = record(claim, &record_bytes[12..13], &kept);
    assert_trimmed(sheet, record_bytes, &marks, &result);
}

/// How many of the records had each verdict, and what became of their steps.
#[derive(Debug, Default)]
struct Seen {
    least: u32,
    none: u32,
    within: u32,
    kept: usize,
    idle: usize,
    wider: u32,
}

/// A derivation leaves steps behind where one branch is enough; more are put in anywhere before the last.
fn padded_derivation(numbers: &mut Numbers) -> Derivation {
    let plain = Derivation::random(numbers);
    let bounded = plain.with(Bounding::random(numbers));
    let mut derivation = match numbers.below(2) {
        0 => bounded,
        _ => bounded.widened(numbers.clone()),
    };
    derivation.derive(&mut vec![]);
    for _ in 0..numbers.below(6) {
        let variable = numbers.below(derivation.costs.len());
        let cost = u64::from(derivation.costs[variable]);
        let idle = cost_step(&[neg(variable as u16 + 1)], cost);
        let index = numbers.below(derivation.steps.len());
        derivation.steps = with_idle(&derivation.steps, index, idle);
    }
    derivation
}

/// Claims that the steps bear out, or fall short of: "none" where they come to it, else two assignments.
fn claims(derivation: &Derivation) -> Vec<(u64, u8)> {
    let last = derivation.steps.last().unwrap();
    if stated(last).1 == NONE {
        return vec![(NONE, 0)];
    }
    let all = assignments(derivation.costs.len()).into_iter();
    let satisfying = all.filter(|values| derivation.first_broken(values).is_none());
    let claim = |values: Vec<bool>| {
        let (cost, record) = record_of(derivation, &values);
        (cost, record[12])
    };
    satisfying.map(claim).take(2).collect()
}

#[test]
fn records_of_random_sheets() {
    let mut numbers = Numbers::from(9);
    let mut seen = Seen::default();
    for _ in 0..400 {
        let derivation = padded_derivation(&mut numbers);
        seen.wider += derivation.wider_count;
        let loss = numbers.below(3) as u32;
        let sheet = marked(loss, &derivation.sheet());
        let steps = steps_with_loss(loss, &derivation.steps);
        let (marks, kept) = kept(&steps);
        for (claim, bits) in claims(&derivation) {
            let claim = with_loss(loss, claim);
            let [padded, result] = [&steps, &kept].map(|steps| record(claim, &[bits], steps));
            assert_trimmed(&sheet, &padded, &marks, &result);
            match judge(&sheet, &padded).verdict() {
                Verdict::Least => seen.least += 1,
                Verdict::NoneExists => seen.none += 1,
                Verdict::Within => seen.within += 1,
                Verdict::Refused => unreachable!("it was trimmed"),
            }
        }
        seen.kept += kept.len();
        seen.idle += steps.len() - kept.len();
    }
    println!("{seen:?}");
    assert!(seen.least > 50 && seen.none > 20 && seen.within > 50);
    assert!(seen.kept > 1_000 && seen.idle > 1_000 && seen.wider > 50);
}

/// Buffers of that length are no fault. The bytes of a file that is too long are never looked at, so the system need
/// not supply the memory behind them.
#[test]
#[ignore = "needs 4 GiB of memory"]
fn refusal_1_looks_at_the_files_alone() {
    let mut too_long = vec![0_u8; 4_294_967_296];
    let (mut marks, mut out) = (buffer(8), buffer(200));
    for (sheet, record) in [(&too_long[..], &record_a()[..]), (&sheet_a(), &too_long)] {
        assert_eq!(trim(sheet, record, &mut marks, &mut out), not_written(1, 0));
    }
    let limit = &too_long[1..];
    assert_eq!(trim(limit, limit, &mut marks, &mut out), not_written(2, 0));
    assert_eq!((&marks, &out), (&buffer(8), &buffer(200)));
    let padded = record(3, &[0x01], &steps_a_and_idle());
    let answer = trim(&sheet_a(), &padded, &mut marks, &mut too_long);
    assert_eq!((answer, &too_long[..153]), (written(153), &record_a()[..]));
    assert_eq!(too_long[153..1_000], [0; 847]);
    let answer = trim(&sheet_a(), &padded, &mut too_long, &mut out);
    assert_eq!((answer, &too_long[..8]), (written(153), &MARKS_A[..]));
    assert_eq!(too_long[8..153], record_a()[8..]);
}
