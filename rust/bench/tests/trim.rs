//! The trimmers written for speed and the proved one answer as the reference trimmer does and leave the same buffers: else their
//! times would compare different work. And the benchmark's records are what is promised of them.

use bench::{trim_listed, trim_runs, trimmed};
use proved::Written;
use samples::examples::examples;
use samples::Sample;
use std::collections::BTreeMap;

type Trim = fn(&[u8], &[u8], &mut [u8], &mut [u8]) -> Written;

const TRIMMERS: [(&str, Trim); 3] = [
    ("proved", proved::trim),
    ("listed", trim_listed),
    ("runs", trim_runs),
];

const FEW_MARKS: u64 = 27;
const SHORT_OUTPUT: u64 = 28;

/// What stands in a buffer before: neither a mark nor what a record has there.
fn before(length: usize) -> Vec<u8> {
    (0..length).map(|place| place as u8 | 0xA4).collect()
}

fn wanted(sheet: &[u8], record: &[u8], marks: &mut [u8], out: &mut [u8]) -> Written {
    let written = reference::trim(sheet, record, marks, out);
    Written {
        number: u64::from(written.number),
        place: written.place,
        length: written.length,
    }
}

/// The answer that all give on buffers of these lengths, and what these hold then.
fn same(sheet: &[u8], record: &[u8], marks: usize, out: usize) -> (Written, Vec<u8>, Vec<u8>) {
    let (mut marked, mut written) = (before(marks), before(out));
    let answer = wanted(sheet, record, &mut marked, &mut written);
    for (name, trim) in TRIMMERS {
        let (mut marks, mut out) = (before(marks), before(out));
        let what = || {
            format!(
                "{name}, {} marks, output of {}",
                marked.len(),
                written.len()
            )
        };
        assert_eq!(
            trim(sheet, record, &mut marks, &mut out),
            answer,
            "{}",
            what()
        );
        assert!(marks == marked && out == written, "other bytes: {}", what());
    }
    (answer, marked, written)
}

/// The trimmed record and the marks of one that is not refused, after buffers that are too short, just long enough and longer.
fn same_on_buffers(sheet: &[u8], record: &[u8]) -> (Vec<u8>, Vec<u8>) {
    let steps = proved::judge(sheet, record).step_count as usize;
    let (answer, mut marks, mut out) = same(sheet, record, steps + 3, record.len() + 9);
    assert_eq!((answer.number, answer.place), (0, 0));
    let length = answer.length as usize;
    marks.truncate(steps);
    out.truncate(length);
    assert_eq!(
        same(sheet, record, steps, length),
        (answer, marks.clone(), out.clone())
    );
    for short in [0, length / 2, length - 1] {
        let (refused, marked, left) = same(sheet, record, steps, short);
        assert_eq!((refused.number, refused.length), (SHORT_OUTPUT, 0));
        assert_eq!((marked, left), (marks.clone(), before(short)));
    }
    // This one is told first.
    for (few, length) in [(0, length), (steps - 1, length), (steps - 1, 0)] {
        let (refused, marked, _) = same(sheet, record, few, length);
        assert_eq!((refused.number, refused.length), (FEW_MARKS, 0));
        assert_eq!(marked, before(few));
    }
    (out, marks)
}

#[test]
fn on_the_examples() {
    let mut met: BTreeMap<u64, usize> = BTreeMap::new();
    for example in examples() {
        let (sheet, record) = (example.sheet, example.record);
        let number = proved::judge(&sheet, &record).number;
        match number {
            0 => drop(same_on_buffers(&sheet, &record)),
            _ => assert_eq!(same(&sheet, &record, 99, 999).0.number, number),
        }
        *met.entry(number).or_default() += 1;
    }
    println!("{met:?}");
    assert!(met[&0] > 5 && met.len() > 5);
}

#[test]
fn on_generated_and_damaged_records() {
    let mut met: BTreeMap<u64, usize> = BTreeMap::new();
    for Sample { sheet, record, .. } in samples::stream(9).take(3_000) {
        let answer = proved::judge(&sheet, &record);
        match answer.number {
            0 => drop(same_on_buffers(&sheet, &record)),
            number => {
                let (told, ..) = same(&sheet, &record, record.len(), record.len());
                assert_eq!((told.number, told.place), (number, answer.place));
                assert_eq!(same(&sheet, &record, 0, 0).0, told);
            }
        }
        *met.entry(answer.number).or_default() += 1;
    }
    println!("{met:?}");
    assert!(met[&0] > 300 && met.len() > 20);
}

#[test]
fn on_the_sets_of_the_benchmark() {
    for (name, share) in trimmed::SETS {
        let Sample { sheet, record, .. } = trimmed::sample(name, SIZE).unwrap();
        let again = trimmed::sample(name, SIZE).unwrap();
        assert!(again.record == record && again.sheet == sheet, "{name}");
        assert!(record.len().abs_diff(SIZE) < SIZE / 20, "{name}");
        let answer = proved::judge(&sheet, &record);
        assert!(answer.accepts(), "{name}: {}", answer.line());
        let (out, marks) = same_on_buffers(&sheet, &record);
        assert_eq!(out == record, share == 100, "{name}");
        let again = proved::judge(&sheet, &out);
        assert!(again.accepts(), "{name}: {}", again.line());
        assert!(same_on_buffers(&sheet, &out).0 == out, "{name}");
        has_what_is_promised(name, share, &record, &marks);
    }
}

const SIZE: usize = 500_000;

/// The share of kept steps; among these and among the others all kinds, and more than half of them resolutions; and citations
/// from near by, of kept steps, to thousands of steps back.
fn has_what_is_promised(name: &str, share: usize, record: &[u8], marks: &[u8]) {
    let kept = marks.iter().filter(|mark| **mark == 1).count();
    assert!((100 * kept).abs_diff(share * marks.len()) <= 2 * marks.len());
    for (mark, count) in [(0, marks.len() - kept), (1, kept)] {
        let (mut kinds, mut distances) = ([0; 6], [0; 5]);
        for (index, body) in bodies(record, marks.len()).enumerate() {
            if marks[index] == mark {
                kinds[usize::from(body[0])] += 1;
                for back in cited(body).map(|cited| index + 1 - cited) {
                    distances[(back.ilog10() as usize).min(4)] += 1;
                }
            }
        }
        println!("{name}, mark {mark}: {count}, kinds {kinds:?}, distances {distances:?}");
        if count > 0 {
            assert!(kinds[1..].iter().all(|of_kind| 60 * of_kind > count));
            assert!(2 * kinds[4] > count);
            assert!(distances[1..4].iter().all(|some| 100 * some > count));
            assert!(mark == 0 || 10 * distances[0] > count);
        }
    }
}

/// The bodies of a record of 200 variables.
fn bodies(record: &[u8], steps: usize) -> impl Iterator<Item = &[u8]> {
    let number = |place: usize| number(&record[place..]);
    let pairs = (0..steps).map(|index| 12 + 25 + 8 * index);
    pairs.map(move |pair| &record[number(pair)..][..number(pair + 4)])
}

fn number(bytes: &[u8]) -> usize {
    u32::from_le_bytes(*bytes.first_chunk().unwrap()) as usize
}

/// The steps that a step cites.
fn cited(body: &[u8]) -> impl Iterator<Item = usize> + '_ {
    let both = [body.len() - 10, body.len() - 6].into_iter();
    let places = both.filter(|_| body[0] == 4);
    places.map(|place| number(&body[place..]))
}
