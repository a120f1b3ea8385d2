//! The stream meets every answer, each fault meets the one that it is aimed at, and whatever is
//! accepted or called within is true.

use reference::brute::{confirms, confirms_within, least_cost};
use reference::{Answer, Verdict};
use samples::draft::{read_u32, Head};
use samples::outcome::{Outcome, Tally};
use samples::{damage, stream, widening, Sample, VALID, WIDENED};
use std::collections::BTreeMap;

const SEED: u64 = 1;
const SAMPLES: usize = 40_000;

/// How many variables brute force may take on.
const FEW: usize = 16;

fn variables(sheet: &[u8]) -> usize {
    Head::read(sheet).expect("a sheet's head").variables
}

/// Whether brute force was asked what it says of an answer that is no refusal.
fn confirmed(sample: &Sample, answer: &Answer) -> bool {
    if answer.refuses() || variables(&sample.sheet) > FEW {
        return false;
    }
    let (sheet, record) = (&sample.sheet, &sample.record);
    let is_true = if answer.accepts() {
        confirms(sheet, record, answer)
    } else {
        confirms_within(sheet, record, answer)
    };
    assert!(is_true, "answered but not true: {sample:?} {answer:?}");
    true
}

/// How often an outcome is met at least, of 40,000 samples.
fn enough(outcome: Outcome) -> usize {
    match outcome {
        Outcome::Least => 2_000,
        Outcome::NoneExists => 300,
        Outcome::Within => 500,
        Outcome::Refused(_) => 10,
    }
}

#[test]
fn every_answer_is_met_and_all_but_refusals_are_true() {
    let (mut counts, mut checked) = (Tally::default(), Tally::default());
    let mut met: BTreeMap<&str, Tally> = BTreeMap::new();
    for sample in stream(SEED).take(SAMPLES) {
        let answer = reference::judge(&sample.sheet, &sample.record);
        let outcome = Outcome::of(&answer);
        counts.add(outcome);
        met.entry(sample.aimed).or_default().add(outcome);
        if confirmed(&sample, &answer) {
            checked.add(outcome);
        }
    }
    println!("seed {SEED}, {SAMPLES} samples: {counts}");
    println!("confirmed by brute force: {checked}");
    for outcome in Outcome::of_short_files() {
        assert!(counts.of(outcome) >= enough(outcome), "few of {outcome}");
    }
    for outcome in [Outcome::Least, Outcome::NoneExists, Outcome::Within] {
        assert!(2 * checked.of(outcome) >= enough(outcome), "{outcome}");
    }
    aims_hold(&met);
}

/// Each fault was made, and met its aim in most cases. `met` has what the faults met.
fn aims_hold(met: &BTreeMap<&str, Tally>) {
    for fault in damage::all_aimed() {
        let aim = fault.aim().expect("a name starts with what it is aimed at");
        let tally = met.get(fault.aimed).expect("a fault that was made");
        let aimed = Outcome::of_short_files().filter(|outcome| aim.is_met_by(*outcome));
        let hits: usize = aimed.map(|outcome| tally.of(outcome)).sum();
        println!("{}: {hits} of {}", fault.aimed, tally.sum());
        assert!(2 * hits > tally.sum(), "not met: {}", fault.aimed);
    }
}

/// Within says nothing about whether the claim is the least. So that nobody may take it for an answer to that, there are records
/// of both sorts, and of both with a gap that is as small as can be and one that is as large.
#[test]
fn within_is_met_above_and_at_the_least_cost() {
    let mut met: BTreeMap<(bool, &str), usize> = BTreeMap::new();
    for sample in stream(8).take(SAMPLES) {
        let answer = reference::judge(&sample.sheet, &sample.record);
        if answer.verdict() != Verdict::Within || !confirmed(&sample, &answer) {
            continue;
        }
        let least = least_cost(&sample.sheet).expect("the assignment is one");
        let gap = match answer.gap {
            1 => "one",
            gap if gap == answer.cost => "all",
            _ => "some",
        };
        *met.entry((answer.cost == least, gap)).or_default() += 1;
    }
    println!("by whether the claim is the least, and the gap: {met:?}");
    for is_least in [false, true] {
        for gap in ["one", "all", "some"] {
            let count = met.get(&(is_least, gap)).copied().unwrap_or(0);
            assert!(count >= 10, "{is_least} {gap}: {count}");
        }
    }
}

#[test]
fn what_nothing_was_done_to_is_accepted() {
    let mut met: BTreeMap<&str, usize> = BTreeMap::new();
    let undamaged = |sample: &Sample| [VALID, WIDENED].contains(&sample.aimed);
    for sample in stream(2).take(20_000).filter(undamaged) {
        let answer = reference::judge(&sample.sheet, &sample.record);
        assert!(answer.accepts() && answer.place == 0, "{sample:?}");
        let wider = widening::passed(&sample, &answer);
        assert_eq!(wider > 0, sample.aimed == WIDENED, "{sample:?}");
        *met.entry(sample.aimed).or_default() += 1;
    }
    println!("{met:?}");
    assert!([VALID, WIDENED].iter().all(|aimed| met[aimed] > 100));
}

/// Resolutions that are wider than they have to be stand among the good steps of records with every answer that is given after
/// the steps were come to.
#[test]
fn wider_resolutions_are_met_beside_every_answer() {
    let (mut met, mut steps) = (Tally::default(), 0);
    for sample in stream(7).take(SAMPLES) {
        let answer = reference::judge(&sample.sheet, &sample.record);
        let wider = widening::passed(&sample, &answer);
        steps += wider;
        if wider > 0 {
            met.add(Outcome::of(&answer));
        }
    }
    println!("{steps} wider resolutions, in records with {met}");
    let early = |number: u32| number < 8 || number == 10 || number == 11;
    for outcome in Outcome::of_short_files() {
        match outcome {
            Outcome::Refused(number) if early(number) => assert_eq!(met.of(outcome), 0),
            _ => assert!(2 * met.of(outcome) >= enough(outcome), "few of {outcome}"),
        }
    }
}

#[test]
fn same_seed_same_samples() {
    assert!(stream(5).take(3_000).eq(stream(5).take(3_000)));
    assert!(stream(5).take(100).ne(stream(6).take(100)));
}

#[test]
fn refusals_of_the_sheet_are_those_of_invalid_sheets() {
    for sample in stream(3).take(5_000) {
        let answer = reference::judge(&sample.sheet, &sample.record);
        let refused = (1..=4).contains(&answer.number);
        assert_ne!(
            reference::sheet_is_valid(&sample.sheet),
            refused,
            "{sample:?}"
        );
        if answer.refuses() {
            let rest = (answer.cost, answer.open_count, answer.step_count);
            assert_eq!((rest, answer.gap), ((0, 0, 0), 0));
        }
    }
}

/// In a record that is not refused a copy has its clause's literals, so that every step shows its own.
#[test]
fn shown_literals_are_those_of_the_step() {
    let mut within = 0;
    for sample in stream(4).take(6_000) {
        let (sheet, record) = (&sample.sheet, &sample.record);
        let answer = reference::judge(sheet, record);
        within += usize::from(answer.verdict() == Verdict::Within && answer.step_count > 1);
        for step in 1..=answer.step_count {
            let pair = 12 + variables(sheet).div_ceil(8) + 8 * (step as usize - 1);
            let offset = read_u32(record, pair).unwrap() as usize;
            let count = usize::from(u16::from_le_bytes([record[offset + 2], record[offset + 3]]));
            let literals = &record[offset + 12..offset + 12 + 2 * count];
            assert_eq!(reference::show(sheet, record, step), literals);
        }
        for step in [0, answer.step_count + 1] {
            assert!(reference::show(sheet, record, step).is_empty());
        }
    }
    assert!(within > 50, "{within}");
}
