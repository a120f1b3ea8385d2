//! Longer sheets as the samples make them: they are valid, the records pass beside the shorter ones, what is added is to the
//! assignment what it is said to be, and sheets that are not alike differ in what they are said to differ in.

mod common;

use common::{assert_each_met, count_seen, judged, some_draft};
use planner::MOST_CLAUSES;
use reference::sheet_is_valid;
use samples::draft::{code_bytes, sheet_parts, Parts};
use samples::longer::unalike::CHANGES;
use samples::longer::{stream, to_the_most, Effect, Longer, SHAPES};
use samples::outcome::{Outcome, Tally};
use samples::random::Random;
use std::collections::BTreeMap;

fn is_satisfied(pair: &Longer) -> bool {
    let mut added = pair.added.iter();
    added.all(|clause| pair.draft.satisfies(clause))
}

#[test]
fn longer_sheets_have_the_others_clauses_first() {
    for pair in stream(71).take(600) {
        let (sheet, longer) = (pair.draft.files().sheet, pair.sheet());
        assert!(sheet_is_valid(&sheet) && sheet_is_valid(&longer));
        let [before, after] = [&sheet, &longer].map(|sheet| sheet_parts(sheet).unwrap());
        let added = pair.added.iter().map(|clause| code_bytes(clause));
        let all: Vec<Vec<u8>> = before.clauses.iter().cloned().chain(added).collect();
        assert_eq!((after.costs, after.clauses), (before.costs, all));
        assert_eq!(after.loss.unwrap_or(0), before.loss.unwrap_or(0));
    }
}

#[test]
fn the_stream_has_every_shape_with_every_answer() {
    let mut met: BTreeMap<&str, Tally> = BTreeMap::new();
    for pair in stream(72).take(3_900) {
        let tally = met.entry(pair.what).or_default();
        tally.add(Outcome::of(&judged(&pair.draft)));
    }
    assert_eq!(met.len(), SHAPES.len());
    for (what, tally) in met {
        println!("{what}: {tally}");
        let passed = [Outcome::Least, Outcome::NoneExists, Outcome::Within];
        let counts = passed.map(|outcome| tally.of(outcome));
        assert!(counts.iter().all(|count| *count > 10));
        assert_eq!(counts.iter().sum::<usize>(), tally.sum());
    }
}

#[test]
fn added_clauses_hold_or_break_as_they_are_said_to() {
    let mut either = [0; 2];
    for pair in stream(73).take(1_300) {
        let holds = is_satisfied(&pair);
        match pair.effect {
            Effect::Hold => assert!(holds, "{}", pair.what),
            Effect::Break => assert!(!holds, "{}", pair.what),
            Effect::Either => either[usize::from(holds)] += 1,
        }
    }
    println!("broken, not broken: {either:?}");
    assert!(either.iter().all(|count| *count > 20));
}

/// What added clauses may be, and how it is seen.
type Feature = (&'static str, fn(&Longer) -> bool);

#[rustfmt::skip]
const FEATURES: [Feature; 9] = [
    ("a mark put", |pair| pair.draft.loss.is_none() && pair.loss == Some(0)),
    ("a mark left out", |pair| pair.draft.loss == Some(0) && pair.loss.is_none()),
    ("a loss", |pair| pair.loss > Some(0) && pair.loss == pair.draft.loss),
    ("one literal", |pair| pair.added.iter().any(|clause| clause.len() == 1)),
    ("no literal", |pair| pair.added.iter().any(Vec::is_empty)),
    ("every variable", |pair| pair.added.iter().any(|clause| clause.len() == pair.draft.variables())),
    ("a clause twice", |pair| pair.added.iter().any(|clause| pair.draft.clauses.contains(&code_bytes(clause)))),
    ("one broken clause", |pair| broken(pair) == 1),
    ("several broken clauses", |pair| broken(pair) > 1),
];

fn broken(pair: &Longer) -> usize {
    let added = pair.added.iter();
    added.filter(|clause| !pair.draft.satisfies(clause)).count()
}

#[test]
fn every_feature_is_met() {
    let mut met = [0; FEATURES.len()];
    for pair in stream(74).take(1_300) {
        count_seen(&mut met, FEATURES.iter().map(|(_, is_seen)| is_seen(&pair)));
    }
    assert_each_met(&met, &FEATURES.map(|(name, _)| name));
}

#[test]
fn as_many_clauses_as_a_sheet_may_have() {
    let mut random = Random::new(75);
    for turn in 0..12 {
        let draft = some_draft(&mut random);
        let room = MOST_CLAUSES - draft.clauses.len();
        let broken = [None, Some(0), Some(room / 2), Some(room - 1)][turn % 4];
        let added = to_the_most(&draft, broken, &mut random);
        assert_eq!(added.len(), room);
        let first = added.iter().position(|clause| !draft.satisfies(clause));
        assert_eq!(first, broken);
    }
}

/// Whether a longer sheet differs from what it was in what the change is about, and in nothing else. Where clauses are equal, one
/// may take the place of the other.
fn is_changed(what: &str, pair: &Longer, before: &Parts, after: &Parts) -> bool {
    let costs = before.costs != after.costs;
    let loss = before.loss != after.loss;
    let clauses = before.clauses != after.clauses;
    let fewer = before.clauses.len() - after.clauses.len();
    let own = pair.draft.clauses.len();
    match what {
        "another cost" => costs && !loss && !clauses,
        "another loss" => loss && !costs && !clauses,
        "a clause removed" => fewer == 1 && !costs && !loss,
        "a clause moved" => is_moved(before, after) && !costs && !loss,
        "a clause with a literal less" => is_cut(before, after) && !costs && !loss,
        _ => {
            let mut rotated = before.clauses.clone();
            rotated.rotate_left(own);
            after.clauses == rotated && !costs && !loss
        }
    }
}

/// The same clauses in another order, or the same.
fn is_moved(before: &Parts, after: &Parts) -> bool {
    let sorted = |parts: &Parts| {
        let mut clauses = parts.clauses.clone();
        clauses.sort();
        clauses
    };
    sorted(before) == sorted(after)
}

/// One clause is two bytes shorter, and begins as it did.
fn is_cut(before: &Parts, after: &Parts) -> bool {
    let pairs = before.clauses.iter().zip(&after.clauses);
    let other: Vec<_> = pairs.filter(|(before, after)| before != after).collect();
    let shorter = |(before, after): &(&Vec<u8>, &Vec<u8>)| {
        after.len() + 2 == before.len() && before.starts_with(after)
    };
    before.clauses.len() == after.clauses.len() && other.len() == 1 && other.iter().all(shorter)
}

#[test]
fn what_is_not_alike_is_valid_and_another_sheet() {
    let mut random = Random::new(76);
    let mut met = vec![0; CHANGES.len()];
    for pair in stream(76).take(650) {
        let before = pair.sheet();
        for (place, (what, change)) in CHANGES.iter().enumerate() {
            let mut unlike = pair.clone();
            if change(&mut unlike, &mut random).is_none() {
                continue;
            }
            let after = unlike.sheet();
            assert!(sheet_is_valid(&after), "{what}");
            let [before, after] = [&before, &after].map(|sheet| sheet_parts(sheet).unwrap());
            assert!(is_changed(what, &pair, &before, &after), "{what}");
            met[place] += usize::from(before != after);
        }
    }
    let names: Vec<&str> = CHANGES.iter().map(|(name, _)| *name).collect();
    assert_each_met(&met, &names);
}

#[test]
fn the_same_seed_gives_the_same_sheets() {
    let sheets = |seed| stream(seed).take(60).map(|pair| pair.sheet());
    assert!(sheets(77).eq(sheets(77)));
    assert!(!sheets(77).eq(sheets(78)));
}
