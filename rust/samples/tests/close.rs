//! The close: the gap that a last bound below the claim leaves, and the last steps that are refused.

mod common;

use common::{changed_steps, first_difference, judged, some_draft};
use reference::Answer;
use samples::damage::{self, Aim, Damage};
use samples::draft::{code_bytes, Body, Draft};
use samples::examples::example;
use samples::outcome::{Outcome, Tally};
use samples::random::Random;
use samples::weights::branch::{copy, resolution};
use std::cmp::Ordering;
use std::collections::{BTreeMap, BTreeSet};

const NONE: u64 = u64::MAX;
const CLOSE: u32 = 19;
const RESOLUTION: u8 = 4;

fn last(draft: &Draft) -> Body {
    draft.step(draft.steps.len() as u32).expect("a last step")
}

/// The answer to a record of good steps that leave this gap.
fn with_gap(draft: &Draft, gap: u64) -> Answer {
    let open = (1..=draft.variables()).filter(|variable| draft.value(*variable));
    Answer {
        number: 0,
        place: 0,
        cost: draft.claim,
        open_count: open.count() as u64,
        step_count: draft.steps.len() as u64,
        gap,
    }
}

fn refused(number: u32, place: u64) -> Answer {
    Answer {
        number,
        place,
        cost: 0,
        open_count: 0,
        step_count: 0,
        gap: 0,
    }
}

fn fault(name: &str) -> Damage {
    let found = damage::all_aimed().find(|fault| fault.aimed == name);
    *found.expect("a fault of that name")
}

/// The draft with a fault, where it applies.
fn with(fault: Damage, draft: &Draft, random: &mut Random) -> Option<Draft> {
    let (after, done) = damage::changed(&[fault], draft, random);
    done.then_some(after)
}

/// What the names say of the record before, of it after, and of its gap.
type Said = fn(&Draft, &Draft, u64) -> bool;

const SAID: [(&str, Said); 11] = [
    ("within dearer by one", |_, _, gap| gap == 1),
    ("within a gap over 32 bits", |_, _, gap| gap > 1 << 32),
    ("within cost step after the close", |_, after, gap| {
        gap == after.claim - after.standing_loss() && after.steps.len() > 1
    }),
    ("within record cut short", |before, after, _| {
        after.steps.len() < before.steps.len()
    }),
    ("within cost step alone", |_, after, gap| {
        gap == after.claim - after.standing_loss()
    }),
    ("within cost step alone, one below the claim", one_of_one),
    (
        "within independent set alone, one below the claim",
        one_of_one,
    ),
    (
        "within weighted step alone, one below the claim",
        one_of_one,
    ),
    ("within last bound one less", |before, after, gap| {
        gap == 1 && last(before).literals == last(after).literals
    }),
    ("within last bound 0", |_, after, gap| gap == after.claim),
    ("within bound lowered on the way", |before, after, _| {
        changed_steps(before, after).len() > 1
    }),
];

fn one_of_one(_: &Draft, after: &Draft, gap: u64) -> bool {
    gap == 1 && after.steps.len() == 1
}

#[test]
fn the_gap_is_the_claim_minus_the_last_bound() {
    let mut random = Random::new(31);
    let mut met: BTreeMap<&str, usize> = BTreeMap::new();
    let within = || damage::all_aimed().filter(|fault| fault.aim() == Some(Aim::Within));
    for _ in 0..300 {
        let draft = some_draft(&mut random);
        for fault in within() {
            let Some(after) = with(*fault, &draft, &mut random) else {
                continue;
            };
            let gap = after.claim.checked_sub(last(&after).bound).unwrap();
            assert_eq!(judged(&after), with_gap(&after, gap), "{}", fault.aimed);
            assert!(gap > 0 && after.claim != NONE, "{}", fault.aimed);
            let said = SAID.iter().find(|(name, _)| *name == fault.aimed);
            assert!(
                said.is_none_or(|(_, said)| said(&draft, &after, gap)),
                "{after:?}"
            );
            *met.entry(fault.aimed).or_default() += 1;
        }
    }
    println!("{met:?}");
    assert_eq!(met.len(), within().count());
    assert!(SAID.iter().all(|(name, _)| met.contains_key(name)));
}

/// The number that tells a wrong bound of a step of this kind.
fn wrong_bound(kind: u8) -> u32 {
    [12, 13, 15, 18, 24][usize::from(kind) - 1]
}

/// The claim held to its last bound, to one below and to one above. No good step has a bound above; one below what it could
/// have only a resolution may have.
#[test]
fn bounds_about_the_claim() {
    let alone = ["cost step", "independent set", "weighted step"];
    let alone = alone.map(|step| fault(&format!("accepted {step} alone")));
    let dearer = fault("within dearer by one");
    let mut random = Random::new(32);
    let mut met = [0; 6];
    for _ in 0..400 {
        let draft = some_draft(&mut random);
        let single = alone.map(|fault| with(fault, &draft, &mut random));
        for draft in single.into_iter().flatten().chain([draft]) {
            let (step, t) = (last(&draft), draft.steps.len());
            if draft.claim == NONE {
                continue;
            }
            assert_eq!(
                (judged(&draft), step.bound),
                (with_gap(&draft, 0), draft.claim)
            );
            let below = with(dearer, &draft, &mut random).unwrap();
            assert_eq!(judged(&below), with_gap(&below, 1));
            for bound in [step.bound.wrapping_sub(1), step.bound + 1] {
                let mut wrong = draft.clone();
                wrong.steps[t - 1] = Body {
                    bound,
                    ..step.clone()
                }
                .bytes();
                let place = first_difference(&draft.steps, &wrong.steps);
                let wanted = match step.kind {
                    RESOLUTION if bound < step.bound => with_gap(&wrong, 1),
                    kind => refused(wrong_bound(kind), place),
                };
                assert_eq!(judged(&wrong), wanted);
            }
            met[usize::from(step.kind)] += 1;
        }
    }
    println!("by the kind of the last step {met:?}");
    assert!(met[2..].iter().all(|met| *met > 30));
}

#[test]
fn a_last_step_with_literals_is_refused_whatever_its_bound() {
    let mut random = Random::new(33);
    let cases = [
        ("19 literals, bound one below the claim", Ordering::Less),
        ("19 literals, bound of the claim", Ordering::Equal),
        ("19 literals, bound one above the claim", Ordering::Greater),
        ("19 copy after the close", Ordering::Greater),
    ];
    let mut met = [0; 4];
    for _ in 0..100 {
        let draft = some_draft(&mut random);
        for (met, (name, bound)) in met.iter_mut().zip(cases) {
            let Some(after) = with(fault(name), &draft, &mut random) else {
                continue;
            };
            let step = last(&after);
            assert!(!step.literals.is_empty(), "{name}: {after:?}");
            if after.claim != NONE {
                assert_eq!(step.bound.cmp(&after.claim), bound, "{name}: {after:?}");
                assert!(step.bound.abs_diff(after.claim) <= 1 || step.bound == NONE);
                *met += 1;
            }
            assert_eq!(
                judged(&after),
                refused(CLOSE, after.steps.len() as u64),
                "{name}"
            );
        }
    }
    println!("{met:?}");
    assert!(met.iter().all(|met| *met > 50));
}

/// Under a claim that is a cost the same steps close or leave a gap: it is "none" that makes the difference.
#[test]
fn no_gap_is_left_under_none() {
    let mut random = Random::new(34);
    let (mut met, mut beside) = (BTreeSet::new(), Tally::default());
    let names = [
        "19 none claimed",
        "19 record cut short under none",
        "19 cost step after the close under none",
        "19 cost step alone under none",
        "19 independent set alone under none",
        "19 weighted step alone under none",
    ];
    for _ in 0..300 {
        let draft = some_draft(&mut random);
        for name in names {
            let Some(after) = with(fault(name), &draft, &mut random) else {
                continue;
            };
            let step = last(&after);
            assert!(step.literals.is_empty() && step.bound < NONE && after.claim == NONE);
            assert_eq!(
                judged(&after),
                refused(CLOSE, after.steps.len() as u64),
                "{name}"
            );
            met.insert(name);
            if draft.claim != NONE {
                let (steps, draft) = (after.steps, draft.clone());
                beside.add(Outcome::of(&judged(&Draft { steps, ..draft })));
            }
        }
    }
    println!("under the claim before: {beside}");
    assert_eq!(met.len(), names.len());
    let unrefused = [Outcome::Least, Outcome::Within].map(|outcome| beside.of(outcome));
    assert!(unrefused.iter().all(|count| *count > 100));
    assert_eq!(unrefused.iter().sum::<usize>(), beside.sum());
}

/// The sheet of example D and its plan. The branch in which variable 5 is true is closed as in D; of the other there is a bound
/// by two independent clauses.
#[test]
fn the_example_of_a_search_that_was_stopped() {
    let clauses: [&[u16]; 8] = [
        &[4, 8],
        &[4, 11],
        &[8, 11],
        &[10, 12],
        &[2, 6, 13],
        &[3, 6, 13],
        &[4, 6, 10, 13],
        &[4, 7, 10, 13],
    ];
    let mut draft = Draft {
        loss: None,
        costs: (1..=6).collect(),
        clauses: clauses.map(code_bytes).into(),
        claim: 11,
        assignment: vec![0b1_1010],
        steps: Vec::new(),
    };
    let paid = Body::cost(&draft, vec![5, 9, 11]);
    let third = copy(&draft, 2);
    let without_4 = resolution([(&third, 2), (&paid, 1)], 4, vec![5, 11]);
    let second = copy(&draft, 1);
    let done = resolution([(&second, 4), (&without_4, 3)], 2, vec![11]);
    let open = Body {
        kind: 3,
        spare: 0,
        literals: vec![10],
        bound: 2 + 6,
        tail: [1_u32, 4].map(u32::to_le_bytes).concat(),
    };
    let both = resolution([(&open, 6), (&done, 5)], 5, Vec::new());
    let steps = [paid, third, without_4, second, done, open, both];
    draft.steps = steps.iter().map(Body::bytes).collect();
    let (example, files) = (example("S1"), draft.files());
    assert_eq!(files.sheet, example.sheet);
    assert_eq!(files.record, example.record);
    assert_eq!(judged(&draft), with_gap(&draft, 3));
    assert_eq!(reference::line(&judged(&draft)) + "\n", example.line);
}
