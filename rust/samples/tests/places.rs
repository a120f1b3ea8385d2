//! A single fault is told at the place where it was made.

mod common;

use common::{first_difference, resolution_faults, some_draft};
use samples::damage::{self, Aim, Damage, Way};
use samples::draft::{codes, read_u32, Draft, Files, Table};
use samples::outcome::Outcome;
use samples::random::Random;
use samples::{weights, widening};
use std::collections::BTreeSet;

/// The pair that misses its offset, else the last one if the end of the file is missed.
fn pair_at_fault(file: &[u8], table: Table) -> u64 {
    let mut end = (table.start + 8 * table.count) as u64;
    for place in 0..table.count {
        let pair = table.start + 8 * place;
        let offset = u64::from(read_u32(file, pair).unwrap());
        if offset != end {
            return place as u64 + 1;
        }
        end = offset + u64::from(read_u32(file, pair + 4).unwrap());
    }
    assert_ne!(end, file.len() as u64);
    table.count as u64
}

fn first_broken(draft: &Draft) -> u64 {
    let mut clauses = draft.clauses.iter();
    let broken = clauses.position(|clause| !draft.satisfies(&codes(clause)));
    broken.unwrap() as u64 + 1
}

/// The first resolution with a fault. All citations are good.
fn first_unresolved(draft: &Draft) -> u64 {
    let mut steps = (1..=draft.steps.len()).map(|number| (number, draft.step(number as u32)));
    let found = steps.find(|(_, step)| {
        let step = step.as_ref().unwrap();
        step.kind == widening::KIND && !resolution_faults(draft, step).is_empty()
    });
    found.unwrap().0 as u64
}

/// The first step whose bound has the standing loss in it: of kind 2, 3 or 5.
fn first_with_loss(draft: &Draft) -> u64 {
    let mut steps = draft.steps.iter();
    steps.position(|step| [2, 3, 5].contains(&step[0])).unwrap() as u64 + 1
}

/// Nothing is told before such a fault, and it always meets its aim: it is made in a step that was good, by 14, 16 to 18 or a
/// number of document 02, or in a step of kind 4 or 5, or at the close. Nor is anything told of a change that leaves no fault
/// behind.
fn is_certain(fault: &Damage) -> bool {
    let by_aim = match fault.aim() {
        Some(Aim::Refused(number)) => matches!(number, 14 | 16..=24),
        unrefused => unrefused.is_some(),
    };
    let by_kind = matches!(
        fault.way,
        Way::Step(widening::KIND | weights::KIND, _) | Way::Resolve(_) | Way::Weigh(_)
    );
    by_aim || by_kind
}

/// The place that the papers give to what the fault is aimed at; nothing where a fault has no one place.
fn expected(fault: &Damage, before: &Draft, after: &Draft, files: &Files) -> Option<u64> {
    let Aim::Refused(number) = fault.aim()? else {
        return Some(0);
    };
    let changed_step = || Some(first_difference(&before.steps, &after.steps));
    match (number, fault.way) {
        (2 | 5 | 6 | 11, _) => Some(0),
        (3, _) => Some(pair_at_fault(&files.sheet, files.sheet_table()?)),
        (7, _) => Some(pair_at_fault(&files.record, files.record_table()?)),
        (4, Way::ClauseList(_)) => Some(first_difference(&before.clauses, &after.clauses)),
        (10, _) => Some(first_broken(after)),
        (19, _) => Some(after.steps.len() as u64),
        // The fault may be that of a step that was not changed, when one that it cites was.
        (17 | 18, Way::Draft(_)) => Some(first_unresolved(after)),
        // And a loss is in the bounds of all such steps, though none of them was changed.
        (13 | 15 | 24, Way::Draft(_)) => Some(first_with_loss(after)),
        (_, Way::Step(..) | Way::Bytes(_) | Way::StepList(_)) => changed_step(),
        _ if is_certain(fault) => changed_step(),
        _ => None,
    }
}

/// Makes the same change twice: once for the parts, once for the files.
fn changed(fault: Damage, draft: &Draft, random: &mut Random) -> Option<(Draft, Files)> {
    let mut again = random.clone();
    let parts = damage::changed(&[fault], draft, &mut again).0;
    let files = damage::apply(&[fault], draft, random)?;
    Some((parts, files))
}

fn compare(fault: Damage, draft: &Draft, random: &mut Random) -> Option<u64> {
    let (after, files) = changed(fault, draft, random)?;
    let answer = reference::judge(&files.sheet, &files.record);
    if !fault.aim()?.is_met_by(Outcome::of(&answer)) {
        assert!(!is_certain(&fault), "{}: {answer:?} {files:?}", fault.aimed);
        return None;
    }
    let place = expected(&fault, draft, &after, &files)?;
    assert_eq!(answer.place, place, "{}: {files:?}", fault.aimed);
    Some(place)
}

/// In a record with a gap a fault is told as in one without.
#[test]
fn a_gap_hides_no_fault() {
    let dearer = damage::all_aimed().find(|fault| fault.aimed == "within dearer by one");
    let mut random = Random::new(13);
    let mut compared = 0;
    for _ in 0..60 {
        let draft = some_draft(&mut random);
        let (within, done) = damage::changed(&[*dearer.unwrap()], &draft, &mut random);
        let faults = damage::all_aimed().filter(|fault| is_certain(fault));
        for fault in faults.filter(|_| done) {
            if let Some(Aim::Refused(_)) = fault.aim() {
                compared += usize::from(compare(*fault, &within, &mut random).is_some());
            }
        }
    }
    println!("{compared} faults in records with a gap");
    assert!(compared > 2_000);
}

#[test]
fn faults_are_told_where_they_were_made() {
    let mut random = Random::new(11);
    let (mut compared, mut met) = (0, BTreeSet::new());
    for _ in 0..150 {
        let draft = some_draft(&mut random);
        for fault in damage::all_aimed() {
            if compare(*fault, &draft, &mut random).is_some() {
                compared += 1;
                met.insert(fault.aimed);
            }
        }
    }
    println!("{compared} places compared");
    assert!(compared > 10_000);
    for Damage { aimed, .. } in damage::all_aimed().filter(|fault| is_certain(fault)) {
        assert!(met.contains(aimed), "never met: {aimed}");
    }
}
