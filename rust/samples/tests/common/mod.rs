//! Drafts to damage, what a fault changed in them, what is wrong with a resolution, and what every assignment says of a step.
// Not every test needs all of it.
#![allow(dead_code)]

use planner::padding::Mix;
use planner::{long, search};
use reference::Answer;
use samples::draft::{codes, Body, Draft};
use samples::random::Random;
use samples::{sheets, weights, widening};
use std::collections::BTreeSet;

/// How many variables are few enough to try every assignment.
pub const FEW: usize = 8;

/// A small sheet with a valid record, which has steps of every kind, and of kind 5 two at least. In half of the records some
/// resolutions are wider than they have to be.
pub fn some_draft(random: &mut Random) -> Draft {
    let mut draft = plain_draft(random);
    if random.percent(50) {
        widening::records::join(&mut draft, random);
    }
    draft
}

/// The same without wider resolutions.
pub fn plain_draft(random: &mut Random) -> Draft {
    let problem = sheets::small(random);
    let plan = search::plan(&problem);
    let size = plan.record().len() + 600;
    let record = long::record(&problem, &plan, random.next_u64(), size, Mix::Mixed);
    let mut draft = Draft::new(&problem, &record).unwrap();
    for _ in 0..2 {
        weights::steps::insert(&mut draft, random);
    }
    draft
}

/// Adds which features were seen of a step to how often each was met.
pub fn count_seen(met: &mut [usize], seen: impl IntoIterator<Item = bool>) {
    for (met, is_seen) in met.iter_mut().zip(seen) {
        *met += usize::from(is_seen);
    }
}

/// Each feature was met five times at least.
pub fn assert_each_met(met: &[usize], names: &[&str]) {
    for (met, name) in met.iter().zip(names) {
        println!("{name}: {met}");
        assert!(*met >= 5, "too few: {name}");
    }
}

pub fn judged(draft: &Draft) -> Answer {
    let files = draft.files();
    reference::judge(&files.sheet, &files.record)
}

/// The number of the first body that differs.
pub fn first_difference(before: &[Vec<u8>], after: &[Vec<u8>]) -> u64 {
    let mut both = before.iter().zip(after);
    both.position(|(this, that)| this != that)
        .expect("one body differs") as u64
        + 1
}

pub fn changed_steps(before: &Draft, after: &Draft) -> Vec<Body> {
    let both = before.steps.iter().zip(&after.steps);
    let changed = both.filter(|(before, after)| before != after);
    changed.map(|(_, step)| Body::read(step).unwrap()).collect()
}

/// The numbers of all that is wrong with a resolution that cites earlier steps, by the sentences of documents 01 and 02.
pub fn resolution_faults(draft: &Draft, step: &Body) -> BTreeSet<u32> {
    let [a, b] = [0, 1].map(|part| draft.step(step.citation(part).unwrap()).unwrap());
    let open = 2 * u32::from(step.pivot().unwrap());
    let holds = |premise: &Body, code: u32| premise.literals.iter().any(|c| u32::from(*c) == code);
    let drops = |premise: &Body, but: u32| {
        let mut asked = premise.literals.iter().filter(|c| u32::from(**c) != but);
        asked.any(|code| !step.holds(*code))
    };
    let rising = step
        .literals
        .windows(2)
        .all(|pair| pair[0] / 2 < pair[1] / 2);
    let found = [
        (8, !rising),
        (16, !holds(&a, open) || !holds(&b, open + 1)),
        (17, drops(&a, open) || drops(&b, open + 1)),
        (18, step.bound > a.bound || step.bound > b.bound),
    ];
    let found = found.into_iter().filter(|(_, is_found)| *is_found);
    found.map(|(number, _)| number).collect()
}

/// Whether an assignment, variable v in bit v - 1, makes a literal true.
pub fn is_true(assignment: u32, code: u16) -> bool {
    (assignment >> (code / 2 - 1) & 1 == 1) == code.is_multiple_of(2)
}

/// What the true variables cost, without the standing loss.
pub fn paid(draft: &Draft, assignment: u32) -> i128 {
    let paid = (0..draft.variables()).filter(|place| assignment >> place & 1 == 1);
    paid.map(|place| i128::from(draft.costs[place])).sum()
}

pub fn cost(draft: &Draft, assignment: u32) -> i128 {
    i128::from(draft.loss.unwrap_or(0)) + paid(draft, assignment)
}

/// The assignments that make all literals of a step false.
pub fn settled(draft: &Draft, step: &Body) -> impl Iterator<Item = u32> {
    let literals = step.literals.clone();
    let all = 0..1_u32 << draft.variables();
    all.filter(move |assignment| literals.iter().all(|code| !is_true(*assignment, *code)))
}

/// No assignment that satisfies the sheet and makes the literals false is cheaper than the bound.
pub fn is_entailed(draft: &Draft, step: &Body) -> bool {
    let clauses: Vec<Vec<u16>> = draft.clauses.iter().map(|clause| codes(clause)).collect();
    let satisfied = |assignment: &u32| {
        let mut clauses = clauses.iter();
        clauses.all(|clause| clause.iter().any(|code| is_true(*assignment, *code)))
    };
    let mut left = settled(draft, step).filter(satisfied);
    left.all(|assignment| cost(draft, assignment) >= i128::from(step.bound))
}
