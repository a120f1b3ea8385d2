//! Changes, each aimed at one answer. A name starts with the number that the fault alone would meet,
//! or with "accepted" or "within" for a change that no refusal meets. A change made to a part is
//! followed by new pairs, so that it reaches the refusals behind the layout.

mod alone;
mod blind;
mod close;
mod forms;
mod heads;
mod independence;
mod linear;
mod losses;
mod order;
mod pairs;
mod plans;
mod resolutions;
mod statements;
mod widened;

use crate::draft::{code_bytes, codes, Body, Draft, Files, Table};
use crate::outcome::Outcome;
use crate::random::Random;
use order::{Bound, Clauses};

/// How a fault is made; nothing comes back when it does not apply to these files.
#[derive(Clone, Copy)]
pub enum Way {
    Draft(fn(&mut Draft, &mut Random) -> Option<()>),
    /// Changes one step of this kind; the number is the step's own.
    Step(u8, fn(&Draft, u32, &mut Body, &mut Random) -> Option<()>),
    /// Changes one step body of any kind.
    Bytes(fn(&mut Vec<u8>, &mut Random) -> Option<()>),
    ClauseList(fn(&mut Vec<u16>, usize, &mut Random) -> Option<()>),
    StepList(fn(&mut Vec<u16>, usize, &mut Random) -> Option<()>),
    SheetPairs(fn(&mut Vec<u8>, Table, &mut Random) -> Option<()>),
    RecordPairs(fn(&mut Vec<u8>, Table, &mut Random) -> Option<()>),
    Files(fn(&mut Files, &mut Random) -> Option<()>),
    /// Has a step of kind 3 cite clauses made for it.
    Cite(Clauses, Bound),
    /// Makes these faults in steps of kind 4.
    Resolve(resolutions::order::Faults),
    /// Makes these faults in steps of kind 5.
    Weigh(linear::order::Faults),
}

#[derive(Clone, Copy)]
pub struct Damage {
    pub aimed: &'static str,
    pub way: Way,
}

const fn damage(aimed: &'static str, way: Way) -> Damage {
    Damage { aimed, way }
}

/// What a fault is to be answered with.
#[derive(Clone, Copy, Debug, PartialEq, Eq)]
pub enum Aim {
    /// The record stays what it was: its claim, a cost or "none", is borne out.
    Accepted,
    /// The claim is a cost, and a gap is left.
    Within,
    /// With the refusal's number.
    Refused(u32),
}

impl Aim {
    pub fn is_met_by(self, outcome: Outcome) -> bool {
        match self {
            Aim::Accepted => outcome.accepts(),
            Aim::Within => outcome == Outcome::Within,
            Aim::Refused(number) => outcome == Outcome::Refused(number),
        }
    }
}

impl Damage {
    /// What the fault is aimed at; a blind one is aimed at nothing.
    pub fn aim(&self) -> Option<Aim> {
        match self.aimed.split(' ').next()? {
            "accepted" => Some(Aim::Accepted),
            "within" => Some(Aim::Within),
            number => number.parse().ok().map(Aim::Refused),
        }
    }
}

/// Every fault with an aim, in groups.
pub const AIMED: [&[Damage]; 17] = [
    heads::HEADS,
    LOSSES,
    pairs::PAIRS,
    forms::FORMS,
    plans::PLANS,
    close::CLOSE,
    alone::ALONE,
    statements::STATEMENTS,
    independence::INDEPENDENCE,
    order::ORDER,
    resolutions::RESOLUTIONS,
    resolutions::order::RESOLUTION_ORDER,
    widened::WIDENED,
    linear::LINEAR,
    linear::bounds::BOUNDS,
    linear::order::LINEAR_ORDER,
    linear::records::RECORDS,
];

/// Those that have to do with standing losses.
pub const LOSSES: &[Damage] = losses::LOSSES;

/// All of them, one by one.
pub fn all_aimed() -> impl Iterator<Item = &'static Damage> {
    AIMED.into_iter().flatten()
}

/// Changes made without looking.
pub const BLIND: &[Damage] = blind::BLIND;

/// One fault of those with an aim, each as likely as the other.
pub fn aimed(random: &mut Random) -> Damage {
    let place = random.below(all_aimed().count());
    let fault = all_aimed().nth(place);
    *fault.expect("the place is below the count")
}

pub fn blind(random: &mut Random) -> Damage {
    BLIND[random.below(BLIND.len())]
}

/// The parts with those of the faults that change parts, and whether there were any.
pub fn changed(faults: &[Damage], draft: &Draft, random: &mut Random) -> (Draft, bool) {
    let mut changed = draft.clone();
    let mut done = false;
    for fault in faults {
        done |= to_draft(fault.way, &mut changed, random).is_some();
    }
    (changed, done)
}

/// The files with these faults, parts first, bytes after; nothing when none applies.
pub fn apply(faults: &[Damage], draft: &Draft, random: &mut Random) -> Option<Files> {
    let (changed, mut done) = changed(faults, draft, random);
    let mut files = changed.files();
    for fault in faults {
        done |= to_files(fault.way, &mut files, random).is_some();
    }
    done.then_some(files)
}

fn to_draft(way: Way, draft: &mut Draft, random: &mut Random) -> Option<()> {
    match way {
        Way::Draft(change) => change(draft, random),
        Way::Step(kind, change) => to_step(kind, change, draft, random),
        Way::Bytes(change) => {
            let place = random.below(draft.steps.len().max(1));
            change(draft.steps.get_mut(place)?, random)
        }
        Way::ClauseList(change) => {
            let place = random.below(draft.clauses.len().max(1));
            let mut list = codes(draft.clauses.get(place)?);
            change(&mut list, draft.variables(), random)?;
            draft.clauses[place] = code_bytes(&list);
            Some(())
        }
        Way::StepList(change) => {
            let place = random.below(draft.steps.len().max(1));
            let mut body = Body::read(draft.steps.get(place)?)?;
            change(&mut body.literals, draft.variables(), random)?;
            draft.steps[place] = body.bytes();
            Some(())
        }
        Way::Cite(clauses, bound) => order::cite(clauses, bound, draft, random),
        Way::Resolve(faults) => resolutions::order::resolve(faults, draft, random),
        Way::Weigh(faults) => linear::order::weigh(faults, draft, random),
        Way::SheetPairs(_) | Way::RecordPairs(_) | Way::Files(_) => None,
    }
}

/// The places of the steps of a kind, from a random one on: many faults need some feature, and try one after the other.
pub(crate) fn places(kind: u8, draft: &Draft, random: &mut Random) -> Vec<usize> {
    let count = draft.steps.len();
    let first = random.below(count.max(1));
    let all = (0..count).map(|turn| (first + turn) % count);
    all.filter(|place| draft.steps[*place].first() == Some(&kind))
        .collect()
}

/// The place of some step of a kind, and that of one behind it.
fn two_places(kind: u8, draft: &Draft, random: &mut Random) -> Option<[usize; 2]> {
    let mut places = places(kind, draft, random);
    places.sort_unstable();
    let last = random.between(1, places.len().max(2) - 1);
    let behind = *places.get(last)?;
    Some([places[random.below(last)], behind])
}

fn to_step(
    kind: u8,
    change: fn(&Draft, u32, &mut Body, &mut Random) -> Option<()>,
    draft: &mut Draft,
    random: &mut Random,
) -> Option<()> {
    for place in places(kind, draft, random) {
        let Some(mut body) = Body::read(&draft.steps[place]) else {
            continue;
        };
        if change(draft, place as u32 + 1, &mut body, random).is_some() {
            draft.steps[place] = body.bytes();
            return Some(());
        }
    }
    None
}

fn to_files(way: Way, files: &mut Files, random: &mut Random) -> Option<()> {
    match way {
        Way::SheetPairs(change) => {
            let table = files.sheet_table()?;
            change(&mut files.sheet, table, random)
        }
        Way::RecordPairs(change) => {
            let table = files.record_table()?;
            change(&mut files.record, table, random)
        }
        Way::Files(change) => change(files, random),
        _ => None,
    }
}
