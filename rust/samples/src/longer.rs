//! Longer sheets: clauses added at the end of sheets whose records pass. The records' assignments satisfy all of them, some or
//! none.

pub mod unalike;

use crate::draft::{code_bytes, Draft};
use crate::random::Random;
use crate::trimming;
use planner::format::sheet_from;
use planner::MOST_CLAUSES;

/// A clause as its codes, rising.
pub type Codes = Vec<u16>;

/// A record that passes, its sheet, and what a longer sheet has more.
#[derive(Clone, Debug)]
pub struct Longer {
    /// The shorter sheet, and the record.
    pub draft: Draft,
    /// The clauses behind those of the shorter sheet.
    pub added: Vec<Codes>,
    /// The longer sheet's loss. It is the shorter one's, but either may have a mark for a loss of 0, or no mark.
    pub loss: Option<u32>,
    pub what: &'static str,
    pub effect: Effect,
}

impl Longer {
    fn has_room(&self) -> bool {
        self.draft.clauses.len() + self.added.len() <= MOST_CLAUSES
    }

    /// The bytes of the longer sheet.
    pub fn sheet(&self) -> Vec<u8> {
        let own = self.draft.clauses.iter().cloned();
        let added = self.added.iter().map(|clause| code_bytes(clause));
        sheet_from(self.loss, &self.draft.costs, &own.chain(added).collect())
    }
}

/// What added clauses are to the record's assignment.
#[derive(Clone, Copy, Debug, PartialEq, Eq)]
pub enum Effect {
    /// It satisfies all of them.
    Hold,
    /// It satisfies them but for one or more.
    Break,
    /// Either, as it comes. The sheet's own clauses may break where the claim is "none".
    Either,
}

/// How clauses are drawn for the end of a sheet, by a name.
pub type Shape = (&'static str, Effect, fn(&Draft, &mut Random) -> Vec<Codes>);

#[rustfmt::skip]
pub const SHAPES: &[Shape] = &[
    ("nothing", Effect::Hold, |_, _| Vec::new()),
    ("one that holds", Effect::Hold, |draft, random| vec![satisfied(draft, random)]),
    ("several that hold", Effect::Hold, several_satisfied),
    ("the sheet's own again", Effect::Either, again),
    ("one that breaks", Effect::Break, |draft, random| with_broken(&[false], false, draft, random)),
    ("one that breaks before others", Effect::Break, |draft, random| with_broken(&[false], true, draft, random)),
    ("one that breaks behind others", Effect::Break, |draft, random| with_broken(&[true], false, draft, random)),
    ("one that breaks between others", Effect::Break, |draft, random| with_broken(&[true], true, draft, random)),
    ("several that break, others before and between", Effect::Break, |draft, random| with_broken(&[true, true, false, true], true, draft, random)),
    ("none but breaking ones", Effect::Break, |draft, random| with_broken(&[false; 3], false, draft, random)),
    ("an empty one", Effect::Break, |_, _| vec![Vec::new()]),
    ("an empty one between others", Effect::Break, with_empty),
    ("as they come", Effect::Either, |draft, random| {
        let count = random.between(1, 6);
        (0..count).map(|_| any(draft, random)).collect()
    }),
];

/// An endless stream of records that pass, each with every shape of added clauses, one after the other. Of a loss of 0 every
/// second longer sheet or so tells in the other way. The same seed always gives the same ones.
pub fn stream(seed: u64) -> impl Iterator<Item = Longer> {
    let mut random = Random::new(seed);
    let records = trimming::stream(random.next_u64());
    records.flat_map(move |record| every_shape(&record.draft, &mut random))
}

/// A record that passes, with every shape of added clauses for which there is room in its sheet.
pub fn every_shape(draft: &Draft, random: &mut Random) -> Vec<Longer> {
    let pair = |(what, effect, draw): &Shape| Longer {
        added: draw(draft, random),
        loss: some_mark(draft.loss, random),
        draft: draft.clone(),
        what,
        effect: *effect,
    };
    let pairs = SHAPES.iter().map(pair);
    pairs.filter(Longer::has_room).collect()
}

/// As many clauses more as a sheet has room for. The first of them that breaks, if any, stands at this place, from 0 on; behind it
/// they are as they come.
pub fn to_the_most(draft: &Draft, broken_at: Option<usize>, random: &mut Random) -> Vec<Codes> {
    let room = MOST_CLAUSES - draft.clauses.len();
    let clause = |place: usize| match broken_at {
        Some(first) if place == first => broken(draft, random),
        Some(first) if place > first => any(draft, random),
        _ => satisfied(draft, random),
    };
    (0..room).map(clause).collect()
}

/// The loss as it was, or a loss of 0 in the other way: with a mark, or without.
fn some_mark(loss: Option<u32>, random: &mut Random) -> Option<u32> {
    match loss {
        _ if random.percent(50) => loss,
        None => Some(0),
        Some(0) => None,
        other => other,
    }
}

/// A few clauses that the assignment satisfies.
fn several_satisfied(draft: &Draft, random: &mut Random) -> Vec<Codes> {
    let count = random.between(1, 5);
    (0..count).map(|_| satisfied(draft, random)).collect()
}

/// A broken clause for each entry, behind a few satisfied ones where it says so, and a few more in the end where these are
/// wanted.
fn with_broken(behind: &[bool], more: bool, draft: &Draft, random: &mut Random) -> Vec<Codes> {
    let mut clauses = Vec::new();
    for is_behind in behind {
        if *is_behind {
            clauses.extend(several_satisfied(draft, random));
        }
        clauses.push(broken(draft, random));
    }
    if more {
        clauses.extend(several_satisfied(draft, random));
    }
    clauses
}

/// A clause without literals, which every assignment breaks.
fn with_empty(draft: &Draft, random: &mut Random) -> Vec<Codes> {
    let mut clauses = several_satisfied(draft, random);
    clauses.push(Vec::new());
    clauses.extend(several_satisfied(draft, random));
    clauses
}

/// Some of the sheet's clauses once more, which its record's assignment satisfies unless the claim is "none".
fn again(draft: &Draft, random: &mut Random) -> Vec<Codes> {
    let count = draft.clauses.len() as u32;
    let numbers = (1..=count).filter(|_| random.percent(50));
    numbers.filter_map(|number| draft.clause(number)).collect()
}

/// A clause of some variables, each in either way.
fn any(draft: &Draft, random: &mut Random) -> Codes {
    let variables = some_variables(draft, random);
    let codes = variables.into_iter().map(|variable| {
        let polarity = random.below(2);
        (2 * variable + polarity) as u16
    });
    codes.collect()
}

/// A clause with a literal at least, and none that the assignment makes true.
fn broken(draft: &Draft, random: &mut Random) -> Codes {
    let variables = some_variables(draft, random).into_iter();
    let codes = variables.map(|variable| true_code(draft, variable) ^ 1);
    codes.collect()
}

/// A clause with one literal or more that the assignment makes true.
fn satisfied(draft: &Draft, random: &mut Random) -> Codes {
    let mut codes = any(draft, random);
    let place = random.below(codes.len());
    codes[place] = true_code(draft, usize::from(codes[place] / 2));
    codes
}

/// The code of the variable's literal that the assignment makes true.
fn true_code(draft: &Draft, variable: usize) -> u16 {
    (2 * variable + usize::from(!draft.value(variable))) as u16
}

/// One variable or more, rising: mostly a few, at times all of them.
fn some_variables(draft: &Draft, random: &mut Random) -> Vec<usize> {
    let count = draft.variables();
    if random.percent(5) {
        return (1..=count).collect();
    }
    let drawn = (0..random.between(1, 5)).map(|_| random.between(1, count));
    let mut variables: Vec<usize> = drawn.collect();
    variables.sort_unstable();
    variables.dedup();
    variables
}
