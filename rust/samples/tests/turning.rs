//! The inputs for turning: sheets, buffers and turns of every sort do come, each answer is met, and each refusal at every place
//! that it has.

mod common;

use common::{assert_each_met, count_seen};
use planner::{MOST_CLAUSES, MOST_VARIABLES};
use reference::{turn, Turned};
use samples::turning::shapes::{LARGE, SHAPES};
use samples::turning::turns::{GOOD, WRONG};
use samples::turning::{needed, stream, Input, ASSIGNMENT, COUNTS, INDEX};
use samples::writing::Listing;
use std::collections::{BTreeMap, BTreeSet};

const COUNT: usize = 6_000;

fn answer(input: &Input) -> Turned {
    let [mut assignment, mut index, mut counts] = input.buffers.clone();
    turn(
        &input.sheet,
        &mut assignment,
        &input.turns,
        &mut index,
        &mut counts,
    )
}

/// An input whose sheet is good.
struct Seen {
    input: Input,
    listing: Listing,
    /// How many bytes each buffer has more than it needs.
    room: [isize; 3],
    answer: Turned,
}

impl Seen {
    /// Nothing where the sheet is refused.
    fn of(input: Input) -> Option<Seen> {
        let answer = answer(&input);
        if !reference::sheet_is_valid(&input.sheet) {
            return None;
        }
        let (sizes, needed) = (input.buffers.each_ref().map(Vec::len), needed(&input.sheet));
        let room = [ASSIGNMENT, INDEX, COUNTS].map(|at| sizes[at] as isize - needed[at] as isize);
        Some(Seen {
            listing: Listing::read(&input.sheet)?,
            input,
            room,
            answer,
        })
    }

    fn variables(&self) -> usize {
        self.listing.costs.len()
    }

    fn any_clause(&self, sort: impl Fn(&Vec<u16>) -> bool) -> bool {
        self.listing.clauses.iter().any(sort)
    }

    /// This buffer has so many bytes more than it needs, and the others enough.
    fn is_alone(&self, at: usize, more: isize) -> bool {
        let mut others = (0..3).filter(|other| *other != at);
        self.room[at] == more && others.all(|other| self.room[other] >= 0)
    }

    /// The bits behind the last variable's.
    fn spare_bits(&self) -> Option<u8> {
        let last = self.variables().div_ceil(8) - 1;
        let used = self.variables() % 8;
        let byte = self.input.buffers[ASSIGNMENT].get(last)?;
        (used > 0).then_some(byte >> used)
    }

    fn is_variable(&self, turn: u16) -> bool {
        (1..=self.variables()).contains(&turn.into())
    }

    /// Where the first turn of no variable stands, from 0.
    fn wrong(&self) -> Option<usize> {
        let mut turns = self.input.turns.iter();
        turns.position(|turn| !self.is_variable(*turn))
    }

    /// The first turn of no variable.
    fn wrong_turn(&self) -> Option<usize> {
        Some(self.input.turns[self.wrong()?].into())
    }

    fn repeats(&self) -> bool {
        let different: BTreeSet<&u16> = self.input.turns.iter().collect();
        different.len() < self.input.turns.len()
    }
}

/// What an input may have, and how it is seen.
type Feature = (&'static str, fn(&Seen) -> bool);

const SHEETS: [Feature; 16] = [
    ("no mark", |s| s.listing.loss.is_none()),
    ("marked with a loss of 0", |s| s.listing.loss == Some(0)),
    ("marked with a loss", |s| s.listing.loss > Some(0)),
    ("no clauses", |s| s.listing.clauses.is_empty()),
    ("an empty clause", |s| s.any_clause(Vec::is_empty)),
    ("one literal", |s| s.any_clause(|c| c.len() == 1)),
    ("all variables", |s| {
        s.any_clause(|c| c.len() == s.variables())
    }),
    ("one variable", |s| s.variables() == 1),
    ("8 variables", |s| s.variables() == 8),
    ("9 variables", |s| s.variables() == 9),
    ("most variables", |s| s.variables() == MOST_VARIABLES),
    ("most clauses", |s| s.listing.clauses.len() == MOST_CLAUSES),
    ("no clause broken", |s| {
        s.answer.number == 0 && s.answer.total == 0
    }),
    ("a clause broken", |s| s.answer.total > 0),
    ("most clauses broken", |s| {
        let broken = s.answer.total as usize;
        broken < s.listing.clauses.len() && 2 * broken > s.listing.clauses.len()
    }),
    ("a variable that no clause has", |s| {
        let mentioned: BTreeSet<u16> = s.listing.clauses.concat().iter().map(|c| c / 2).collect();
        mentioned.len() < s.variables()
    }),
];

const BUFFERS: [Feature; 15] = [
    ("all fit", |s| s.room == [0; 3]),
    ("all longer", |s| s.room.iter().all(|room| *room > 0)),
    ("assignment a byte short", |s| s.is_alone(ASSIGNMENT, -1)),
    ("index a byte short", |s| s.is_alone(INDEX, -1)),
    ("counts a byte short", |s| s.is_alone(COUNTS, -1)),
    ("index shorter", |s| s.room[INDEX] < -1),
    ("counts shorter", |s| s.room[COUNTS] < -1),
    ("assignment a byte longer", |s| s.is_alone(ASSIGNMENT, 1)),
    ("index a byte longer", |s| s.is_alone(INDEX, 1)),
    ("counts a byte longer", |s| s.is_alone(COUNTS, 1)),
    ("no counts needed or lent", |s| {
        s.input.buffers[COUNTS].is_empty() && s.room[COUNTS] == 0
    }),
    ("no spare bit", |s| s.variables().is_multiple_of(8)),
    ("spare bits set", |s| s.spare_bits() > Some(0)),
    ("no spare bits set", |s| s.spare_bits() == Some(0)),
    ("short, and a wrong turn", |s| {
        s.answer.number == 29 && s.wrong().is_some()
    }),
];

const TURNS: [Feature; 13] = [
    ("none", |s| s.input.turns.is_empty()),
    ("one", |s| s.input.turns.len() == 1),
    ("repeated", |s| s.repeats()),
    ("the last variable", |s| {
        s.input.turns.contains(&(s.variables() as u16))
    }),
    ("more turns than variables", |s| {
        s.input.turns.len() > s.variables()
    }),
    ("wrong first", |s| {
        s.wrong() == Some(0) && s.input.turns.len() > 1
    }),
    ("wrong alone", |s| {
        s.wrong() == Some(0) && s.input.turns.len() == 1
    }),
    ("wrong last", |s| {
        s.wrong() > Some(0) && s.wrong() == s.input.turns.len().checked_sub(1)
    }),
    ("wrong in the middle", |s| {
        s.wrong()
            .is_some_and(|at| at > 0 && at + 1 < s.input.turns.len())
    }),
    ("0", |s| s.wrong_turn() == Some(0)),
    ("n + 1", |s| s.wrong_turn() == Some(s.variables() + 1)),
    ("65,535", |s| s.wrong_turn() == Some(65_535)),
    ("a variable but for a high bit", |s| {
        s.wrong_turn()
            .is_some_and(|turn| turn > 0x8000 && turn - 0x8000 <= s.variables())
    }),
];

fn assert_met(features: &[Feature]) {
    let mut met = vec![0; features.len()];
    for seen in stream(111).take(COUNT).filter_map(Seen::of) {
        count_seen(&mut met, features.iter().map(|(_, is_seen)| is_seen(&seen)));
    }
    let names: Vec<&str> = features.iter().map(|(name, _)| *name).collect();
    assert_each_met(&met, &names);
}

#[test]
fn sheets_of_every_sort() {
    assert_met(&SHEETS);
}

#[test]
fn buffers_of_every_sort() {
    assert_met(&BUFFERS);
}

#[test]
fn turns_of_every_sort() {
    assert_met(&TURNS);
}

/// Refusal 1 alone is missing, which needs a sheet of 4 GB.
#[test]
fn each_answer_is_met() {
    let mut met: BTreeMap<u32, usize> = BTreeMap::new();
    let mut places: BTreeMap<u32, BTreeSet<u64>> = BTreeMap::new();
    for input in stream(112).take(COUNT) {
        let Turned { number, place, .. } = answer(&input);
        *met.entry(number).or_default() += 1;
        places.entry(number).or_default().insert(place);
    }
    println!("{met:?}");
    let numbers: Vec<u32> = met.keys().copied().collect();
    assert_eq!(numbers, [0, 2, 3, 4, 29, 30]);
    assert!(met.values().all(|count| *count > COUNT / 100), "{met:?}");
    for number in [3, 4, 30] {
        assert!(places[&number].len() > 5, "{number}");
    }
}

#[test]
fn every_name_is_met() {
    let mut met: [BTreeSet<&str>; 3] = Default::default();
    for input in stream(113).take(COUNT) {
        for (met, what) in met.iter_mut().zip(input.what) {
            met.insert(what);
        }
    }
    let [sheets, sizes, turns] = met;
    let shapes = SHAPES.iter().chain(LARGE).map(|(what, _)| *what);
    assert!(shapes
        .chain(["an example's", "blind"])
        .all(|what| sheets.contains(what)));
    assert_eq!(sizes.len(), 5, "{sizes:?}");
    let mut lists = GOOD.iter().chain(WRONG).map(|(what, _)| *what);
    assert!(lists.all(|what| turns.contains(what)));
}

#[test]
fn same_seed_same_inputs() {
    assert!(stream(114).take(100).eq(stream(114).take(100)));
    assert!(stream(114).take(100).ne(stream(115).take(100)));
}
