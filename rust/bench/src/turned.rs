//! What the turners are measured on. All sheets have as many variables and clauses as there may be; they differ in how long the
//! clauses are, and so in how many of them a turn touches.

use crate::Turn;
use planner::{format, Problem, MOST_CLAUSES, MOST_VARIABLES};
use proved::Turned;
use samples::random::Random;
use samples::sheets::{problem, Costs, Shape};

/// How long a clause is drawn.
pub type Length = fn(&mut Random) -> usize;

/// The sets by their names: the literals of each clause. For the last one it is drawn how many there may be, from 1 to 512.
pub const SETS: [(&str, Length); 4] = [
    ("3", |_| 3),
    ("10", |_| 10),
    ("100", |_| 100),
    ("mixed", |random| {
        let most = 1 << random.below(10);
        random.between(1, most)
    }),
];

/// How many turns are timed; how many are counted afresh, for which all would take minutes; and how many are done where
/// instructions are counted.
pub const TURNS: usize = 1_000_000;
pub const AFRESH: usize = 200;
pub const COUNTED: usize = 10_000;

const SEED: u64 = 11;

/// A sheet with an assignment and turns to do.
pub struct Work {
    pub sheet: Vec<u8>,
    pub assignment: Vec<u8>,
    pub turns: Vec<u16>,
}

/// The work of a set, the same at every call.
pub fn work(set: &str) -> Option<Work> {
    let (_, length) = SETS.into_iter().find(|(name, _)| *name == set)?;
    let random = &mut Random::new(SEED);
    let mut sheet = drawn(1, random);
    sheet.clauses.clear();
    while sheet.clauses.len() < MOST_CLAUSES {
        let length = length(random);
        sheet.clauses.append(&mut drawn(length, random).clauses);
    }
    let values: Vec<bool> = (0..MOST_VARIABLES).map(|_| random.percent(50)).collect();
    let mut turn = || random.between(1, MOST_VARIABLES) as u16;
    Some(Work {
        sheet: format::sheet(&sheet),
        assignment: format::assignment_bytes(&values),
        turns: (0..TURNS).map(|_| turn()).collect(),
    })
}

/// A problem of one clause, of this length and of both signs.
fn drawn(length: usize, random: &mut Random) -> Problem {
    let shape = Shape {
        variables: MOST_VARIABLES,
        clauses: 1,
        shortest: length,
        longest: length,
        positive: 50,
        costs: Costs::Any,
    };
    problem(&shape, random)
}

/// What a turner writes.
#[derive(Clone, PartialEq, Eq)]
pub struct Buffers {
    pub assignment: Vec<u8>,
    pub index: Vec<u8>,
    pub counts: Vec<u8>,
}

impl Buffers {
    /// With room for the index of any sheet of this length, which has less than a literal for every two bytes.
    pub fn new(work: &Work) -> Self {
        Buffers {
            assignment: work.assignment.clone(),
            index: vec![0; 8 * MOST_VARIABLES + 2 * work.sheet.len()],
            counts: vec![0; 2 * MOST_CLAUSES],
        }
    }

    /// Does some of the turns, from the assignment of the work.
    pub fn run(&mut self, turn: Turn, work: &Work, turns: &[u16]) -> Turned {
        self.assignment.copy_from_slice(&work.assignment);
        turn(
            &work.sheet,
            &mut self.assignment,
            turns,
            &mut self.index,
            &mut self.counts,
        )
    }
}

/// What the first of the turners answers to these turns, where all the others answer the same and leave the same bytes: they
/// have to do the same work, and one that refuses would be done early.
pub fn same_work(turners: &[(&str, Turn)], work: &Work, turns: &[u16]) -> Result<Turned, String> {
    let mut first: Option<(Turned, Buffers)> = None;
    for &(name, turn) in turners {
        let mut buffers = Buffers::new(work);
        let answer = buffers.run(turn, work, turns);
        let (wanted, left) = first.get_or_insert_with(|| (answer, buffers.clone()));
        let differs = [
            (answer.number != 0, "refuses"),
            (answer != *wanted, "answers otherwise"),
            (buffers.assignment != left.assignment, "assigns otherwise"),
            (buffers.index != left.index, "has another index"),
            (buffers.counts != left.counts, "counts otherwise"),
        ];
        if let Some((_, how)) = differs.into_iter().find(|(differs, _)| *differs) {
            return Err(format!("{name} {how}: {answer:?}"));
        }
    }
    first
        .map(|(answer, _)| answer)
        .ok_or("nothing turns".into())
}
