//! Sheets for the search: small ones of which every budget can be tried, sheets of as many variables or clauses as a search
//! takes, which need few choices all the same, and damaged ones.

pub mod large;
pub mod small;

use crate::random::Random;
use crate::sheets;
use crate::writing::{self, Case, Content};
use planner::{format, Literal, Problem};

/// As many variables as a sheet may have to be searched.
pub const MOST_SEARCHED: usize = 64;

/// How a problem is made, by a name.
pub type Shape = (&'static str, fn(&mut Random) -> Problem);

/// An endless stream of small sheets, one of each shape after the other. The same seed always gives the same ones.
pub fn small(seed: u64) -> impl Iterator<Item = Case> {
    stream(small::SHAPES, seed)
}

/// The same of sheets with as many variables or clauses as a search takes.
pub fn large(seed: u64) -> impl Iterator<Item = Case> {
    stream(large::SHAPES, seed)
}

fn stream(shapes: &'static [Shape], seed: u64) -> impl Iterator<Item = Case> {
    let mut random = Random::new(seed);
    let turns = shapes.iter().cycle();
    turns.map(move |(what, shape)| case(&shape(&mut random), what))
}

fn case(problem: &Problem, what: &'static str) -> Case {
    let sheet = format::sheet(problem);
    Case { sheet, what }
}

/// An endless stream of sheets that are too wide by themselves, and of nothing else that is wrong.
pub fn too_wide(seed: u64) -> impl Iterator<Item = Case> {
    let mut random = Random::new(seed);
    std::iter::repeat_with(move || {
        let variables = [MOST_SEARCHED + 1, random.between(66, 200)][random.below(2)];
        case(
            &large::tied(variables, &mut random),
            "26 too many variables",
        )
    })
}

/// An endless stream of damaged sheets, small, of 64 variables, and of more. What is wrong with a sheet is told before it is
/// told that it is too wide.
pub fn damaged(seed: u64) -> impl Iterator<Item = Case> {
    let mut random = Random::new(seed);
    std::iter::repeat_with(move || {
        let problem = match random.below(4) {
            0 => small::any(&mut random),
            1 => large::tied(MOST_SEARCHED, &mut random),
            2 => large::tied(MOST_SEARCHED + 1, &mut random),
            _ => sheets::wide(&mut random),
        };
        writing::damaged(&Content::of(&problem), &mut random)
    })
    .flatten()
}

/// A value for each variable.
fn some_values(variables: usize, random: &mut Random) -> Vec<bool> {
    (0..variables).map(|_| random.percent(50)).collect()
}

/// A clause in the order of the file.
fn sorted(mut clause: Vec<Literal>) -> Vec<Literal> {
    clause.sort_unstable();
    clause
}
