//! Inputs for turning: sheets of every shape and damaged ones; buffers that are too short, fit or are longer, and hold something
//! already; and lists of turns, some with a turn that is of no variable.

pub mod shapes;
pub mod turns;

use crate::draft::assignment_length;
use crate::examples::{examples, Example};
use crate::random::Random;
use crate::writing::{damaged, Case, Listing};
use shapes::{LARGE, SHAPES};
use turns::{GOOD, WRONG};

/// The three buffers in the order of the call, or how many bytes they have.
pub const ASSIGNMENT: usize = 0;
pub const INDEX: usize = 1;
pub const COUNTS: usize = 2;

#[derive(Clone, Debug, PartialEq, Eq)]
pub struct Input {
    pub sheet: Vec<u8>,
    /// What they hold before the call.
    pub buffers: [Vec<u8>; 3],
    pub turns: Vec<u16>,
    /// How the sheet, the buffers and the turns were made.
    pub what: [&'static str; 3],
}

/// An endless stream of inputs. The same seed always gives the same ones.
pub fn stream(seed: u64) -> impl Iterator<Item = Input> {
    let mut random = Random::new(seed);
    let sheets = examples().map(|Example { sheet, .. }| sheet);
    std::iter::repeat_with(move || {
        let Case { sheet, what } = some_sheet(&sheets, &mut random);
        some_input(sheet, what, &mut random)
    })
}

fn some_sheet(examples: &[Vec<u8>], random: &mut Random) -> Case {
    match random.below(100) {
        0 => shaped(LARGE, random),
        1..=10 => {
            let sheet = random.pick(examples).expect("examples").clone();
            let what = "an example's";
            Case { sheet, what }
        }
        11..=25 => some_damaged(random),
        _ => shaped(SHAPES, random),
    }
}

/// A sheet of one of the shapes.
fn shaped(shapes: &[shapes::Shape], random: &mut Random) -> Case {
    let (what, shape) = shapes[random.below(shapes.len())];
    let sheet = shape(random).sheet();
    Case { sheet, what }
}

/// Nearly all of these are refused, with 2, 3 or 4. Where none of the faults applies, another sheet is drawn.
fn some_damaged(random: &mut Random) -> Case {
    loop {
        let (_, shape) = SHAPES[random.below(SHAPES.len())];
        let cases = damaged(&shape(random).content(), random);
        if let Some(case) = random.pick(&cases) {
            return case.clone();
        }
    }
}

/// Some buffers and some turns for a sheet.
pub fn some_input(sheet: Vec<u8>, what: &'static str, random: &mut Random) -> Input {
    let (sizes, of_sizes) = some_sizes(needed(&sheet), random);
    let (turns, of_turns) = some_turns(variables(&sheet), random);
    Input {
        buffers: sizes.map(|size| filled(size, random)),
        sheet,
        turns,
        what: [what, of_sizes, of_turns],
    }
}

/// How many variables a sheet in form has; of another, some number above 0.
fn variables(sheet: &[u8]) -> u16 {
    let listing = Listing::read(sheet);
    listing.map_or(9, |listing| listing.costs.len().max(1) as u16)
}

/// How many bytes each buffer needs for a sheet in form; for another, some numbers.
pub fn needed(sheet: &[u8]) -> [usize; 3] {
    let Some(Listing { costs, clauses, .. }) = Listing::read(sheet) else {
        return [2, 90, 6];
    };
    let literals: usize = clauses.iter().map(Vec::len).sum();
    [
        assignment_length(costs.len()),
        8 * costs.len() + 4 * literals,
        2 * clauses.len(),
    ]
}

fn some_sizes(needed: [usize; 3], random: &mut Random) -> ([usize; 3], &'static str) {
    let mut sizes = needed;
    let one = random.below(3);
    let what = match random.below(12) {
        0..=3 => "fit",
        4..=6 => {
            sizes = needed.map(|size| size + random.between(1, 20));
            "longer"
        }
        7 | 8 => {
            sizes[one] += 1;
            "one longer by a byte"
        }
        9 | 10 => {
            sizes = needed.map(|size| size + random.below(2));
            sizes[one] = needed[one].saturating_sub(1);
            "one short by a byte"
        }
        _ => {
            sizes[one] = random.below(needed[one].max(1));
            "one short"
        }
    };
    (sizes, what)
}

/// A buffer of so many bytes. None of them is 0, so that a 0 is seen to be written; the bits that an assignment does not need
/// are set in most.
fn filled(size: usize, random: &mut Random) -> Vec<u8> {
    (0..size).map(|_| random.between(1, 255) as u8).collect()
}

/// A list of turns, of which one in five has a turn of no variable.
fn some_turns(variables: u16, random: &mut Random) -> (Vec<u16>, &'static str) {
    let (what, list) = match random.percent(20) {
        true => WRONG[random.below(WRONG.len())],
        false => GOOD[random.below(GOOD.len())],
    };
    (list(variables, random), what)
}
