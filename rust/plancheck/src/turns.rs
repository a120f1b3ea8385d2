//! A sheet's clauses while its variables are turned one by one, as lines. Every turn is the proved library's, and so is every
//! count: what it has counted before and after a turn is compared here.

use crate::record::{is_true, width, Record};
use crate::sheet::Sheet;
use planner::{MOST_CLAUSES, MOST_VARIABLES};
use proved::Turned;
use std::collections::BTreeSet;

/// How many bytes the counts have for a clause.
const COUNT: usize = 2;

/// As many bytes as the index of the largest sheet takes: no clause has a variable twice.
const MOST_INDEX: usize = 8 * MOST_VARIABLES + 4 * MOST_VARIABLES * MOST_CLAUSES;

/// How many clauses of a list a person gets to see.
pub const SHOWN: usize = 20;

/// An assignment of a sheet's variables, with what the last turn has left.
#[derive(Clone, Debug)]
pub struct Trial<'a> {
    sheet: &'a [u8],
    pub variables: usize,
    clauses: usize,
    assignment: Vec<u8>,
    index: Vec<u8>,
    counts: Vec<u8>,
}

/// What a turn has done to the clauses, and how many are broken after it.
#[derive(Clone, Debug, PartialEq, Eq)]
pub struct Change {
    pub mended: Vec<usize>,
    pub broke: Vec<usize>,
    pub total: u64,
}

impl<'a> Trial<'a> {
    /// Every variable is false, and nothing is counted yet. The buffers do for every valid sheet, so that the size of this one,
    /// which may be none, does not matter.
    pub fn new(bytes: &'a [u8]) -> Self {
        let sheet = Sheet::open(bytes);
        Trial {
            sheet: bytes,
            variables: sheet.map_or(0, |sheet| sheet.variables),
            clauses: sheet.map_or(0, |sheet| sheet.clauses.count()),
            assignment: vec![0; width(MOST_VARIABLES)],
            index: vec![0; MOST_INDEX],
            counts: vec![0; COUNT * MOST_CLAUSES],
        }
    }

    /// Takes the assignment of a record, whatever else is in it. Nothing where the file is too short to have one.
    pub fn assign(&mut self, record: &[u8]) -> Option<()> {
        let bits = Record::open(record, self.variables)?.bits;
        self.assignment.get_mut(..bits.len())?.copy_from_slice(bits);
        Some(())
    }

    /// Turns variables, or gives the refusal, which leaves everything as it was.
    pub fn turn(&mut self, turns: &[u16]) -> Result<Change, Turned> {
        let before = self.broken();
        let turned = proved::turn(
            self.sheet,
            &mut self.assignment,
            turns,
            &mut self.index,
            &mut self.counts,
        );
        if turned.number != 0 {
            return Err(turned);
        }
        let after = self.broken();
        Ok(Change {
            mended: before.difference(&after).copied().collect(),
            broke: after.difference(&before).copied().collect(),
            total: turned.total,
        })
    }

    /// The clauses of which the last turn has left no literal true.
    pub fn broken(&self) -> BTreeSet<usize> {
        let counts = self.counts.chunks_exact(COUNT).take(self.clauses);
        let numbered = (1..).zip(counts);
        let broken = numbered.filter(|(_, count)| count.iter().all(|byte| *byte == 0));
        broken.map(|(number, _)| number).collect()
    }

    pub fn is_true(&self, variable: u16) -> bool {
        is_true(&self.assignment, variable.into())
    }
}

/// What is broken before any turn.
pub fn start_line(broken: &BTreeSet<usize>, total: u64, most: usize) -> String {
    let numbers: Vec<usize> = broken.iter().copied().collect();
    match numbers.is_empty() {
        true => format!("start: {total} broken"),
        false => format!("start: {total} broken:{}", listed(&numbers, most)),
    }
}

/// A variable with its new value, and what has changed by it.
pub fn turn_line(variable: u16, value: bool, change: &Change, most: usize) -> String {
    let lists = [("mended", &change.mended), ("broke", &change.broke)];
    let lists = lists.iter().filter(|(_, numbers)| !numbers.is_empty());
    let told = lists.map(|(word, numbers)| format!("{word}{}", listed(numbers, most)));
    let told = match told.collect::<Vec<_>>() {
        told if told.is_empty() => "no change".to_string(),
        told => told.join(", "),
    };
    format!("{variable} {value}: {told}; {} broken", change.total)
}

/// Each clause after a space, the first `most` of them, and how many there are beside these.
fn listed(numbers: &[usize], most: usize) -> String {
    let shown = numbers.iter().take(most);
    let list: String = shown.map(|number| format!(" {number}")).collect();
    match numbers.len().saturating_sub(most) {
        0 => list,
        more => format!("{list} and {more} more"),
    }
}
