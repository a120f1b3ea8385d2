//! What turning answers and leaves in its three buffers, and what it should, found out by lists of literal codes, one
//! clause or variable at a time.

use super::writer::buffer;
use super::*;
use reference::{turn, Turned};

/// The answer where the turns were done.
pub fn turned(total: u64) -> Turned {
    Turned {
        number: 0,
        place: 0,
        total,
    }
}

/// The answer where nothing was done.
pub fn not_turned(number: u32, place: u64) -> Turned {
    Turned {
        number,
        place,
        total: 0,
    }
}

/// The assignment, the index and the counts.
pub type Buffers = [Vec<u8>; 3];

/// The answer, and what the buffers hold afterwards.
pub fn turn_in(sheet: &[u8], turns: &[u16], buffers: &Buffers) -> (Turned, Buffers) {
    let [mut assignment, mut index, mut counts] = buffers.clone();
    let answer = turn(sheet, &mut assignment, turns, &mut index, &mut counts);
    (answer, [assignment, index, counts])
}

/// How many bytes a sheet of this many variables and these clauses needs of each buffer.
pub fn needed(variable_count: usize, clauses: &[Vec<u16>]) -> [usize; 3] {
    let literal_count = clauses.concat().len();
    [
        variable_count.div_ceil(8),
        8 * variable_count + 4 * literal_count,
        2 * clauses.len(),
    ]
}

/// Buffers of these lengths, of which the first begins with these bits.
pub fn lent(bits: &[u8], lengths: [usize; 3]) -> Buffers {
    let [assignment, index, counts] = lengths.map(buffer);
    [edited(&assignment, 0, bits), index, counts]
}

/// Whether a literal is true, by the bits of the variables.
fn is_true(bits: &[u8], code: u16) -> bool {
    let index = usize::from(code / 2 - 1);
    let is_set = bits[index / 8] >> (index % 8) & 1 == 1;
    is_set == code.is_multiple_of(2)
}

/// The bits with one variable's switched.
pub fn switched(bits: &[u8], variable: u16) -> Vec<u8> {
    let mut bits = bits.to_vec();
    let index = usize::from(variable - 1);
    bits[index / 8] ^= 1 << (index % 8);
    bits
}

/// How many literals of each clause are true.
pub fn counted(bits: &[u8], clauses: &[Vec<u16>]) -> Vec<u16> {
    let count = |clause: &Vec<u16>| clause.iter().filter(|code| is_true(bits, **code)).count();
    clauses.iter().map(|clause| count(clause) as u16).collect()
}

/// The index: for each variable in turn all clauses are asked whether they mention it.
pub fn indexed(variable_count: u16, clauses: &[Vec<u16>]) -> Vec<u8> {
    let mentions = |clause: &[u16], variable| clause.iter().any(|code| code / 2 == variable);
    let body = |variable: u16| {
        let numbers = (1..=clauses.len()).filter(|k| mentions(&clauses[k - 1], variable));
        let numbers: Vec<u32> = numbers.map(|number| number as u32).collect();
        four_bytes(&numbers)
    };
    let bodies: Vec<Vec<u8>> = (1..=variable_count).map(body).collect();
    with_bodies(vec![], &bodies)
}

/// What turning comes to in these buffers, which are long enough, by the sentences themselves.
pub fn expected(
    variable_count: u16,
    clauses: &[Vec<u16>],
    turns: &[u16],
    buffers: &Buffers,
) -> (Turned, Buffers) {
    let [assignment, index, counts] = buffers;
    let assignment = turns
        .iter()
        .fold(assignment.clone(), |a, v| switched(&a, *v));
    let new_counts = counted(&assignment, clauses);
    let total = new_counts.iter().filter(|count| **count == 0).count();
    let index = edited(index, 0, &indexed(variable_count, clauses));
    let counts = edited(counts, 0, &two_bytes(&new_counts));
    (turned(total as u64), [assignment, index, counts])
}

/// A sheet as lists, in which every variable costs 1.
#[derive(Clone, Debug)]
pub struct Lists {
    pub variable_count: u16,
    pub clauses: Vec<Vec<u16>>,
}

impl Lists {
    pub fn sheet(&self) -> Vec<u8> {
        let clauses: Vec<&[u16]> = self.clauses.iter().map(Vec::as_slice).collect();
        sheet(&vec![1; self.variable_count.into()], &clauses)
    }

    pub fn needed(&self) -> [usize; 3] {
        needed(self.variable_count.into(), &self.clauses)
    }

    /// Turning is as it should be from these bits, with and without a mark, in buffers that fit and in longer ones.
    pub fn assert_turned(&self, bits: &[u8], turns: &[u16]) {
        for longer in [[0, 0, 0], [1, 0, 0], [0, 1, 0], [0, 0, 1], [5, 70, 9]] {
            let lengths = [0, 1, 2].map(|at| self.needed()[at] + longer[at]);
            let buffers = lent(bits, lengths);
            let expected = expected(self.variable_count, &self.clauses, turns, &buffers);
            for sheet in [self.sheet(), marked(7, &self.sheet())] {
                assert_eq!(turn_in(&sheet, turns, &buffers), expected);
            }
        }
    }

    /// Turning is refused with this in buffers of these lengths, and leaves them.
    pub fn assert_refused(&self, turns: &[u16], lengths: [usize; 3], number: u32, place: u64) {
        let buffers = lengths.map(buffer);
        let left = turn_in(&self.sheet(), turns, &buffers);
        assert_eq!(left, (not_turned(number, place), buffers));
    }
}
