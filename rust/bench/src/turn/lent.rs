//! What the turners are lent, and what all of them do with it.

use crate::read::{code, fault, pair, Fault, CODES};
use crate::refusal;
use crate::sheet::{Parts, VARIABLES};
use std::ops::Range;

/// A valid sheet, and the buffers up to where they are written.
pub struct Lent<'a> {
    pub parts: Parts<'a>,
    assignment: &'a mut [u8],
    /// The index: a pair for each variable, and the numbers of clauses.
    pub pairs: &'a mut [[u8; 8]],
    pub numbers: &'a mut [[u8; 4]],
    pub counts: &'a mut [[u8; 2]],
}

impl<'a> Lent<'a> {
    /// Every refusal there is: those of the sheet, then 29, then 30.
    pub fn new(
        sheet: &'a [u8],
        assignment: &'a mut [u8],
        turns: &[u16],
        index: &'a mut [u8],
        counts: &'a mut [u8],
    ) -> Result<Self, Fault> {
        let parts = Parts::alone(sheet)?;
        let (n, m) = (parts.costs.len(), parts.clause_count());
        let literals = parts.all_literals().len();
        let (Some(assignment), Some(index), Some(counts)) = (
            assignment.get_mut(..n.div_ceil(8)),
            index.get_mut(..8 * n + 4 * literals),
            counts.get_mut(..2 * m),
        ) else {
            return fault(refusal::SHORT_TURNING, 0);
        };
        check(turns, n as u16)?;
        let (pairs, numbers) = index.split_at_mut(8 * n);
        Ok(Lent {
            parts,
            assignment,
            pairs: pairs.as_chunks_mut().0,
            numbers: numbers.as_chunks_mut().0,
            counts: counts.as_chunks_mut().0,
        })
    }

    /// Writes the index: what stands for each literal is told by its clause's number and its code.
    #[inline(always)]
    pub fn enter_all(&mut self, entry: impl Fn(usize, usize) -> u32) {
        let mut next = self.put_pairs();
        let mut literals = self.parts.all_literals();
        for (place, length) in self.parts.clause_lengths().enumerate() {
            let (clause, rest) = literals.split_at(length);
            for &stored in clause {
                let code = code(stored);
                let next = &mut next[code / 2 % VARIABLES];
                self.numbers[*next as usize] = entry(place + 1, code).to_le_bytes();
                *next += 1;
            }
            literals = rest;
        }
    }

    /// Writes the pairs, and gives for each variable where its numbers begin.
    fn put_pairs(&mut self) -> [u32; VARIABLES] {
        let mut places = [0; VARIABLES];
        for &stored in self.parts.all_literals() {
            places[code(stored) / 2 % VARIABLES] += 1;
        }
        let (mut next, front) = (0, self.pairs.len() as u64 * 8);
        for (index, pair) in self.pairs.iter_mut().enumerate() {
            let place = &mut places[(index + 1) % VARIABLES];
            let (offset, length) = (front + 4 * u64::from(next), 4 * u64::from(*place));
            *pair = (offset | length << 32).to_le_bytes();
            next += std::mem::replace(place, next);
        }
        places
    }

    pub fn truths(&self) -> Truths {
        let mut truths = Truths([0; CODES]);
        for index in 0..self.pairs.len() {
            let bit = self.assignment[index / 8] >> (index % 8) & 1;
            let positive = 2 * index + 2;
            truths.0[positive % CODES] = bit;
            truths.0[(positive + 1) % CODES] = 1 - bit;
        }
        truths
    }

    /// Counts the true literals of every clause, and gives how many clauses have none.
    pub fn count_all(&mut self, truths: &Truths) -> u64 {
        let mut literals = self.parts.all_literals();
        let mut total = 0;
        for (length, count) in self.parts.clause_lengths().zip(&mut *self.counts) {
            let (clause, rest) = literals.split_at(length);
            let true_ones = clause.iter().map(|&stored| truths.of(code(stored)));
            let sum: u16 = true_ones.sum();
            *count = sum.to_le_bytes();
            total += u64::from(sum == 0);
            literals = rest;
        }
        total
    }

    /// Turns a variable; 1 where it was true.
    #[inline(always)]
    pub fn switch(&mut self, turn: u16) -> u16 {
        let index = usize::from(turn) - 1;
        let byte = &mut self.assignment[index / 8];
        let was = *byte >> (index % 8) & 1;
        *byte ^= 1 << (index % 8);
        u16::from(was)
    }
}

/// Refusal 30, at the first turn that is of no variable. Whether there is one is asked of all turns at once.
fn check(turns: &[u16], n: u16) -> Result<(), Fault> {
    let is_wrong = |turn: u16| turn.wrapping_sub(1) >= n;
    let any = turns.iter().fold(false, |any, &turn| any | is_wrong(turn));
    let first = turns.iter().position(|&turn| any && is_wrong(turn));
    first.map_or(Ok(()), |place| fault(refusal::NO_VARIABLE, place + 1))
}

/// Where the numbers of a variable's clauses stand, among all numbers.
#[inline(always)]
pub fn list(pairs: &[[u8; 8]], turn: u16) -> Range<usize> {
    let (offset, length) = pair(pairs[usize::from(turn) - 1]);
    let start = offset / 4 - 2 * pairs.len();
    start..start + length / 4
}

/// For each code, 1 where its literal is true: so that counting asks for no bit.
pub struct Truths([u8; CODES]);

impl Truths {
    fn of(&self, code: usize) -> u16 {
        u16::from(self.0[code % CODES])
    }

    pub fn switch(&mut self, turn: u16) {
        let positive = 2 * usize::from(turn);
        self.0[positive % CODES] ^= 1;
        self.0[(positive + 1) % CODES] ^= 1;
    }
}
