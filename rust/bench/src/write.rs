//! The one way to write a sheet: its clauses sorted by their codes, each of them once. There are two writers, which differ in
//! what they sort. Both make the whole work: refusals 1 to 4 of the sheet, and 25 where the buffer is too short.

use crate::read::{fault, Codes, Fault};
use crate::refusal;
use crate::sheet::{Parts, MARK};
use proved::Written;
use std::cmp::Ordering;
use std::mem;

/// Writes a sheet by numbers: every code is read once, and the lists that are compared are of those.
pub fn write_decoded(sheet: &[u8], out: &mut [u8]) -> Written {
    answer(Parts::alone(sheet).and_then(|parts| {
        let all = parts.all_literals().iter().copied();
        let all: Vec<u16> = all.map(u16::from_le_bytes).collect();
        let mut clauses = parts.by_clause(&all);
        clauses.sort_unstable();
        clauses.dedup();
        put(&parts, &clauses, out)
    }))
}

/// Writes a sheet by its own bytes: codes are compared where they are stored, and read as often as they are compared.
pub fn write_stored(sheet: &[u8], out: &mut [u8]) -> Written {
    answer(Parts::alone(sheet).and_then(|parts| {
        let mut clauses = parts.by_clause(parts.all_literals());
        clauses.sort_unstable_by(|a, b| compare(a, b));
        clauses.dedup();
        put(&parts, &clauses, out)
    }))
}

/// As numbers, not as bytes: the lower byte of a code comes first. A beginning that both have is gone through by sixteens.
fn compare(a: Codes, b: Codes) -> Ordering {
    let sixteens = a.as_chunks::<16>().0.iter().zip(b.as_chunks::<16>().0);
    let common = 16 * sixteens.take_while(|(a, b)| a == b).count();
    let number = |&stored| u16::from_le_bytes(stored);
    let [a, b] = [a, b].map(|list| list[common..].iter().map(number));
    a.cmp(b)
}

/// What a writer or a trimmer answers that has written so many bytes, or none.
pub(crate) fn answer(done: Result<usize, Fault>) -> Written {
    let (number, place, length) = match done {
        Ok(length) => (0, 0, length as u64),
        Err(Fault { number, place }) => (number, place, 0),
    };
    Written {
        number,
        place,
        length,
    }
}

/// A literal's code, as a number or as it is stored.
trait Code: Copy {
    fn stored(self) -> [u8; 2];
}

impl Code for u16 {
    fn stored(self) -> [u8; 2] {
        self.to_le_bytes()
    }
}

impl Code for [u8; 2] {
    fn stored(self) -> [u8; 2] {
        self
    }
}

/// Writes the sheet's costs, its loss where that is not 0 and these clauses, and gives the length; refusal 25 where they have
/// no room.
fn put<C: Code>(parts: &Parts, clauses: &[&[C]], out: &mut [u8]) -> Result<usize, Fault> {
    let (n, m) = (parts.costs.len(), clauses.len());
    let stored = parts.loss.to_le_bytes();
    let (mark, loss) = match parts.loss {
        0 => (0, &[][..]),
        _ => (MARK, &stored[..]),
    };
    let start = 4 + 4 * n + loss.len() + 8 * m;
    let literals: usize = clauses.iter().map(|clause| clause.len()).sum();
    let length = start + 2 * literals;
    let Some(out) = out.get_mut(..length) else {
        return fault(refusal::SHORT_BUFFER, 0);
    };
    let (front, bodies) = out.split_at_mut(start);
    let (head, rest) = front.split_at_mut(4);
    head[..2].copy_from_slice(&((n | mark) as u16).to_le_bytes());
    head[2..].copy_from_slice(&(m as u16).to_le_bytes());
    let (costs, rest) = rest.split_at_mut(4 * n);
    costs.copy_from_slice(parts.costs.as_flattened());
    let (place, pairs) = rest.split_at_mut(loss.len());
    place.copy_from_slice(loss);
    put_clauses(clauses, start, pairs.as_chunks_mut().0, bodies);
    Ok(length)
}

fn put_clauses<C: Code>(
    clauses: &[&[C]],
    mut offset: usize,
    pairs: &mut [[u8; 8]],
    mut bodies: &mut [u8],
) {
    for (clause, pair) in clauses.iter().zip(pairs) {
        let length = 2 * clause.len();
        *pair = (offset as u64 | (length as u64) << 32).to_le_bytes();
        let (body, rest) = mem::take(&mut bodies).split_at_mut(length);
        for (place, code) in body.as_chunks_mut().0.iter_mut().zip(*clause) {
            *place = code.stored();
        }
        offset += length;
        bodies = rest;
    }
}
