//! A record without the steps that its last one does not rest on. There are two trimmers, which differ in what they copy at
//! once. Both make the whole work: the judgement, refusal 27 where there are fewer marks than steps, and 28 where the output is
//! too short.

use crate::judge::judge;
use crate::read::{code, fault, number, pair, Codes, Fault};
use crate::record::Record;
use crate::refusal;
use crate::resolve::{Marks, Resolve};
use crate::sheet::MARK;
use crate::write::answer;
use proved::{Answer, Written};
use std::mem;

/// Trims a record body by body: the kept steps are listed as they are marked, and the list is gone through.
pub fn trim_listed(sheet: &[u8], record: &[u8], marks: &mut [u8], out: &mut [u8]) -> Written {
    answer(trim::<Listed>(sheet, record, marks, out))
}

/// Trims a record by its marks: what stands side by side before and after is copied at once.
pub fn trim_runs(sheet: &[u8], record: &[u8], marks: &mut [u8], out: &mut [u8]) -> Written {
    answer(trim::<Runs>(sheet, record, marks, out))
}

/// A way to copy what is kept.
trait Copies {
    fn new(steps: usize) -> Self;

    /// Each kept step is told by its index, from the last one back.
    fn keep(&mut self, index: usize);

    /// Copies the bodies of the kept steps, and enters each of them.
    fn put(self, record: &Record, marks: &[u8], bodies: &mut [u8], table: Table);
}

/// The length of the trimmed record.
fn trim<C: Copies>(
    sheet: &[u8],
    record: &[u8],
    marks: &mut [u8],
    out: &mut [u8],
) -> Result<usize, Fault> {
    let record = judged(sheet, record)?;
    let steps = record.pairs.len();
    let Some(marks) = marks.get_mut(..steps) else {
        return fault(refusal::FEW_MARKS, 0);
    };
    let mut copies = C::new(steps);
    let (count, size) = mark(&record, marks, |index| copies.keep(index));
    let head = 12 + record.assignment.len();
    let start = head + 8 * count;
    let Some(out) = out.get_mut(..start + size) else {
        return fault(refusal::SHORT_OUTPUT, 0);
    };
    let (front, bodies) = out.split_at_mut(start);
    let (front, pairs) = front.split_at_mut(head);
    front.copy_from_slice(&record.bytes[..head]);
    front[8..12].copy_from_slice(&(count as u32).to_le_bytes());
    let table = Table::new(steps, start, pairs.as_chunks_mut().0);
    copies.put(&record, marks, bodies, table);
    Ok(start + size)
}

/// The faster way to tell a resolution under another name. So the judgement of the trimmers is compiled apart from the one that
/// is measured alone, which would take more instructions if it were called from here too.
struct OwnMarks(Marks);

impl Resolve for OwnMarks {
    fn new() -> Self {
        OwnMarks(Marks::new())
    }

    fn resolves(&mut self, a: Codes, b: Codes, pivot: usize, d: Codes) -> bool {
        self.0.resolves(a, b, pivot, d)
    }
}

/// The parts of a record that is not refused. It is not put into its callers, for the same reason.
#[inline(never)]
fn judged<'a>(sheet: &[u8], record: &'a [u8]) -> Result<Record<'a>, Fault> {
    let Answer { number, place, .. } = judge::<OwnMarks>(sheet, record);
    match (number, sheet) {
        (0, &[a, b, ..]) => Record::read(record, code([a, b]) % MARK),
        _ => Err(Fault { number, place }),
    }
}

/// Marks the kept steps, from the last one back, since what cites a step comes after it; gives how many there are, and how many
/// bytes their bodies have. Whether a step is a resolution cannot be guessed: another one marks itself again.
fn mark(record: &Record, marks: &mut [u8], mut keep: impl FnMut(usize)) -> (usize, usize) {
    marks.fill(0);
    if let Some(last) = marks.last_mut() {
        *last = 1;
    }
    let (mut count, mut size) = (0, 0);
    for (index, &stored) in record.pairs.iter().enumerate().rev() {
        if marks[index] == 0 {
            continue;
        }
        let (offset, length) = pair(stored);
        keep(index);
        count += 1;
        size += length;
        let body = &record.bytes[offset..offset + length];
        let is_resolution = body[0] == 4;
        for cited in body.last_chunk().map_or([[0; 4]; 2], citations) {
            let other = if is_resolution {
                number(cited) - 1
            } else {
                index
            };
            marks[other] = 1;
        }
    }
    (count, size)
}

/// What a resolution cites, in the last bytes of its body: a step, another, and the pivot.
fn citations(&[a, b, c, d, e, f, g, h, ..]: &[u8; 10]) -> [[u8; 4]; 2] {
    [[a, b, c, d], [e, f, g, h]]
}

/// The pairs of the trimmed record, and the new numbers of the steps that were entered.
struct Table<'a> {
    numbers: Vec<u32>,
    count: usize,
    offset: usize,
    pairs: &'a mut [[u8; 8]],
}

impl<'a> Table<'a> {
    /// The bodies start at the offset.
    fn new(steps: usize, offset: usize, pairs: &'a mut [[u8; 8]]) -> Self {
        Table {
            numbers: vec![0; steps],
            count: 0,
            offset,
            pairs,
        }
    }

    /// Enters the next kept step, of this index in the record, and renumbers what its copied body cites: that was entered
    /// before it. The last bytes of another kind are written as they are.
    #[inline(always)]
    fn enter(&mut self, index: usize, body: &mut [u8]) {
        let length = body.len();
        self.pairs[self.count] = (self.offset as u64 | (length as u64) << 32).to_le_bytes();
        self.offset += length;
        self.count += 1;
        self.numbers[index] = self.count as u32;
        let is_resolution = body[0] == 4;
        let renumbered = |cited| {
            let step = if is_resolution {
                number(cited) - 1
            } else {
                index
            };
            let new = self.numbers[step].to_le_bytes();
            if is_resolution {
                new
            } else {
                cited
            }
        };
        if let Some(tail) = body.last_chunk_mut::<10>() {
            let cited = citations(tail).map(renumbered);
            tail[..8].copy_from_slice(cited.as_flattened());
        }
    }
}

/// The kept steps by their indices, from the last one back. Which of all steps are kept cannot be guessed: with the list it has
/// to be asked once only.
struct Listed(Vec<u32>);

impl Copies for Listed {
    fn new(steps: usize) -> Self {
        Listed(Vec::with_capacity(steps))
    }

    fn keep(&mut self, index: usize) {
        self.0.push(index as u32);
    }

    fn put(self, record: &Record, _: &[u8], mut bodies: &mut [u8], mut table: Table) {
        for index in self.0.into_iter().rev() {
            let index = index as usize;
            let (offset, length) = pair(record.pairs[index]);
            let (body, rest) = mem::take(&mut bodies).split_at_mut(length);
            body.copy_from_slice(&record.bytes[offset..offset + length]);
            table.enter(index, body);
            bodies = rest;
        }
    }
}

/// Nothing but the marks.
struct Runs;

impl Copies for Runs {
    fn new(_: usize) -> Self {
        Runs
    }

    fn keep(&mut self, _: usize) {}

    fn put(self, record: &Record, marks: &[u8], mut bodies: &mut [u8], mut table: Table) {
        let mut index = 0;
        for run in marks.chunk_by(|a, b| a == b) {
            let steps = &record.pairs[index..index + run.len()];
            if let (1, &[first, ..], &[.., last]) = (run[0], steps, steps) {
                let ((start, _), (offset, length)) = (pair(first), pair(last));
                let copied = &record.bytes[start..offset + length];
                let (mut copies, rest) = mem::take(&mut bodies).split_at_mut(copied.len());
                copies.copy_from_slice(copied);
                for (place, &stored) in steps.iter().enumerate() {
                    let (body, after) = copies.split_at_mut(pair(stored).1);
                    table.enter(index + place, body);
                    copies = after;
                }
                bodies = rest;
            }
            index += run.len();
        }
    }
}
