//! Trimming a record: the judgement's refusals, refusals 27 and 28, and what both buffers hold afterwards.

use crate::judge;
use crate::layout::{append_bodies, append_number};
use crate::record::{self, Record};
use crate::refusal::{refuse, Refusal, FEW_MARKS, SHORT_OUTPUT};
use crate::sheet;
use crate::steps::{self, Inference, Step};
use crate::Written;
use std::collections::{BTreeMap, BTreeSet};

/// The numbers of steps.
type Numbers = BTreeSet<u64>;

/// Writes the record with its last step and those that it rests on, and no other, to the start of `out`.
///
/// The mark of each step is then 1 where it was kept and 0 where it was not. The bytes past the marks and past what is
/// written stay. With a refusal both buffers stay, but for refusal 28, which is told when the marks are there.
pub fn trim(sheet: &[u8], record: &[u8], marks: &mut [u8], out: &mut [u8]) -> Written {
    Written::of(unrefused(sheet, record, marks, out))
}

/// How many bytes were written, or the first refusal. The order of the lines is the order of the refusals.
fn unrefused(
    sheet: &[u8],
    record: &[u8],
    marks: &mut [u8],
    out: &mut [u8],
) -> Result<usize, Refusal> {
    judge::unrefused(sheet, record)?;
    // A record that is not refused can be read again, so from here on no refusal comes of reading.
    let variable_count = sheet::read(sheet)?.variable_count();
    let record = record::read(record, variable_count)?;
    let steps = read_steps(&record, variable_count);
    check_marks(&record, marks)?;
    let kept = kept(&steps);
    mark(&steps, &kept, marks);
    let bytes = trimmed(&record, &steps, &kept);
    check_room(&bytes, out)?;
    out[..bytes.len()].copy_from_slice(&bytes);
    Ok(bytes.len())
}

/// The steps by their numbers, each of them in form.
fn read_steps<'a>(record: &Record<'a>, variable_count: u32) -> BTreeMap<u64, Step<'a>> {
    let read = |number: u64| {
        let step = steps::read(record.steps.body(number), variable_count);
        (number, step.expect("the record is not refused"))
    };
    (1..=record.steps.count()).map(read).collect()
}

/// Refusal 27.
fn check_marks(record: &Record, marks: &[u8]) -> Result<(), Refusal> {
    if (marks.len() as u64) < record.steps.count() {
        return refuse(FEW_MARKS, 0);
    }
    Ok(())
}

/// Refusal 28.
fn check_room(bytes: &[u8], out: &[u8]) -> Result<(), Refusal> {
    if out.len() < bytes.len() {
        return refuse(SHORT_OUTPUT, 0);
    }
    Ok(())
}

/// The last step and each that a kept one cites.
fn kept(steps: &BTreeMap<u64, Step>) -> Numbers {
    let mut kept = Numbers::new();
    let mut cited: Vec<u64> = steps.keys().last().copied().into_iter().collect();
    while let Some(number) = cited.pop() {
        if kept.insert(number) {
            cited.extend(cited_steps(&steps[&number]));
        }
    }
    kept
}

/// The steps that a step cites. What the other kinds cite are clauses, if anything.
fn cited_steps(step: &Step) -> Vec<u64> {
    match step.inference {
        Inference::Resolution { a, b, .. } => vec![a, b],
        Inference::Clause(_)
        | Inference::Cost
        | Inference::IndependentSet(_)
        | Inference::WeightedClauses { .. } => vec![],
    }
}

/// Gives each step its mark, the first byte being that of step 1.
fn mark(steps: &BTreeMap<u64, Step>, kept: &Numbers, marks: &mut [u8]) {
    for (number, byte) in steps.keys().zip(marks) {
        *byte = u8::from(kept.contains(number));
    }
}

/// The bytes of the record with the kept steps alone. The claim and the assignment stay as they are.
fn trimmed(record: &Record, steps: &BTreeMap<u64, Step>, kept: &Numbers) -> Vec<u8> {
    let new_numbers: BTreeMap<u64, u64> = kept.iter().copied().zip(1..).collect();
    let body = |number: &u64| renumbered(record.steps.body(*number), &steps[number], &new_numbers);
    let bodies: Vec<Vec<u8>> = kept.iter().map(body).collect();
    let mut file = Vec::new();
    append_number(&mut file, u128::from(record.claim), 8);
    append_number(&mut file, bodies.len() as u128, 4);
    file.extend(record.assignment_bits);
    append_bodies(&mut file, &bodies);
    file
}

/// The body of a kept step, citing steps by their new numbers. These have as many bytes as the old ones.
fn renumbered(body: &[u8], step: &Step, new_numbers: &BTreeMap<u64, u64>) -> Vec<u8> {
    let Inference::Resolution { a, b, pivot } = step.inference else {
        return body.to_vec();
    };
    let mut bytes = body[..steps::HEAD_SIZE + step.literal_bytes.len()].to_vec();
    append_number(&mut bytes, u128::from(new_numbers[&a]), 4);
    append_number(&mut bytes, u128::from(new_numbers[&b]), 4);
    append_number(&mut bytes, u128::from(pivot), 2);
    bytes
}
