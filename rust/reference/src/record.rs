//! Reading a record: refusals 5, 6 and 7. The step bodies are opened later, one at a time.

use crate::assignment::Assignment;
use crate::layout::{self, length, number, Bodies};
use crate::refusal::{refuse, Refusal, RECORD_HEAD, RECORD_PAIRS, STRAY_BIT};
use crate::NONE;

/// A record whose head, assignment and pairs are in order.
pub(crate) struct Record<'a> {
    pub claim: u64,
    pub assignment: Assignment,
    /// The assignment as it is stored.
    pub assignment_bits: &'a [u8],
    pub steps: Bodies<'a>,
}

impl Record<'_> {
    pub fn claims_none(&self) -> bool {
        self.claim == NONE
    }
}

/// The parts of a record up to its pairs.
struct Head<'a> {
    claim: u64,
    step_count: u64,
    assignment_bits: &'a [u8],
}

/// The claim and the number of steps take 12 bytes; the assignment follows.
pub(crate) const ASSIGNMENT_START: usize = 12;

/// The record, or the first of refusals 5 to 7 that it meets.
pub(crate) fn read(file: &[u8], variable_count: u32) -> Result<Record<'_>, Refusal> {
    let head = read_head(file, variable_count)?;
    check_stray_bits(&head, variable_count)?;
    let steps = read_bodies(file, &head)?;
    Ok(Record {
        claim: head.claim,
        assignment: Assignment::from_bits(head.assignment_bits, variable_count),
        assignment_bits: head.assignment_bits,
        steps,
    })
}

/// Refusal 5.
fn read_head(file: &[u8], variable_count: u32) -> Result<Head<'_>, Refusal> {
    if file.len() < ASSIGNMENT_START {
        return refuse(RECORD_HEAD, 0);
    }
    let claim = number(&file[0..8]);
    let step_count = number(&file[8..12]);
    if step_count == 0 {
        return refuse(RECORD_HEAD, 0);
    }
    let pairs_start = ASSIGNMENT_START + variable_count.div_ceil(8) as usize;
    if length(file) < layout::pairs_end(pairs_start, step_count) {
        return refuse(RECORD_HEAD, 0);
    }
    Ok(Head {
        claim,
        step_count,
        assignment_bits: &file[ASSIGNMENT_START..pairs_start],
    })
}

/// Refusal 6. Bit b of byte i belongs to variable 8i + b + 1; above n it is spare.
fn check_stray_bits(head: &Head, variable_count: u32) -> Result<(), Refusal> {
    for (index, byte) in head.assignment_bits.iter().enumerate() {
        for bit in 0..8 {
            let is_set = (byte >> bit) & 1 == 1;
            let is_spare = 8 * index + bit + 1 > variable_count as usize;
            if is_set && (is_spare || head.claim == NONE) {
                return refuse(STRAY_BIT, 0);
            }
        }
    }
    Ok(())
}

/// Refusal 7.
fn read_bodies<'a>(file: &'a [u8], head: &Head) -> Result<Bodies<'a>, Refusal> {
    let pairs_start = ASSIGNMENT_START + head.assignment_bits.len();
    match layout::read_bodies(file, pairs_start, head.step_count) {
        Ok(bodies) => Ok(bodies),
        Err(step_number) => refuse(RECORD_PAIRS, step_number),
    }
}
