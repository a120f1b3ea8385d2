//! A record taken apart for showing.

use crate::bodies::{u32_at, u64_at, Bodies};
use planner::format::STEP_COUNT;

/// A record as far as its head can be read.
#[derive(Clone, Copy, Debug)]
pub struct Record<'a> {
    pub claim: u64,
    /// The assignment's bytes.
    pub bits: &'a [u8],
    pub steps: Bodies<'a>,
}

/// Where a record's assignment begins.
pub const ASSIGNMENT: usize = planner::format::RECORD_HEAD;

/// How many bytes the assignment takes.
pub fn width(variables: usize) -> usize {
    variables.div_ceil(8)
}

/// Whether the bytes of an assignment make a variable true.
pub fn is_true(bits: &[u8], variable: usize) -> bool {
    let Some(place) = variable.checked_sub(1) else {
        return false;
    };
    let byte = bits.get(place / 8);
    byte.is_some_and(|byte| byte >> (place % 8) & 1 == 1)
}

impl<'a> Record<'a> {
    /// Nothing where the file is too short for the claim, the number of steps and the assignment.
    pub fn open(bytes: &'a [u8], variables: usize) -> Option<Self> {
        let claim = u64_at(bytes, 0)?;
        let count = u32_at(bytes, STEP_COUNT)? as usize;
        let end = ASSIGNMENT + width(variables);
        Some(Record {
            claim,
            bits: bytes.get(ASSIGNMENT..end)?,
            steps: Bodies::new(bytes, end, count),
        })
    }

    pub fn is_true(&self, variable: usize) -> bool {
        is_true(self.bits, variable)
    }

    /// The variables that the assignment makes true, spare bits left out.
    pub fn true_variables(&self, variables: usize) -> Vec<usize> {
        (1..=variables).filter(|v| self.is_true(*v)).collect()
    }

    /// Whether a bit is set that belongs to no variable.
    pub fn has_spare_bits(&self, variables: usize) -> bool {
        (variables + 1..=8 * self.bits.len()).any(|place| self.is_true(place))
    }
}
