//! The record's head and assignment: refusals 5 and 6.

use crate::read::{fault, number, Fault, Pairs};
use crate::refusal;
use proved::NONE;

/// A record whose head is in order; its pairs are not looked at yet.
pub(crate) struct Record<'a> {
    pub bytes: &'a [u8],
    pub claim: u64,
    pub assignment: &'a [u8],
    pub pairs: Pairs<'a>,
}

impl<'a> Record<'a> {
    pub fn read(bytes: &'a [u8], n: usize) -> Result<Self, Fault> {
        let Some(record) = Self::head(bytes, n) else {
            return fault(refusal::RECORD_HEAD, 0);
        };
        let spare = match n % 8 {
            0 => 0,
            used => record.assignment[n / 8] >> used,
        };
        let none_with_bits =
            record.claim == NONE && record.assignment.iter().any(|&byte| byte != 0);
        if spare != 0 || none_with_bits {
            return fault(refusal::STRAY_BIT, 0);
        }
        Ok(record)
    }

    fn head(bytes: &'a [u8], n: usize) -> Option<Self> {
        let (claim, rest) = bytes.split_first_chunk::<8>()?;
        let (count, rest) = rest.split_first_chunk::<4>()?;
        let count = number(*count);
        let (assignment, rest) = rest.split_at_checked(n.div_ceil(8))?;
        let table = rest.get(..8 * count)?;
        (count > 0).then_some(Record {
            bytes,
            claim: u64::from_le_bytes(*claim),
            assignment,
            pairs: table.as_chunks().0,
        })
    }

    /// Where the bodies begin.
    pub fn table_end(&self) -> usize {
        12 + self.assignment.len() + 8 * self.pairs.len()
    }

    /// Whether a literal is true in the assignment.
    pub fn is_true(&self, code: usize) -> bool {
        let bit = code / 2 - 1;
        let value = self.assignment[bit / 8] >> (bit % 8) & 1;
        usize::from(value) != code % 2
    }

    /// How many variables are true; none are under the claim "none".
    pub fn open_count(&self) -> u64 {
        let ones = self.assignment.iter().map(|byte| byte.count_ones());
        u64::from(ones.sum::<u32>())
    }
}
