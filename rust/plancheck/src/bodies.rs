//! Numbers in a file, and the bodies that a pair table names. Every reader answers on any bytes, whatever they hold.

use planner::format::PAIR;

pub fn u16_at(bytes: &[u8], at: usize) -> Option<u16> {
    let part = bytes.get(at..at.checked_add(2)?)?;
    Some(u16::from_le_bytes(part.try_into().ok()?))
}

pub fn u32_at(bytes: &[u8], at: usize) -> Option<u32> {
    let part = bytes.get(at..at.checked_add(4)?)?;
    Some(u32::from_le_bytes(part.try_into().ok()?))
}

pub fn u64_at(bytes: &[u8], at: usize) -> Option<u64> {
    let part = bytes.get(at..at.checked_add(8)?)?;
    Some(u64::from_le_bytes(part.try_into().ok()?))
}

/// A pair table and the file that its pairs point into. Bodies are numbered from 1.
#[derive(Clone, Copy, Debug)]
pub struct Bodies<'a> {
    file: &'a [u8],
    table: usize,
    count: usize,
}

impl<'a> Bodies<'a> {
    pub fn new(file: &'a [u8], table: usize, count: usize) -> Self {
        Bodies { file, table, count }
    }

    pub fn count(&self) -> usize {
        self.count
    }

    /// Where the table ends and the bodies should begin.
    pub fn table_end(&self) -> usize {
        self.table + PAIR * self.count
    }

    /// Where the pair of a body stands.
    pub fn pair_place(&self, number: usize) -> usize {
        self.table + PAIR * number.saturating_sub(1)
    }

    /// The offset and the length that the pair tells.
    pub fn pair(&self, number: usize) -> Option<(usize, usize)> {
        if number == 0 || number > self.count {
            return None;
        }
        let place = self.pair_place(number);
        let offset = u32_at(self.file, place)?;
        let length = u32_at(self.file, place + 4)?;
        Some((offset as usize, length as usize))
    }

    /// Where the rule for pairs puts this body.
    pub fn due_offset(&self, number: usize) -> Option<usize> {
        if number <= 1 {
            return Some(self.table_end());
        }
        let (offset, length) = self.pair(number - 1)?;
        Some(offset + length)
    }

    pub fn body(&self, number: usize) -> Option<&'a [u8]> {
        let (offset, length) = self.pair(number)?;
        self.file.get(offset..offset + length)
    }
}
