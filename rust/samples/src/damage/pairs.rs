//! The pairs of either file: offsets and lengths that miss each other or the end of the file.
// All have one signature, so that a table can hold them, though few change a length.
#![allow(clippy::ptr_arg)]

use super::{damage, Damage, Way};
use crate::draft::{overwrite, read_u32, Files, Table};
use crate::random::Random;
use planner::format::{PAIR, STEP_COUNT};

pub const PAIRS: &[Damage] = &[
    damage("3 first offset", Way::SheetPairs(first_offset)),
    damage("3 later offset", Way::SheetPairs(later_offset)),
    damage("3 length", Way::SheetPairs(length)),
    damage("3 last length", Way::SheetPairs(last_length)),
    damage("3 far number", Way::SheetPairs(far_number)),
    damage("3 wrapped length", Way::SheetPairs(wrapped_length)),
    damage("3 gap", Way::SheetPairs(gap)),
    damage("3 swapped pairs", Way::SheetPairs(swapped)),
    damage("3 byte too many", Way::SheetPairs(byte_too_many)),
    damage("3 byte too few", Way::SheetPairs(byte_too_few)),
    damage("3 clause count off by one", Way::Files(clause_count)),
    damage("7 first offset", Way::RecordPairs(first_offset)),
    damage("7 later offset", Way::RecordPairs(later_offset)),
    damage("7 length", Way::RecordPairs(length)),
    damage("7 last length", Way::RecordPairs(last_length)),
    damage("7 far number", Way::RecordPairs(far_number)),
    damage("7 wrapped length", Way::RecordPairs(wrapped_length)),
    damage("7 gap", Way::RecordPairs(gap)),
    damage("7 swapped pairs", Way::RecordPairs(swapped)),
    damage("7 byte too many", Way::RecordPairs(byte_too_many)),
    damage("7 byte too few", Way::RecordPairs(byte_too_few)),
    damage("7 step count off by one", Way::Files(step_count)),
    damage("4 boundary moved", Way::SheetPairs(boundary)),
    damage("8 boundary moved", Way::RecordPairs(boundary)),
];

impl Table {
    /// Where the pair counted from 0 stands; its length stands 4 bytes on.
    fn pair(self, place: usize) -> Option<usize> {
        (place < self.count).then_some(self.start + PAIR * place)
    }

    fn some(self, random: &mut Random) -> Option<usize> {
        self.pair(random.below(self.count.max(1)))
    }
}

/// Adds to a stored number, round the end of 32 bits if it must be.
fn shift(file: &mut [u8], place: usize, by: u32) -> Option<()> {
    let number = read_u32(file, place)?.wrapping_add(by);
    overwrite(file, place, &number.to_le_bytes())
}

fn one(random: &mut Random) -> u32 {
    if random.percent(50) {
        1
    } else {
        u32::MAX
    }
}

fn first_offset(file: &mut Vec<u8>, table: Table, random: &mut Random) -> Option<()> {
    shift(file, table.pair(0)?, one(random))
}

fn later_offset(file: &mut Vec<u8>, table: Table, random: &mut Random) -> Option<()> {
    let place = random.between(1, table.count.max(2) - 1);
    shift(file, table.pair(place)?, one(random))
}

fn length(file: &mut Vec<u8>, table: Table, random: &mut Random) -> Option<()> {
    shift(file, table.some(random)? + 4, one(random))
}

fn last_length(file: &mut Vec<u8>, table: Table, random: &mut Random) -> Option<()> {
    shift(
        file,
        table.pair(table.count.checked_sub(1)?)? + 4,
        one(random),
    )
}

fn far_number(file: &mut Vec<u8>, table: Table, random: &mut Random) -> Option<()> {
    let place = table.some(random)? + *random.pick(&[0, 4])?;
    let number = *random.pick(&[0, 1 << 31, u32::MAX])?;
    if read_u32(file, place)? == number {
        return None;
    }
    overwrite(file, place, &number.to_le_bytes())
}

/// One body gets a length just under 2^32 and the next one takes up the rest: added in 32 bits,
/// every offset and the last end fit.
fn wrapped_length(file: &mut Vec<u8>, table: Table, random: &mut Random) -> Option<()> {
    let place = random.below(table.count.max(2) - 1);
    let (this, next) = (table.pair(place)?, table.pair(place + 1)?);
    let by = read_u32(file, this + 4)?.wrapping_add(random.between(1, 4) as u32);
    shift(file, this + 4, by.wrapping_neg())?;
    shift(file, next, by.wrapping_neg())?;
    shift(file, next + 4, by)
}

/// A byte that belongs to no body, with all later offsets moved behind it.
fn gap(file: &mut Vec<u8>, table: Table, random: &mut Random) -> Option<()> {
    let first = random.below(table.count.max(1));
    let at = read_u32(file, table.pair(first)?)? as usize;
    if at > file.len() {
        return None;
    }
    for place in first..table.count {
        shift(file, table.pair(place)?, 1)?;
    }
    file.insert(at, 0);
    Some(())
}

fn swapped(file: &mut Vec<u8>, table: Table, random: &mut Random) -> Option<()> {
    let (this, that) = (table.some(random)?, table.some(random)?);
    let first = file.get(this..this + PAIR)?.to_vec();
    let second = file.get(that..that + PAIR)?.to_vec();
    if first == second {
        return None;
    }
    overwrite(file, this, &second)?;
    overwrite(file, that, &first)
}

fn byte_too_many(file: &mut Vec<u8>, _: Table, random: &mut Random) -> Option<()> {
    file.push(random.next_u64() as u8);
    Some(())
}

fn byte_too_few(file: &mut Vec<u8>, table: Table, _: &mut Random) -> Option<()> {
    (file.len() > table.end() && table.count > 0).then(|| file.truncate(file.len() - 1))
}

/// Pairs that fit each other, but one body ends elsewhere than it should.
fn boundary(file: &mut Vec<u8>, table: Table, random: &mut Random) -> Option<()> {
    let place = random.below(table.count.max(2) - 1);
    let (this, next) = (table.pair(place)?, table.pair(place + 1)?);
    let by = random.between(1, 2) as u32;
    if read_u32(file, next + 4)? < by {
        return None;
    }
    shift(file, this + 4, by)?;
    shift(file, next, by)?;
    shift(file, next + 4, by.wrapping_neg())
}

fn clause_count(files: &mut Files, random: &mut Random) -> Option<()> {
    let count = (files.sheet_table()?.count as u16).wrapping_add(one(random) as u16);
    overwrite(&mut files.sheet, 2, &count.to_le_bytes())
}

fn step_count(files: &mut Files, random: &mut Random) -> Option<()> {
    shift(&mut files.record, STEP_COUNT, one(random))
}
