//! The fixed parts of both files: numbers at and over their ranges, files that end too early.

use super::{damage, Damage, Way};
use crate::draft::{assignment_length, overwrite, read_u16, Draft, Files, Head};
use crate::random::Random;
use planner::format::{MARK, PAIR, RECORD_HEAD, STEP_COUNT};
use planner::{MOST_CLAUSES, MOST_VARIABLES, NONE};

pub const HEADS: &[Damage] = &[
    damage(
        "accepted most variables",
        Way::Draft(|draft, _| resize_variables(draft, MOST_VARIABLES, 1)),
    ),
    damage(
        "accepted most clauses",
        Way::Draft(|draft, _| resize_clauses(draft, MOST_CLAUSES)),
    ),
    damage("2 sheet under four bytes", Way::Files(sheet_stub)),
    damage(
        "2 no variables",
        Way::Files(|files, _| overwrite(&mut files.sheet, 0, &[0, 0])),
    ),
    damage(
        "2 one variable too many",
        Way::Draft(|draft, _| resize_variables(draft, MOST_VARIABLES + 1, 1)),
    ),
    damage("2 far too many variables", Way::Draft(far_too_many)),
    damage(
        "2 one clause too many",
        Way::Draft(|draft, _| resize_clauses(draft, MOST_CLAUSES + 1)),
    ),
    damage("2 costs cut short", Way::Files(cut_costs)),
    damage("2 sheet pairs cut short", Way::Files(cut_sheet_pairs)),
    damage("2 head number at a boundary", Way::Files(sheet_number)),
    damage("5 record under twelve bytes", Way::Files(record_stub)),
    damage("5 assignment cut short", Way::Files(cut_assignment)),
    damage("5 record pairs cut short", Way::Files(cut_record_pairs)),
    damage(
        "5 no steps told",
        Way::Files(|files, _| overwrite(&mut files.record, STEP_COUNT, &[0; 4])),
    ),
    damage("5 no steps at all", Way::Draft(no_steps)),
    damage("5 step count beyond the file", Way::Files(step_count)),
    damage("6 spare bit", Way::Draft(spare_bit)),
    damage("6 bit under none", Way::Draft(bit_under_none)),
];

/// New variables stand in no clause, so that a record stays what it was.
pub fn resize_variables(draft: &mut Draft, count: usize, cost: u32) -> Option<()> {
    if draft.variables() >= count {
        return None;
    }
    draft.costs.resize(count, cost);
    draft.assignment.resize(assignment_length(count), 0);
    Some(())
}

/// A change to the same plan on a sheet of as many variables as one may have.
pub fn with_most_variables(
    draft: &mut Draft,
    change: impl FnOnce(&mut Draft) -> Option<()>,
) -> Option<()> {
    let mut larger = draft.clone();
    resize_variables(&mut larger, MOST_VARIABLES, 1)?;
    change(&mut larger)?;
    *draft = larger;
    Some(())
}

fn far_too_many(draft: &mut Draft, random: &mut Random) -> Option<()> {
    let count = *random.pick(&[1026, 1032, 2048])?;
    resize_variables(draft, count, 1)
}

/// A repeated clause changes nothing.
pub fn resize_clauses(draft: &mut Draft, count: usize) -> Option<()> {
    let last = draft.clauses.last()?.clone();
    draft.clauses.resize(count, last);
    Some(())
}

fn sheet_stub(files: &mut Files, random: &mut Random) -> Option<()> {
    files.sheet.truncate(random.below(4));
    Some(())
}

/// Cuts a file to a length from `low` to just under `high`, and half the time to the longest.
fn cut(file: &mut Vec<u8>, low: usize, high: usize, random: &mut Random) -> Option<()> {
    if low >= high || file.len() < high {
        return None;
    }
    let length = if random.percent(50) {
        high - 1
    } else {
        random.between(low, high - 1)
    };
    file.truncate(length);
    Some(())
}

fn cut_costs(files: &mut Files, random: &mut Random) -> Option<()> {
    let end = Head::read(&files.sheet)?.costs_end();
    cut(&mut files.sheet, 4, end, random)
}

fn cut_sheet_pairs(files: &mut Files, random: &mut Random) -> Option<()> {
    let table = files.sheet_table()?;
    cut(&mut files.sheet, table.start, table.end(), random)
}

fn sheet_number(files: &mut Files, random: &mut Random) -> Option<()> {
    let place = *random.pick(&[0, 2])?;
    let (n, m) = (MOST_VARIABLES as u16, MOST_CLAUSES as u16);
    let unmarked = *random.pick(&[0, 1, n, n + 1, m, m + 1, !MARK])?;
    let number = unmarked | *random.pick(&[0, MARK])?;
    if read_u16(&files.sheet, place)? == number {
        return None;
    }
    overwrite(&mut files.sheet, place, &number.to_le_bytes())
}

fn record_stub(files: &mut Files, random: &mut Random) -> Option<()> {
    cut(&mut files.record, 0, RECORD_HEAD, random)
}

fn cut_assignment(files: &mut Files, random: &mut Random) -> Option<()> {
    let end = files.record_table()?.start;
    cut(&mut files.record, RECORD_HEAD, end, random)
}

fn cut_record_pairs(files: &mut Files, random: &mut Random) -> Option<()> {
    let table = files.record_table()?;
    cut(&mut files.record, table.start, table.end(), random)
}

fn no_steps(draft: &mut Draft, _: &mut Random) -> Option<()> {
    draft.steps.clear();
    Some(())
}

/// Counts whose pairs would take more than 32 bits, or just more than the file has.
fn step_count(files: &mut Files, random: &mut Random) -> Option<()> {
    let more = (files.record.len() / PAIR) as u32;
    let count = *random.pick(&[more, 1 << 29, (1 << 29) + 1, 1 << 31, u32::MAX])?;
    overwrite(&mut files.record, STEP_COUNT, &count.to_le_bytes())
}

fn spare_bit(draft: &mut Draft, random: &mut Random) -> Option<()> {
    let used = draft.variables() % 8;
    if used == 0 {
        return None;
    }
    *draft.assignment.last_mut()? |= 1 << random.between(used, 7);
    Some(())
}

/// Either claims "none" over an assignment with true variables or sets one under "none".
fn bit_under_none(draft: &mut Draft, random: &mut Random) -> Option<()> {
    draft.claim = NONE;
    if draft.assignment.iter().all(|byte| *byte == 0) {
        draft.flip(random.between(1, draft.variables()))?;
    }
    Some(())
}
