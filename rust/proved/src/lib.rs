//! The proved checker, called from Rust. Every answer here is the static library's: nothing is judged, sorted, searched,
//! trimmed or turned on this side.
//!
//! The declarations of the library's functions are not checked against its source, so they are few, and everything else goes
//! through the safe functions below.

/// The answer to a sheet and a record.
#[derive(Clone, Copy, Debug, PartialEq, Eq)]
pub struct Answer {
    /// The refusal's number, 0 where the record is not refused. That alone is no acceptance: see [`Answer::verdict`].
    pub number: u64,
    /// The clause or the step that the refusal names, 0 where there is none.
    pub place: u64,
    /// The claim of a record that is not refused, [`NONE`] included.
    pub cost: u64,
    /// How many variables its assignment makes true.
    pub open_count: u64,
    /// How many steps it has.
    pub step_count: u64,
    /// How far the claim may lie above the least cost: above 0 for [`Verdict::Within`], 0 for every other answer.
    pub gap: u64,
}

/// What an answer says. The first two are acceptances, the third is neither that nor a refusal.
#[derive(Clone, Copy, Debug, PartialEq, Eq)]
pub enum Verdict {
    /// The claim is the least cost.
    Least,
    /// No assignment satisfies every clause.
    NoneExists,
    /// The assignment satisfies every clause at the claimed cost, and no assignment that satisfies every clause costs less than
    /// that cost minus the gap. It is no acceptance.
    Within,
    /// One of the numbered refusals.
    Refused,
}

/// The claim that no assignment satisfies every clause.
pub const NONE: u64 = u64::MAX;

impl Answer {
    /// Which of the four it is.
    pub fn verdict(&self) -> Verdict {
        match (self.number, self.gap, self.cost) {
            (0, 0, NONE) => Verdict::NoneExists,
            (0, 0, _) => Verdict::Least,
            (0, _, _) => Verdict::Within,
            _ => Verdict::Refused,
        }
    }

    /// Whether the record is accepted: its claim is the least cost, or it is true that none exists.
    pub fn accepts(&self) -> bool {
        matches!(self.verdict(), Verdict::Least | Verdict::NoneExists)
    }

    /// The printed line, without its newline.
    pub fn line(&self) -> String {
        let Answer {
            number,
            place,
            cost,
            open_count,
            step_count,
            gap,
        } = self;
        match self.verdict() {
            Verdict::Least => format!("least {cost} open {open_count} steps {step_count}"),
            Verdict::NoneExists => format!("none open 0 steps {step_count}"),
            Verdict::Within => {
                format!("within {gap} cost {cost} open {open_count} steps {step_count}")
            }
            Verdict::Refused => format!("refused {number} at {place}"),
        }
    }
}

/// What came of writing a sheet, or of trimming a record.
#[derive(Clone, Copy, Debug, PartialEq, Eq)]
pub struct Written {
    /// The refusal's number, 0 where there is none.
    pub number: u64,
    /// The clause or the step that the refusal names, 0 where there is none.
    pub place: u64,
    /// How many bytes were written, 0 with a refusal.
    pub length: u64,
}

impl Written {
    /// The answer by its three numbers.
    fn of([number, place, length]: [u64; 3]) -> Written {
        Written {
            number,
            place,
            length,
        }
    }
}

/// What a search came to.
#[derive(Clone, Copy, Debug, PartialEq, Eq)]
pub struct Found {
    /// The refusal's number, 0 where the sheet was searched.
    pub number: u32,
    /// The clause that the refusal names, 0 where there is none.
    pub place: u32,
    /// The best plan that was found, variable v in bit v - 1. It satisfies every clause, and is the first of least cost where
    /// the search ended.
    pub plan: Option<u64>,
    /// How many choices were made: the whole budget, unless the search ended.
    pub choices: u64,
    /// Whether every branch was tried; if so and there is no plan, no assignment satisfies every clause.
    pub ended: bool,
    /// No assignment that satisfies every clause costs less. [`NONE`] where there is no plan and no untried branch; 0 with a
    /// refusal.
    pub floor: u64,
}

/// What came of turning variables.
#[derive(Clone, Copy, Debug, PartialEq, Eq)]
pub struct Turned {
    /// The refusal's number, 0 where there is none.
    pub number: u64,
    /// The clause that the refusal names, or, with 30, the place in the list of turns, from 1; 0 where there is none.
    pub place: u64,
    /// How many clauses have no true literal after the turns, 0 with a refusal.
    pub total: u64,
}

extern "C" {
    // A slice passes as a pointer and a length, an array as a pointer: see include/plan.h.
    fn plan_judge(
        sheet: *const u8,
        sheet_len: usize,
        record: *const u8,
        record_len: usize,
        answer: *mut u64,
    );
    fn plan_show(
        sheet: *const u8,
        sheet_len: usize,
        record: *const u8,
        record_len: usize,
        step: u32,
        part: *mut u64,
    );
    fn plan_write_sheet(
        sheet: *const u8,
        sheet_len: usize,
        out: *mut u8,
        out_len: usize,
        answer: *mut u64,
    );
    fn plan_search(sheet: *const u8, sheet_len: usize, budget: u64, answer: *mut u64);
    fn plan_trim(
        sheet: *const u8,
        sheet_len: usize,
        record: *const u8,
        record_len: usize,
        marks: *mut u8,
        marks_len: usize,
        out: *mut u8,
        out_len: usize,
        answer: *mut u64,
    );
    fn plan_turn(
        sheet: *const u8,
        sheet_len: usize,
        assignment: *mut u8,
        assignment_len: usize,
        turns: *const u16,
        turn_count: usize,
        index: *mut u8,
        index_len: usize,
        counts: *mut u8,
        counts_len: usize,
        answer: *mut u64,
    );
}

/// The judgement of a record, any bytes.
pub fn judge(sheet: &[u8], record: &[u8]) -> Answer {
    let mut numbers = [0u64; 6];
    // SAFETY: both slices may be read, and the array has the six places that are written.
    unsafe {
        plan_judge(
            sheet.as_ptr(),
            sheet.len(),
            record.as_ptr(),
            record.len(),
            numbers.as_mut_ptr(),
        );
    }
    let [number, place, cost, open_count, step_count, gap] = numbers;
    Answer {
        number,
        place,
        cost,
        open_count,
        step_count,
        gap,
    }
}

/// The literals of a step, in the file that they stand in; of a refused record, and of a step that is not there, the empty
/// part at the record's start.
pub fn show<'a>(sheet: &'a [u8], record: &'a [u8], step: u32) -> &'a [u8] {
    let mut part = [0u64; 3];
    // SAFETY: as above, with three places.
    unsafe {
        plan_show(
            sheet.as_ptr(),
            sheet.len(),
            record.as_ptr(),
            record.len(),
            step,
            part.as_mut_ptr(),
        );
    }
    let [in_sheet, start, size] = part.map(|n| usize::try_from(n).expect("a place in a file"));
    let file = if in_sheet == 1 { sheet } else { record };
    &file[start..start + size]
}

/// Writes a sheet in the one way: the clauses sorted by their codes, a list before the longer ones that begin with it, each
/// once, and a mark only where the loss is not 0.
///
/// The buffer then begins with the written sheet, and the bytes behind it stay; where the sheet is refused, or the buffer is
/// too short (25), all of it stays. A buffer as long as the sheet is always enough. Clauses may get other numbers, so that a
/// record goes with the sheet that it was made for.
pub fn write_sheet(sheet: &[u8], out: &mut [u8]) -> Written {
    let mut numbers = [0u64; 3];
    // SAFETY: the sheet may be read, the buffer written, and the array has three places; none of them overlap.
    unsafe {
        plan_write_sheet(
            sheet.as_ptr(),
            sheet.len(),
            out.as_mut_ptr(),
            out.len(),
            numbers.as_mut_ptr(),
        );
    }
    Written::of(numbers)
}

/// Searches a sheet of at most 64 variables for a plan of least cost. Each choice takes one of the budget; where there is none
/// left for the next, the answer is what was found by then.
pub fn search(sheet: &[u8], budget: u64) -> Found {
    let mut numbers = [0u64; 7];
    // SAFETY: the sheet may be read, and the array has the seven places that are written.
    unsafe { plan_search(sheet.as_ptr(), sheet.len(), budget, numbers.as_mut_ptr()) };
    let [number, place, is_found, plan, choices, ended, floor] = numbers;
    Found {
        number: u32::try_from(number).expect("a refusal number"),
        place: u32::try_from(place).expect("a clause"),
        plan: (is_found == 1).then_some(plan),
        choices,
        ended: ended == 1,
        floor,
    }
}

/// Trims a record: keeps its last step and each step that a kept one cites.
///
/// The first bytes of `marks`, one for each step, are then 1 for a kept step and 0 for another, and `out` begins with the
/// trimmed record; the bytes behind these stay. A refused record, and fewer marks than steps (27), leave both buffers; where
/// `out` is too short (28), it stays, and the marks are written. A buffer as long as the record is always enough.
pub fn trim(sheet: &[u8], record: &[u8], marks: &mut [u8], out: &mut [u8]) -> Written {
    let mut numbers = [0u64; 3];
    // SAFETY: both files may be read, both buffers written, and the array has three places; what is written overlaps nothing.
    unsafe {
        plan_trim(
            sheet.as_ptr(),
            sheet.len(),
            record.as_ptr(),
            record.len(),
            marks.as_mut_ptr(),
            marks.len(),
            out.as_mut_ptr(),
            out.len(),
            numbers.as_mut_ptr(),
        );
    }
    Written::of(numbers)
}

/// Turns variables, each the other way, in the order of the list.
///
/// The assignment then has every turn done; `index` begins with, for each variable, the clauses that mention it, and `counts`
/// with two bytes for each clause: how many of its literals are true. Spare bits and the bytes behind these stay. Whatever is
/// refused leaves all three buffers: a sheet (1 to 4), a buffer that is too short (29), a turn that is of no variable (30).
/// Long enough are (n + 7) / 8 bytes for the assignment, 8 for each variable and 4 for each literal of the sheet for the index,
/// and 2 for each clause for the counts.
pub fn turn(
    sheet: &[u8],
    assignment: &mut [u8],
    turns: &[u16],
    index: &mut [u8],
    counts: &mut [u8],
) -> Turned {
    let mut numbers = [0u64; 3];
    // SAFETY: the sheet and the turns may be read, the three buffers written, and the array has three places; what is written
    // overlaps nothing.
    unsafe {
        plan_turn(
            sheet.as_ptr(),
            sheet.len(),
            assignment.as_mut_ptr(),
            assignment.len(),
            turns.as_ptr(),
            turns.len(),
            index.as_mut_ptr(),
            index.len(),
            counts.as_mut_ptr(),
            counts.len(),
            numbers.as_mut_ptr(),
        );
    }
    let [number, place, total] = numbers;
    Turned {
        number,
        place,
        total,
    }
}

#[cfg(test)]
mod tests {
    use super::*;
    use std::ptr::{null, null_mut};

    /// Judging and showing, on files by pointer and length.
    fn called(sheet: (*const u8, usize), record: (*const u8, usize)) -> ([u64; 6], [u64; 3]) {
        // Not what may be answered, so that every number is seen to be written.
        let (mut answer, mut part) = ([7; 6], [7; 3]);
        // SAFETY: each pointer has that many bytes behind it, none where it is null, and the arrays have their places.
        unsafe {
            plan_judge(sheet.0, sheet.1, record.0, record.1, answer.as_mut_ptr());
            plan_show(sheet.0, sheet.1, record.0, record.1, 1, part.as_mut_ptr());
        }
        (answer, part)
    }

    #[test]
    fn null_is_a_file_of_no_bytes() {
        let nothing = (null(), 0);
        let sheet = include_bytes!("../../../examples/B1/sheet");
        let record = include_bytes!("../../../examples/B1/record");
        let (sheet, record) = (
            (sheet.as_ptr(), sheet.len()),
            (record.as_ptr(), record.len()),
        );
        // One step without literals: they end where the record does.
        let end = record.1 as u64;
        assert_eq!(called(sheet, record), ([0, 0, 0, 0, 1, 0], [0, end, 0]));
        assert_eq!(called(nothing, nothing), ([2, 0, 0, 0, 0, 0], [0; 3]));
        assert_eq!(called(nothing, record), ([2, 0, 0, 0, 0, 0], [0; 3]));
        assert_eq!(called(sheet, nothing), ([5, 0, 0, 0, 0, 0], [0; 3]));
    }

    /// The writer, on a sheet and a buffer by pointer and length.
    fn written(sheet: (*const u8, usize), out: (*mut u8, usize)) -> [u64; 3] {
        let mut answer = [7; 3];
        // SAFETY: as above, and nothing else looks at the buffer.
        unsafe { plan_write_sheet(sheet.0, sheet.1, out.0, out.1, answer.as_mut_ptr()) };
        answer
    }

    #[test]
    fn null_is_a_sheet_or_a_buffer_of_no_bytes() {
        let (no_sheet, no_buffer) = ((null(), 0), (null_mut(), 0));
        let bytes = include_bytes!("../../../examples/B1/sheet");
        let sheet = (bytes.as_ptr(), bytes.len());
        let mut out = [7; 10];
        assert_eq!(written(no_sheet, no_buffer), [2, 0, 0]);
        assert_eq!(written(sheet, no_buffer), [25, 0, 0]);
        assert_eq!(written(no_sheet, (out.as_mut_ptr(), out.len())), [2, 0, 0]);
        assert_eq!(out, [7; 10]);
        // It has no clauses, so that it stands in the one way already.
        assert_eq!(written(sheet, (out.as_mut_ptr(), out.len())), [0, 0, 8]);
        assert_eq!((&out[..8], &out[8..]), (&bytes[..], &[7; 2][..]));
    }

    /// The trimmer, on two files and two buffers by pointer and length.
    fn trimmed(
        sheet: (*const u8, usize),
        record: (*const u8, usize),
        marks: (*mut u8, usize),
        out: (*mut u8, usize),
    ) -> [u64; 3] {
        let mut answer = [7; 3];
        // SAFETY: as above, and the two buffers are not one.
        unsafe {
            plan_trim(
                sheet.0,
                sheet.1,
                record.0,
                record.1,
                marks.0,
                marks.1,
                out.0,
                out.1,
                answer.as_mut_ptr(),
            );
        }
        answer
    }

    #[test]
    fn null_is_a_file_a_mark_buffer_or_an_output_of_no_bytes() {
        let (no_file, no_buffer) = ((null(), 0), (null_mut(), 0));
        let sheet = include_bytes!("../../../examples/B1/sheet");
        let bytes = include_bytes!("../../../examples/B1/record");
        let sheet = (sheet.as_ptr(), sheet.len());
        let record = (bytes.as_ptr(), bytes.len());
        let (mut first, mut second) = ([7; 2], [7; 35]);
        let marks = (first.as_mut_ptr(), first.len());
        let out = (second.as_mut_ptr(), second.len());
        assert_eq!(trimmed(no_file, no_file, no_buffer, no_buffer), [2, 0, 0]);
        assert_eq!(trimmed(sheet, no_file, no_buffer, no_buffer), [5, 0, 0]);
        assert_eq!(trimmed(no_file, record, marks, out), [2, 0, 0]);
        // 27 comes before 28, and leaves both buffers.
        assert_eq!(trimmed(sheet, record, no_buffer, no_buffer), [27, 0, 0]);
        assert_eq!(trimmed(sheet, record, no_buffer, out), [27, 0, 0]);
        assert_eq!((first, second), ([7; 2], [7; 35]));
        assert_eq!(trimmed(sheet, record, marks, no_buffer), [28, 0, 0]);
        assert_eq!(first, [1, 7]);
        // It has one step, and stays as it is.
        assert_eq!(trimmed(sheet, record, marks, out), [0, 0, 33]);
        assert_eq!((&second[..33], &second[33..]), (&bytes[..], &[7; 2][..]));
    }

    /// Every number is written, and no byte that is not the answer's: T1 has 7 steps, and what is left of it 153 bytes.
    #[test]
    fn a_trim_writes_three_numbers_and_what_they_tell_of() {
        let sheet = include_bytes!("../../../examples/T1/sheet");
        let record = include_bytes!("../../../examples/T1/record");
        let wanted = include_bytes!("../../../examples/T1/trimmed");
        let kept = [1, 0, 0, 1, 1, 1, 1];
        let trimmed = |marks: usize, out: usize| {
            let (mut marks, mut out) = (vec![7; marks], vec![7; out]);
            let Written {
                number,
                place,
                length,
            } = trim(sheet, record, &mut marks, &mut out);
            ([number, place, length], marks, out)
        };
        assert_eq!(
            trimmed(6, 300),
            ([27, 0, 0], [7; 6].to_vec(), [7; 300].to_vec())
        );
        assert_eq!(
            trimmed(8, 152),
            ([28, 0, 0], [&kept[..], &[7]].concat(), [7; 152].to_vec())
        );
        for (marks, out) in [(7, 153), (9, 153), (8, 300)] {
            let more = [7; 300];
            let written = (
                [0, 0, 153],
                [&kept[..], &more[7..marks]].concat(),
                [&wanted[..], &more[153..out]].concat(),
            );
            assert_eq!(trimmed(marks, out), written);
        }
    }

    /// A refusal has its place, and neither buffer is looked at before it.
    #[test]
    fn a_refused_record_is_not_trimmed() {
        let sheet = include_bytes!("../../../examples/A7/sheet");
        let record = include_bytes!("../../../examples/A7/record");
        let refused = Written {
            number: 18,
            place: 5,
            length: 0,
        };
        for room in [0, 5, 300] {
            let (mut marks, mut out) = (vec![7; room], vec![7; room]);
            assert_eq!(trim(sheet, record, &mut marks, &mut out), refused);
            assert_eq!((marks, out), (vec![7; room], vec![7; room]));
        }
    }

    /// Turning, on a sheet, a list and three buffers by pointer and length.
    fn turned(
        sheet: (*const u8, usize),
        turns: (*const u16, usize),
        [assignment, index, counts]: [(*mut u8, usize); 3],
    ) -> [u64; 3] {
        let mut answer = [7; 3];
        // SAFETY: as above, no two of the three buffers are one, and a list has as many numbers as it says.
        unsafe {
            plan_turn(
                sheet.0,
                sheet.1,
                assignment.0,
                assignment.1,
                turns.0,
                turns.1,
                index.0,
                index.1,
                counts.0,
                counts.1,
                answer.as_mut_ptr(),
            );
        }
        answer
    }

    /// One variable and no clause: the assignment needs a byte, the index eight, and the counts none.
    #[test]
    fn null_is_a_sheet_a_list_of_turns_or_one_of_three_buffers_of_no_bytes() {
        let (no_sheet, no_turns, no_buffer) = ((null(), 0), (null(), 0), (null_mut(), 0));
        let bytes = include_bytes!("../../../examples/B1/sheet");
        let sheet = (bytes.as_ptr(), bytes.len());
        let (mut bits, mut pairs, one) = ([6; 2], [7; 9], [1_u16]);
        let assignment = (bits.as_mut_ptr(), bits.len());
        let index = (pairs.as_mut_ptr(), pairs.len());
        let turns = (one.as_ptr(), one.len());
        let nothing = [no_buffer; 3];
        assert_eq!(turned(no_sheet, no_turns, nothing), [2, 0, 0]);
        assert_eq!(turned(no_sheet, turns, nothing), [2, 0, 0]);
        let without_one = [
            [no_buffer, index, no_buffer],
            [assignment, no_buffer, no_buffer],
        ];
        for short in [nothing, without_one[0], without_one[1]] {
            assert_eq!(turned(sheet, no_turns, short), [29, 0, 0]);
            assert_eq!(turned(sheet, turns, short), [29, 0, 0]);
        }
        let enough = [assignment, index, no_buffer];
        assert_eq!(turned(no_sheet, turns, enough), [2, 0, 0]);
        assert_eq!((bits, pairs), ([6; 2], [7; 9]));
        assert_eq!(turned(sheet, no_turns, enough), [0, 0, 0]);
        assert_eq!((bits, pairs), ([6; 2], [8, 0, 0, 0, 0, 0, 0, 0, 7]));
        assert_eq!(turned(sheet, turns, enough), [0, 0, 0]);
        assert_eq!(bits, [7, 6]);
    }

    /// Every number is written, and no byte that is not the answer's: in A1 both clauses have both variables.
    #[test]
    fn a_turn_writes_three_numbers_and_what_they_tell_of() {
        let sheet = include_bytes!("../../../examples/A1/sheet");
        let list = [1, 2].map(u32::to_le_bytes).concat();
        let pairs = [16, 8, 24, 8].map(u32::to_le_bytes).concat();
        let wanted = [&pairs[..], &list, &list].concat();
        let cases: [(&[u16], u8, [u8; 4], u64); 4] = [
            (&[], 0xFC, [0, 0, 1, 0], 1),
            (&[2], 0xFE, [1, 0, 0, 0], 1),
            (&[1], 0xFD, [1, 0, 2, 0], 0),
            (&[2, 1, 2, 2], 0xFF, [2, 0, 1, 0], 0),
        ];
        for (turns, after, true_counts, total) in cases {
            for more in [0, 1, 9] {
                // The six spare bits are set.
                let mut bits = vec![0xFC; 1 + more];
                let (mut index, mut counts) = (vec![9; 32 + more], vec![9; 4 + more]);
                let answer = turn(sheet, &mut bits, turns, &mut index, &mut counts);
                assert_eq!([answer.number, answer.place, answer.total], [0, 0, total]);
                assert_eq!(bits, [&[after][..], &vec![0xFC; more]].concat());
                assert_eq!(index, [&wanted[..], &vec![9; more]].concat());
                assert_eq!(counts, [&true_counts[..], &vec![9; more]].concat());
            }
        }
    }

    /// A refusal has its place, and leaves every buffer.
    #[test]
    fn a_refused_turn_leaves_every_buffer() {
        let sheet = include_bytes!("../../../examples/A1/sheet");
        let cut = &sheet[..sheet.len() - 1];
        let refused = |sheet: &[u8], sizes: [usize; 3], turns: &[u16]| {
            let [mut bits, mut index, mut counts] = sizes.map(|size| vec![9; size]);
            let answer = turn(sheet, &mut bits, turns, &mut index, &mut counts);
            assert_eq!([bits, index, counts], sizes.map(|size| vec![9; size]));
            [answer.number, answer.place, answer.total]
        };
        assert_eq!(refused(cut, [0, 0, 0], &[0]), [3, 2, 0]);
        for short in [[0, 32, 4], [1, 31, 4], [1, 32, 3]] {
            assert_eq!(refused(sheet, short, &[1, 0]), [29, 0, 0]);
        }
        assert_eq!(refused(sheet, [1, 32, 4], &[1, 2, 3, 0]), [30, 3, 0]);
        assert_eq!(refused(sheet, [2, 33, 5], &[0, 1]), [30, 1, 0]);
    }

    /// The search, on a sheet by pointer and length.
    fn found(sheet: (*const u8, usize), budget: u64) -> [u64; 7] {
        let mut answer = [7; 7];
        // SAFETY: as above.
        unsafe { plan_search(sheet.0, sheet.1, budget, answer.as_mut_ptr()) };
        answer
    }

    /// Every number is written, 0 too, and each at its place.
    #[test]
    fn a_search_writes_seven_numbers() {
        let (a, none) = (
            include_bytes!("../../../examples/A1/sheet"),
            include_bytes!("../../../examples/B2/sheet"),
        );
        let a = (a.as_ptr(), a.len());
        assert_eq!(found((null(), 0), 9), [2, 0, 0, 0, 0, 0, 0]);
        assert_eq!(found((a.0, a.1 - 1), 9), [3, 2, 0, 0, 0, 0, 0]);
        assert_eq!(found(a, 0), [0, 0, 0, 0, 0, 0, 0]);
        assert_eq!(found(a, 2), [0, 0, 0, 0, 2, 0, 3]);
        assert_eq!(found(a, 3), [0, 0, 1, 1, 3, 0, 3]);
        assert_eq!(found(a, u64::MAX), [0, 0, 1, 1, 4, 1, 3]);
        let none = (none.as_ptr(), none.len());
        assert_eq!(found(none, 0), [0, 0, 0, 0, 0, 1, NONE]);
    }

    /// A plan may be 0, and is one all the same.
    #[test]
    fn a_plan_is_told_from_none() {
        let b1 = include_bytes!("../../../examples/B1/sheet");
        let plans = [0, 1, 2, u64::MAX].map(|budget| search(b1, budget).plan);
        assert_eq!(plans, [None, Some(0), Some(0), Some(0)]);
    }

    /// A sheet of variables that cost 1 each, with as many clauses as there may be, all the same: what the writer takes grows a
    /// little with their number.
    fn most_clauses(variables: u16, clause: &[u16]) -> Vec<u8> {
        let count = 4_096_u16;
        let body: Vec<u8> = clause.iter().flat_map(|code| code.to_le_bytes()).collect();
        let mut sheet = [variables, count].map(u16::to_le_bytes).concat();
        sheet.extend([1, 0, 0, 0].repeat(variables.into()));
        let first = sheet.len() + 8 * usize::from(count);
        for place in 0..usize::from(count) {
            let pair = [first + place * body.len(), body.len()];
            sheet.extend(pair.map(|n| (n as u32).to_le_bytes()).concat());
        }
        sheet.extend(body.repeat(count.into()));
        sheet
    }

    /// The body of a step.
    fn body(kind: u8, bound: u64, literals: &[u16], tail: &[u8]) -> Vec<u8> {
        let count = literals.len() as u16;
        let literals: Vec<u8> = literals
            .iter()
            .flat_map(|code| code.to_le_bytes())
            .collect();
        let head = [&[kind, 0][..], &count.to_le_bytes(), &bound.to_le_bytes()].concat();
        [&head, &literals, tail].concat()
    }

    /// A step of kind 4.
    fn resolution(bound: u64, literals: &[u16], cited: [u32; 2], pivot: u16) -> Vec<u8> {
        let tail = [
            &cited.map(u32::to_le_bytes).concat()[..],
            &pivot.to_le_bytes(),
        ]
        .concat();
        body(4, bound, literals, &tail)
    }

    /// A record for the sheet of A1: an idle step, and so many resolutions in a row that each rests on the one before it.
    fn chain(links: u32) -> Vec<u8> {
        let copy = |literals, clause: u32| body(1, NONE, literals, &clause.to_le_bytes());
        let mut steps = vec![body(2, 0, &[], &[]), copy(&[2, 5], 2), copy(&[2, 4], 1)];
        // Each holds its own pivot again, so that there is something to resolve for the next.
        steps.extend((0..links).map(|link| resolution(NONE, &[2, 4], [3 + link, 2], 2)));
        let last = 3 + links;
        steps.push(resolution(NONE, &[2], [last, 2], 2));
        steps.push(body(2, 3, &[3], &[]));
        steps.push(resolution(3, &[], [last + 1, last + 2], 1));
        let count = steps.len() as u32;
        let mut record = [&3u64.to_le_bytes()[..], &count.to_le_bytes(), &[1]].concat();
        let mut offset = record.len() as u32 + 8 * count;
        for step in &steps {
            let size = step.len() as u32;
            record.extend([offset, size].map(u32::to_le_bytes).concat());
            offset += size;
        }
        [record, steps.concat()].concat()
    }

    /// What is cited is looked up however far back it goes, and counted anew.
    #[test]
    fn a_chain_of_citations_is_kept_from_end_to_end() {
        let sheet = include_bytes!("../../../examples/A1/sheet");
        let record = chain(40_000);
        let steps = judge(sheet, &record).step_count as usize;
        let (mut marks, mut out) = (vec![7; steps], vec![7; record.len()]);
        let length = trim(sheet, &record, &mut marks, &mut out).length as usize;
        assert_eq!((steps, length), (40_006, record.len() - 20));
        assert!(marks[0] == 0 && marks[1..].iter().all(|mark| *mark == 1));
        assert_eq!(
            judge(sheet, &out[..length]).line(),
            "least 3 open 1 steps 40005"
        );
    }

    /// What comes of calls in a thread with so many KB of stack, of which some go to the thread itself.
    fn with_stack<T: Send + 'static>(size: usize, calls: fn() -> T) -> T {
        let thread = std::thread::Builder::new().stack_size(size * 1024);
        thread.spawn(calls).unwrap().join().unwrap()
    }

    /// Less than 88 KB for a call that does not search.
    #[test]
    fn a_small_stack_is_enough() {
        let calls = || {
            let sheet = include_bytes!("../../../examples/D/sheet");
            let record = include_bytes!("../../../examples/D/record");
            let most = most_clauses(1, &[]);
            let mut out = most.clone();
            let written = write_sheet(&most, &mut out).length;
            // Trimming goes back from step to step, and through all of these.
            let (a1, long) = (include_bytes!("../../../examples/A1/sheet"), chain(10_000));
            let (mut marks, mut left) = (vec![0; 10_006], long.clone());
            let trimmed = trim(a1, &long, &mut marks, &mut left).length as usize;
            // Turning goes through as many variables, clauses and turns.
            let (wide, turns) = (most_clauses(1_024, &[3, 2_049]), [1, 1_024].repeat(5_001));
            let [mut bits, mut index, mut counts] = [128, 40_960, 8_192].map(|size| vec![0; size]);
            let turned = turn(&wide, &mut bits, &turns, &mut index, &mut counts);
            (
                judge(sheet, record).cost,
                show(sheet, record, 1).len(),
                written,
                long.len() - trimmed,
                turned.total,
            )
        };
        assert_eq!(with_stack(88, calls), (11, 6, 16, 20, 4_096));
    }

    /// Less than 336 KB for a search, which goes as deep as there are variables: all of them are chosen, one below the other,
    /// or all but the last, which each of the clauses forces.
    #[test]
    fn a_search_goes_deep_in_little_stack() {
        let calls = || {
            let free = most_clauses(64, &[3, 129]);
            let forced = most_clauses(64, &[2, 128]);
            [free, forced].map(|sheet| search(&sheet, 1_000).choices)
        };
        assert_eq!(with_stack(336, calls), [128, 126]);
    }
}
