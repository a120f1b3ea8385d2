//! Showing one cost clause, and the printed line of an answer.

use crate::judge::judge;
use crate::record;
use crate::sheet;
use crate::steps::{self, Inference};
use crate::{Answer, Verdict};

/// The stored literals of a step of a record that is not refused: for kind 1 the clause's body in the sheet, else the
/// part of the step that holds them. A gap hides nothing, since every step of such a record was in order. Where the
/// record is refused or has no step of that number, `&record[..0]`.
pub fn show<'a>(sheet: &'a [u8], record: &'a [u8], step: u64) -> &'a [u8] {
    shown(sheet, record, step).unwrap_or(&record[..0])
}

/// As [`show`], with `None` where there is nothing to show.
fn shown<'a>(sheet: &'a [u8], record: &'a [u8], step: u64) -> Option<&'a [u8]> {
    let answer = judge(sheet, record);
    if answer.refuses() || step == 0 || step > answer.step_count {
        return None;
    }
    // A record that is not refused can be read again, so from here on there is always something to show.
    let sheet = sheet::read(sheet).ok()?;
    let record = record::read(record, sheet.variable_count()).ok()?;
    let step = steps::read(record.steps.body(step), sheet.variable_count())?;
    match step.inference {
        Inference::Clause(clause) => Some(sheet.body(clause)),
        _ => Some(step.literal_bytes),
    }
}

/// The line that the program prints for an answer, without a newline.
pub fn line(answer: &Answer) -> String {
    let Answer {
        number,
        place,
        cost,
        open_count,
        step_count,
        gap,
    } = answer;
    match answer.verdict() {
        Verdict::Least => format!("least {cost} open {open_count} steps {step_count}"),
        Verdict::NoneExists => format!("none open 0 steps {step_count}"),
        Verdict::Within => {
            format!("within {gap} cost {cost} open {open_count} steps {step_count}")
        }
        Verdict::Refused => format!("refused {number} at {place}"),
    }
}
