//! The command that leaves out the idle steps of a record.

use super::{both, print, Outcome};
use crate::args::Args;
use crate::files;
use crate::text::amount;
use crate::trim::{self, Trimmed};
use proved::Verdict;
use std::io::Write;
use std::path::Path;

pub(super) fn trimmed(args: &Args, out: &mut dyn Write) -> Outcome {
    let [sheet_path, record_path] = args.files()?;
    let output = args.needed_output()?;
    files::keeps(output, sheet_path, "sheet")?;
    let (sheet, record) = both(args)?;
    files::valid_sheet(sheet_path, &sheet)?;
    let trimmed = trim::trimmed(&sheet, &record)
        .map_err(|answer| files::refused_record(record_path, &sheet, &record, &answer))?;
    files::write(output, &trimmed.record)?;
    print(out, &told(output, &sheet, &record, &trimmed))
}

/// What stands in the output, and what is said of it beside what was said of the record.
fn told(output: &Path, sheet: &[u8], record: &[u8], trimmed: &Trimmed) -> String {
    let (output, kept, steps) = (output.display(), trimmed.kept(), trimmed.marks.len());
    let (after, before) = (trimmed.record.len(), record.len());
    let counts = format!("{output}: {kept} of {steps} steps kept, {after} of {before} bytes");
    if kept == steps {
        return format!("{counts}\nnothing was to be trimmed: no step is idle\n");
    }
    let (saved, answer) = (
        share(before - after, before),
        proved::judge(sheet, &trimmed.record),
    );
    let (line, lost) = (
        answer.line(),
        lost(sheet, record, trimmed, answer.verdict()),
    );
    format!("{counts}; saved: {saved}\nthe answer stays, but for the step count: {line}\n{lost}")
}

/// A line about the best step that is left out, where it shows more than is left. Nothing shows more than what is accepted.
fn lost(sheet: &[u8], record: &[u8], trimmed: &Trimmed, verdict: Verdict) -> String {
    let within = Some(trimmed).filter(|_| verdict == Verdict::Within);
    match within.and_then(|trimmed| trim::best_idle(sheet, record, &trimmed.marks)) {
        Some((number, bound)) => {
            let bound = amount(bound);
            format!("step {number}, which is left out, shows more: bound {bound}\n")
        }
        None => String::new(),
    }
}

/// A part in percent, rounded down: no more is said to be saved than was, and never all of it.
fn share(part: usize, whole: usize) -> String {
    match part as u128 * 100 / whole as u128 {
        0 => "under 1%".to_string(),
        percent => format!("{percent}%"),
    }
}
