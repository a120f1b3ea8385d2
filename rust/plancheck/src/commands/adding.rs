//! The command that adds clauses at the end of a sheet.

use super::{at_line, clause_count, print, Outcome};
use crate::args::Args;
use crate::files;
use crate::pack::{self, Clause};
use crate::refusals::sentence;
use crate::sheet::is_marked;
use crate::words::Fault;
use planner::{format, MOST_CLAUSES};
use std::io::Write;
use std::path::Path;

pub(super) fn added(args: &Args, out: &mut dyn Write) -> Outcome {
    let [sheet_path, text_path] = args.files()?;
    let output = args.needed_output()?;
    files::keeps(output, text_path, "text")?;
    let (sheet, text) = (files::read(sheet_path)?, files::read_text(text_path)?);
    let mut problem = files::problem(sheet_path, &sheet)?;
    let before = problem.clauses.len();
    let added = fitting(&text, before).map_err(|fault| at_line(text_path, &fault))?;
    let literals = added.iter().map(|clause| clause.literals.clone());
    problem.clauses.extend(literals);
    let longer = format::sheet(&problem);
    judged(&longer, before, &added).map_err(|fault| at_line(text_path, &fault))?;
    files::write(output, &longer)?;
    print(out, &told(output, longer.len(), before, added.len()))
}

/// The clauses of the text, where a valid sheet of so many has room for them.
fn fitting(text: &str, before: usize) -> Result<Vec<Clause>, Fault> {
    let added = pack::clauses(text)?;
    match added.get(MOST_CLAUSES - before) {
        None => Ok(added),
        Some(Clause { line, .. }) => {
            let (line, count) = (*line, added.len());
            let reason = format!("this is one clause too many: the sheet has {before}, the text has {count}, and {MOST_CLAUSES} together are the most");
            Err(Fault { line, reason })
        }
    }
}

/// The proved checker's word on the longer sheet. Without the added clauses it had nothing against it, so that what it says is
/// about one of them, or, where it names none, about all: then the first line is told.
fn judged(longer: &[u8], before: usize, added: &[Clause]) -> Result<(), Fault> {
    let Err(answer) = files::judged_alone(longer) else {
        return Ok(());
    };
    let place = (answer.place as usize).checked_sub(before + 1);
    let clause = place.and_then(|place| added.get(place));
    let line = clause.map_or(1, |clause| clause.line);
    // Without the byte of its place, since nothing is written that has one.
    let reason = [answer.line(), sentence(&answer, is_marked(longer))].join("\n");
    Err(Fault { line, reason })
}

/// What stands in the output, and by which numbers the added clauses are cited.
fn told(output: &Path, bytes: usize, before: usize, added: usize) -> String {
    let (first, last) = (before + 1, before + added);
    let numbers = match added {
        1 => format!("clause {first}"),
        _ => format!("clauses {first} to {last}"),
    };
    let (output, clauses) = (output.display(), clause_count(last));
    format!("{output}: {clauses}, {bytes} bytes; added: {numbers}\n")
}
