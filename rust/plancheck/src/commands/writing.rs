//! The command that writes a sheet in the one way.

use super::{clause_count, print, Outcome};
use crate::args::Args;
use crate::files;
use crate::sheet::{is_marked, Sheet};
use std::io::Write;
use std::path::Path;

pub(super) fn written(args: &Args, out: &mut dyn Write) -> Outcome {
    let [path] = args.files()?;
    let output = args.needed_output()?;
    let sheet = files::read(path)?;
    let canonical = files::canonical(path, &sheet)?;
    files::write(output, &canonical)?;
    print(out, &told(output, &sheet, &canonical))
}

/// What stands in the output, and whether clauses have other numbers there.
fn told(output: &Path, sheet: &[u8], canonical: &[u8]) -> String {
    let (output, bytes) = (output.display(), canonical.len());
    let [before, after] = [sheet, canonical].map(clauses);
    let repeats = before.len() - after.len();
    // Without its mark a sheet has other bytes even where every clause has kept its number.
    let moved = match (sheet == canonical, before == after) {
        (true, _) => "nothing has moved: the sheet was written in this way already",
        (_, true) => "no clause number has moved: a record of the sheet does for the written one too",
        _ => "clause numbers have moved or are gone: a record keeps to the sheet that it was made for",
    };
    let mark = match is_marked(sheet) && !is_marked(canonical) {
        true => "the mark is left out, since the loss is 0\n",
        false => "",
    };
    let clauses = clause_count(after.len());
    format!("{output}: {clauses}, {bytes} bytes; repeats left out: {repeats}\n{mark}{moved}\n")
}

/// The bodies of a sheet's clauses, in order.
fn clauses(bytes: &[u8]) -> Vec<&[u8]> {
    let sheet = Sheet::open(bytes);
    let bodies = sheet.iter().flat_map(|sheet| {
        let numbers = 1..=sheet.clauses.count();
        numbers.filter_map(|number| sheet.clauses.body(number))
    });
    bodies.collect()
}
