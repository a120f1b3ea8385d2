//! The command that searches a sheet for its best plan.

use super::{print, Outcome};
use crate::args::Args;
use crate::sheet::Sheet;
use crate::{files, search};
use proved::Found;
use std::io::{self, IsTerminal, Write};

pub(super) fn searched(args: &Args, out: &mut dyn Write) -> Outcome {
    let [path] = args.files()?;
    let bytes = files::read(path)?;
    let found = found(&bytes, args.budget.unwrap_or(search::BUDGET));
    match Sheet::open(&bytes).filter(|_| found.number == 0) {
        Some(sheet) => print(out, &(search::lines(&sheet, &found).join("\n") + "\n")),
        None => {
            let (number, place) = (found.number.into(), found.place.into());
            Err(files::refused_alone(path, &bytes, number, place))
        }
    }
}

/// Only a person who looks on is worth the time that it takes to search in parts.
fn found(bytes: &[u8], budget: u64) -> Found {
    match Sheet::open(bytes).filter(|_| io::stderr().is_terminal()) {
        Some(sheet) => search::in_parts(bytes, budget, |found| {
            eprintln!("{}", search::progress_line(&sheet, found, budget));
        }),
        None => proved::search(bytes, budget),
    }
}
