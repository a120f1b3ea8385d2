//! The command that turns variables one by one, as standard input names them, and tells which clauses break.

use super::{print, Outcome};
use crate::args::Args;
use crate::failure::Failure;
use crate::files;
use crate::record::{width, ASSIGNMENT};
use crate::turns::{start_line, turn_line, Change, Trial, SHOWN};
use crate::words::{no_variable, Fault, Words};
use proved::Turned;
use std::io::{self, BufRead, IsTerminal, Read, Write};
use std::path::{Path, PathBuf};

/// So many bytes a line may have before its end: an endless one must not fill the memory.
const LONGEST: usize = 1_000;

/// Names of standard input. It has the turns, and cannot have a file too.
const STANDARD_INPUT: [&str; 3] = ["/dev/stdin", "/dev/fd/0", "/proc/self/fd/0"];

pub(super) fn tried(args: &Args, out: &mut dyn Write) -> Outcome {
    let (sheet_path, record_path) = paths(args)?;
    let sheet = files::read(sheet_path)?;
    let record = record_path.map(|path| files::read(path).map(|record| (path.as_path(), record)));
    let mut trial = Trial::new(&sheet);
    let start = begin(&mut trial, sheet_path, &sheet, record.transpose()?)?;
    let most = match io::stdout().is_terminal() {
        true => SHOWN,
        false => usize::MAX,
    };
    let line = start_line(&trial.broken(), start.total, most);
    print(out, &format!("{line}\n"))?;
    turn_all(&mut trial, &mut io::stdin().lock(), out, most)
}

/// A sheet, and perhaps a record.
fn paths(args: &Args) -> Result<(&PathBuf, Option<&PathBuf>), Failure> {
    let named = |path: &&PathBuf| STANDARD_INPUT.iter().any(|name| path.as_os_str() == *name);
    if let Some(path) = args.files.iter().find(named) {
        let path = path.display();
        let both = format!("{path} has the turns: SHEET and RECORD have to be other files");
        return Err(Failure::Usage(both));
    }
    match args.files.as_slice() {
        [sheet] => Ok((sheet, None)),
        [sheet, record] => Ok((sheet, Some(record))),
        files => {
            let count = files.len();
            let due = format!("1 file is due, or 2, not {count}");
            Err(Failure::Usage(due))
        }
    }
}

/// Has the clauses counted without any turn. That tells a refused sheet, before the record is looked at: how long an assignment is,
/// the sheet says.
fn begin(
    trial: &mut Trial,
    path: &Path,
    sheet: &[u8],
    record: Option<(&Path, Vec<u8>)>,
) -> Result<Change, Failure> {
    let refused = |turned: Turned| files::refused_alone(path, sheet, turned.number, turned.place);
    let start = trial.turn(&[]).map_err(refused)?;
    let Some((path, record)) = record else {
        return Ok(start);
    };
    let assigned = trial.assign(&record);
    assigned.ok_or_else(|| short(path, record.len(), trial.variables))?;
    trial.turn(&[]).map_err(refused)
}

fn short(path: &Path, bytes: usize, variables: usize) -> Failure {
    let (path, end) = (path.display(), ASSIGNMENT + width(variables));
    Failure::Content(format!(
        "{path}: no assignment here: that of {variables} variables ends at byte {end}, the file has {bytes} bytes"
    ))
}

/// One line of the input after the other, as they come. A wrong one is told and left, and counts for the exit code alone.
fn turn_all(
    trial: &mut Trial,
    input: &mut dyn BufRead,
    out: &mut dyn Write,
    most: usize,
) -> Outcome {
    let asked = io::stdin().is_terminal();
    let variables = trial.variables;
    if asked {
        tell(&format!(
            "a variable from 1 to {variables} and Enter turns it, Ctrl-D ends\n"
        ));
    }
    let mut code = 0;
    for number in 1.. {
        if asked {
            tell("> ");
        }
        let Some(line) = next_line(input)? else {
            break;
        };
        match turned(trial, number, &line, most) {
            Ok(Some(told)) => {
                print(out, &format!("{told}\n"))?;
            }
            Ok(None) => {}
            Err(Fault { line, reason }) => {
                tell(&format!("line {line}: {reason}; nothing was turned\n"));
                code = 1;
            }
        }
    }
    if asked {
        tell("\n");
    }
    Ok(code)
}

/// On standard error. Where nobody reads that, the turns go on all the same.
fn tell(text: &str) {
    let _ = io::stderr().write_all(text.as_bytes());
}

/// The next line with its end, and nothing after the last. A line that is too long is cut, and the rest of it is left out.
fn next_line(input: &mut dyn BufRead) -> Result<Option<Vec<u8>>, Failure> {
    let mut line = Vec::new();
    let read = input
        .take(LONGEST as u64 + 1)
        .read_until(b'\n', &mut line)
        .and_then(|_| match is_cut(&line) {
            true => input.skip_until(b'\n'),
            false => Ok(0),
        });
    read.map_err(|error| Failure::Unreadable(format!("standard input: cannot be read: {error}")))?;
    Ok(Some(line).filter(|line| !line.is_empty()))
}

fn is_cut(line: &[u8]) -> bool {
    line.len() > LONGEST && !line.ends_with(b"\n")
}

fn text(line: &[u8]) -> Result<&str, String> {
    if is_cut(line) {
        return Err(format!("a line has {LONGEST} bytes at most"));
    }
    std::str::from_utf8(line).map_err(|_| "this is no text".to_string())
}

/// What a line has done, or nothing where it is blank.
fn turned(
    trial: &mut Trial,
    number: usize,
    line: &[u8],
    most: usize,
) -> Result<Option<String>, Fault> {
    let text = text(line).map_err(|reason| Fault {
        line: number,
        reason,
    })?;
    let mut words = Words::new(number, text);
    let Some(variable) = words.turn(trial.variables)? else {
        return Ok(None);
    };
    let change = trial.turn(&[variable]).map_err(|refused| {
        let wrong = no_variable(&variable.to_string(), trial.variables);
        let (number, place) = (refused.number, refused.place);
        words.fault(format!("{wrong} (refused {number} at {place})"))
    })?;
    let value = trial.is_true(variable);
    Ok(Some(turn_line(variable, value, &change, most)))
}
