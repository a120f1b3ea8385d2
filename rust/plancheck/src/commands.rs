//! The commands: each reads its files, does its work, and gives the exit code.

mod adding;
mod judging;
mod planning;
mod searching;
mod texts;
mod trimming;
mod trying;
mod writing;

use crate::args::Args;
use crate::failure::Failure;
use crate::words::Fault;
use crate::{files, help};
use proved::Verdict;
use std::ffi::OsString;
use std::io::{self, BufWriter, Write};
use std::path::Path;

type Outcome = Result<u8, Failure>;

struct Command {
    name: &'static str,
    help: &'static str,
    known: &'static [&'static str],
    run: fn(&Args, &mut dyn Write) -> Outcome,
}

#[rustfmt::skip]
const COMMANDS: [Command; 12] = [
    Command { name: "judge", help: help::JUDGE, known: &[], run: judging::judge },
    Command { name: "explain", help: help::EXPLAIN, known: &[], run: judging::explained },
    Command { name: "stats", help: help::STATS, known: &[], run: judging::counted },
    Command { name: "text", help: help::TEXT, known: &["--record", "-o"], run: texts::as_text },
    Command { name: "pack", help: help::PACK, known: &["-o"], run: texts::packed },
    Command { name: "add", help: help::ADD, known: &["-o"], run: adding::added },
    Command { name: "write", help: help::WRITE, known: &["-o"], run: writing::written },
    Command { name: "trim", help: help::TRIM, known: &["-o"], run: trimming::trimmed },
    Command { name: "search", help: help::SEARCH, known: &["--budget"], run: searching::searched },
    Command { name: "try", help: help::TRY, known: &[], run: trying::tried },
    Command { name: "plan", help: help::PLAN, known: &["--tree", "--unweighted", "--steps", "-o"], run: planning::planned },
    Command { name: "import", help: help::IMPORT, known: &["-o"], run: planning::imported },
];

/// Runs the program and gives its exit code.
pub fn run(arguments: &[OsString]) -> u8 {
    let mut out = BufWriter::new(io::stdout().lock());
    let Some((name, rest)) = arguments.split_first() else {
        eprint!("{}", help::ALL);
        return 2;
    };
    let name = name.to_string_lossy();
    if name == "--help" || name == "-h" {
        return finished(print(&mut out, help::ALL), help::ALL);
    }
    let Some(command) = COMMANDS.iter().find(|command| command.name == name) else {
        eprint!("plancheck: unknown command {name}\n\n{}", help::ALL);
        return 2;
    };
    let outcome = Args::read(rest, command.known).and_then(|args| {
        if args.help {
            return print(&mut out, command.help);
        }
        let code = (command.run)(&args, &mut out)?;
        out.flush().map_err(unprinted)?;
        Ok(code)
    });
    finished(outcome, command.help)
}

fn finished(outcome: Outcome, help: &str) -> u8 {
    match outcome {
        Ok(code) => code,
        Err(failure) => {
            eprintln!("plancheck: {}", failure.message());
            if matches!(failure, Failure::Usage(_)) {
                eprint!("\n{help}");
            }
            failure.exit_code()
        }
    }
}

fn print(out: &mut dyn Write, text: &str) -> Outcome {
    let printed = out.write_all(text.as_bytes()).and_then(|()| out.flush());
    printed.map(|()| 0).map_err(unprinted)
}

fn unprinted(error: io::Error) -> Failure {
    Failure::Unreadable(format!("standard output: {error}"))
}

fn both(args: &Args) -> Result<(Vec<u8>, Vec<u8>), Failure> {
    let [sheet, record] = args.files()?;
    Ok((files::read(sheet)?, files::read(record)?))
}

/// A record within a gap is neither accepted nor refused, and has a code of its own.
fn code(answer: &proved::Answer) -> u8 {
    match answer.verdict() {
        Verdict::Least | Verdict::NoneExists => 0,
        Verdict::Refused => 1,
        Verdict::Within => 3,
    }
}

fn clause_count(count: usize) -> String {
    match count {
        1 => "1 clause".to_string(),
        count => format!("{count} clauses"),
    }
}

fn at_line(path: &Path, fault: &Fault) -> Failure {
    let (path, line, reason) = (path.display(), fault.line, &fault.reason);
    Failure::Content(format!("{path}: line {line}: {reason}"))
}
