//! `reference SHEET RECORD` prints the judgement's line. A test tool: nothing here is proved.
//!
//! The exit code is 0 for an acceptance alone, 1 for a refusal and 3 for "within"; 2 where there was nothing to judge.

use reference::{judge, line, Verdict};
use std::process::ExitCode;

const HELP: &str =
    "reference SHEET RECORD: judge a record by the checker written for tests, which is not proved";

fn main() -> ExitCode {
    let paths: Vec<_> = std::env::args_os().skip(1).collect();
    let [sheet, record] = paths.as_slice() else {
        eprintln!("{HELP}");
        return ExitCode::from(2);
    };
    let mut files = Vec::new();
    for path in [sheet, record] {
        match std::fs::read(path) {
            Ok(bytes) => files.push(bytes),
            Err(error) => {
                eprintln!("cannot read {}: {error}", path.to_string_lossy());
                return ExitCode::from(2);
            }
        }
    }
    let answer = judge(&files[0], &files[1]);
    println!("{}", line(&answer));
    match answer.verdict() {
        Verdict::Least | Verdict::NoneExists => ExitCode::SUCCESS,
        Verdict::Refused => ExitCode::from(1),
        Verdict::Within => ExitCode::from(3),
    }
}
