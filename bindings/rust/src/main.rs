//! Judges a record from Rust: prints the answer's line; exits with 0 for an acceptance, which is `least` or `none`, 1 for a
//! refusal, 2 where it cannot tell, and 3 for `within`: a plan with a gap, neither accepted nor refused.
//!
//! Run, in this folder, after `tools/staticlib` at the repository's root:
//!
//!     cargo run --offline -- SHEET RECORD

use proved::Verdict;
use std::io::Write;
use std::process::ExitCode;
use std::{env, fs, io};

fn main() -> ExitCode {
    let words: Vec<_> = env::args_os().skip(1).collect();
    let [sheet, record] = &words[..] else {
        eprintln!("usage: judge SHEET RECORD");
        return ExitCode::from(2);
    };
    let (Some(sheet), Some(record)) = (read(sheet.as_ref()), read(record.as_ref())) else {
        return ExitCode::from(2);
    };
    let answer = proved::judge(&sheet, &record);
    // Not println: it ends the program with another code where the line cannot be written.
    if writeln!(io::stdout(), "{}", answer.line()).is_err() {
        return ExitCode::from(2);
    }
    ExitCode::from(match answer.verdict() {
        Verdict::Least | Verdict::NoneExists => 0,
        Verdict::Refused => 1,
        Verdict::Within => 3,
    })
}

fn read(path: &std::path::Path) -> Option<Vec<u8>> {
    let bytes = fs::read(path);
    if bytes.is_err() {
        eprintln!("cannot read {}", path.display());
    }
    bytes.ok()
}
