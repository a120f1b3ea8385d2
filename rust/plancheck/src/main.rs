//! The program: hands its arguments over and turns the outcome into an exit code.
#![forbid(unsafe_code)]

use plancheck::commands;
use std::process::ExitCode;

fn main() -> ExitCode {
    let arguments: Vec<_> = std::env::args_os().skip(1).collect();
    ExitCode::from(commands::run(&arguments))
}
