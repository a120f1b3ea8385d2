//! The program: its line and its exit code, which is 0 for acceptances alone.

mod common;

use common::*;
use std::fs;
use std::path::Path;
use std::process::Command;

/// The program run on two files of these bytes, in a folder of this name: what it prints, and its exit code.
fn run(folder: &str, sheet: &[u8], record: &[u8]) -> (String, Option<i32>) {
    let folder = Path::new(env!("CARGO_TARGET_TMPDIR")).join(folder);
    fs::create_dir_all(&folder).unwrap();
    let paths = [("sheet", sheet), ("record", record)].map(|(name, bytes)| {
        let path = folder.join(name);
        fs::write(&path, bytes).unwrap();
        path
    });
    let output = Command::new(env!("CARGO_BIN_EXE_reference"))
        .args(paths)
        .output()
        .unwrap();
    let printed = String::from_utf8(output.stdout).unwrap();
    (printed, output.status.code())
}

fn assert_run(folder: &str, files: (Vec<u8>, Vec<u8>), line: &str, code: i32) {
    let (printed, exit_code) = run(folder, &files.0, &files.1);
    assert_eq!(printed, format!("{line}\n"));
    assert_eq!(exit_code, Some(code));
}

#[test]
fn an_acceptance_exits_with_0() {
    let least = (sheet_a(), record_a());
    assert_run("least", least, "least 3 open 1 steps 5", 0);
    let steps = [clause_step(&[], 1)];
    let none = (sheet(&[7], &[&[]]), record(NONE, &[0], &steps));
    assert_run("none", none, "none open 0 steps 1", 0);
}

#[test]
fn a_refusal_exits_with_1() {
    let close = (sheet_c(), record_c1());
    assert_run("close", close, "refused 19 at 1", 1);
    assert_run("empty", (vec![], vec![]), "refused 2 at 0", 1);
}

#[test]
fn a_gap_exits_with_3() {
    let files = (sheet_a(), record_a4());
    assert_run("within", files, "within 5 cost 8 open 2 steps 5", 3);
}

#[test]
fn without_files_to_judge_it_exits_with_2() {
    let run = |arguments: &[&str]| {
        let mut program = Command::new(env!("CARGO_BIN_EXE_reference"));
        let output = program.args(arguments).output().unwrap();
        assert_eq!(output.stdout, b"");
        output.status.code()
    };
    let missing = concat!(env!("CARGO_TARGET_TMPDIR"), "/missing");
    assert_eq!(run(&[]), Some(2));
    assert_eq!(run(&[missing]), Some(2));
    assert_eq!(run(&[missing, missing]), Some(2));
}
