//! Runs every command of docs/GUIDE.md in one folder, in order, and compares what it prints with what the guide says.
//!
//! In a fenced block a line with `$ ` in front is a command, `> ` goes on with it, and the rest is what is printed.

mod common;

use common::{root, Folder};
use std::ffi::OsString;
use std::path::Path;
use std::process::Command;

/// A command with what the guide says that it prints.
struct Run {
    line: usize,
    command: String,
    wanted: String,
}

fn runs(guide: &str) -> Vec<Run> {
    let mut runs: Vec<Run> = Vec::new();
    let mut fenced = false;
    for (place, line) in guide.lines().enumerate() {
        if line.starts_with("```") {
            fenced = !fenced;
        } else if let Some(command) = line.strip_prefix("$ ").filter(|_| fenced) {
            runs.push(Run {
                line: place + 1,
                command: command.to_string() + "\n",
                wanted: String::new(),
            });
        } else if fenced {
            let run = runs.last_mut().expect("a block begins with a command");
            match line.strip_prefix("> ") {
                Some(more) => run.command += &format!("{more}\n"),
                None => run.wanted += &format!("{line}\n"),
            }
        }
    }
    assert!(!fenced, "the last block has no end");
    runs
}

/// The folder of the program in front of the search path, so that the guide can call it by its name.
fn search_path() -> OsString {
    let folder = Path::new(env!("CARGO_BIN_EXE_plancheck")).parent().unwrap();
    let others = std::env::var_os("PATH").unwrap_or_default();
    let others = std::env::split_paths(&others).collect::<Vec<_>>();
    std::env::join_paths([folder.to_path_buf()].into_iter().chain(others)).unwrap()
}

#[test]
fn the_guide_prints_what_it_says() {
    let guide = std::fs::read_to_string(root().join("docs/GUIDE.md")).unwrap();
    let folder = Folder::new("guide");
    let runs = runs(&guide);
    for run in &runs {
        let mut shell = Command::new("sh");
        let script = format!("exec 2>&1\n{}", run.command);
        shell.args(["-c", &script]).current_dir(&folder.0);
        let output = shell.env("PATH", search_path()).output().unwrap();
        let printed = String::from_utf8(output.stdout).unwrap();
        assert_eq!(printed, run.wanted, "GUIDE.md, line {}", run.line);
    }
    assert!(runs.len() > 20, "{} commands", runs.len());
}

#[test]
fn every_command_line_of_the_guide_stands_in_a_block() {
    let guide = std::fs::read_to_string(root().join("docs/GUIDE.md")).unwrap();
    let outside = guide.split("```").step_by(2);
    for line in outside.flat_map(str::lines) {
        assert!(!line.trim_start().starts_with("$ "), "{line}");
        assert!(!line.trim_start().starts_with("plancheck "), "{line}");
    }
}
