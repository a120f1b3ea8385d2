//! What the tests share: the program, the examples, and a folder that goes away.
#![allow(dead_code)]

use std::fs;
use std::path::{Path, PathBuf};
use std::process::{Command, Output};

pub struct Folder(pub PathBuf);

impl Folder {
    /// A new folder; tests run at the same time, so that each has its own name.
    pub fn new(name: &str) -> Folder {
        let place = std::env::temp_dir().join(format!("plancheck-{}-{name}", std::process::id()));
        fs::create_dir_all(&place).unwrap();
        Folder(place)
    }

    pub fn write(&self, name: &str, bytes: impl AsRef<[u8]>) {
        fs::write(self.0.join(name), bytes).unwrap();
    }

    pub fn read(&self, name: &str) -> Vec<u8> {
        fs::read(self.0.join(name)).unwrap()
    }

    /// Runs the program here.
    pub fn run(&self, arguments: &[&str]) -> Output {
        let mut command = Command::new(env!("CARGO_BIN_EXE_plancheck"));
        command.args(arguments).current_dir(&self.0);
        command.output().unwrap()
    }
}

impl Drop for Folder {
    fn drop(&mut self) {
        let _ = fs::remove_dir_all(&self.0);
    }
}

pub fn code(output: &Output) -> i32 {
    output.status.code().unwrap()
}

pub fn printed(output: &Output) -> String {
    String::from_utf8(output.stdout.clone()).unwrap()
}

pub fn complained(output: &Output) -> String {
    String::from_utf8(output.stderr.clone()).unwrap()
}

/// The repository's folder.
pub fn root() -> PathBuf {
    Path::new(env!("CARGO_MANIFEST_DIR")).join("../..")
}

/// The reference checker's answer, which shares no code with an explanation of it.
pub fn judged(sheet: &[u8], record: &[u8]) -> proved::Answer {
    let answer = reference::judge(sheet, record);
    proved::Answer {
        number: u64::from(answer.number),
        place: answer.place,
        cost: answer.cost,
        open_count: answer.open_count,
        step_count: answer.step_count,
        gap: answer.gap,
    }
}
