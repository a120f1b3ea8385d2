//! The printing program, run in folders of its own: every printed form and every message. `rt run`, in `crates/print`, builds
//! it, and so does `rt ci` at the repository's root.

use reference::Verdict;
use samples::examples::{example, examples, Example, COUNT};
use samples::Sample;
use std::fs;
use std::path::{Path, PathBuf};
use std::process::Command;

const LONGEST: usize = 65_536;

fn root() -> PathBuf {
    Path::new(env!("CARGO_MANIFEST_DIR"))
        .join("../..")
        .canonicalize()
        .unwrap()
}

/// A folder for one run, removed at its end.
struct Folder(PathBuf);

impl Folder {
    fn new(name: &str) -> Self {
        let path = std::env::temp_dir().join(format!("print-{name}-{}", std::process::id()));
        let _ = fs::remove_dir_all(&path);
        fs::create_dir_all(&path).unwrap();
        Folder(path)
    }

    fn with(self, file: &str, bytes: &[u8]) -> Self {
        fs::write(self.0.join(file), bytes).unwrap();
        self
    }

    fn with_folder(self, name: &str) -> Self {
        fs::create_dir(self.0.join(name)).unwrap();
        self
    }

    fn printed(&self) -> String {
        let program = root().join("crates/print/out/print");
        assert!(
            program.exists(),
            "the program is missing: run `rt run` in crates/print first"
        );
        let output = Command::new(program).current_dir(&self.0).output().unwrap();
        String::from_utf8(output.stdout).unwrap()
    }
}

impl Drop for Folder {
    fn drop(&mut self) {
        let _ = fs::remove_dir_all(&self.0);
    }
}

#[test]
fn every_example_prints_its_line() {
    let mut printed = 0;
    for example in examples() {
        let name = example.folder.file_name().unwrap().to_str().unwrap();
        let folder = Folder::new(name)
            .with("sheet", &example.sheet)
            .with("record", &example.record);
        assert_eq!(folder.printed(), example.line, "{name}");
        printed += 1;
    }
    assert_eq!(printed, COUNT);
}

/// Claims, gaps and counts of many lengths, which the examples have not.
#[test]
fn records_with_a_gap_print_their_lines() {
    let (mut printed, mut widest) = (0, 0);
    for Sample { sheet, record, .. } in samples::stream(10).take(8_000) {
        let answer = reference::judge(&sheet, &record);
        let read = sheet.len().max(record.len()) <= LONGEST;
        if answer.verdict() != Verdict::Within || !read {
            continue;
        }
        let folder = Folder::new("within");
        let folder = folder.with("sheet", &sheet).with("record", &record);
        let line = reference::line(&answer) + "\n";
        assert!(line.starts_with(&format!("within {} cost ", answer.gap)));
        assert_eq!(folder.printed(), line);
        printed += 1;
        widest = widest.max(answer.gap);
    }
    println!("{printed} lines, with gaps up to {widest}");
    assert!(printed > 80 && widest > u64::from(u32::MAX));
}

#[test]
fn a_missing_file_cannot_be_read() {
    let Example { sheet, record, .. } = example("A1");
    assert_eq!(
        Folder::new("no-sheet").with("record", &record).printed(),
        "cannot read sheet\n"
    );
    assert_eq!(
        Folder::new("no-record").with("sheet", &sheet).printed(),
        "cannot read record\n"
    );
}

#[test]
fn a_folder_cannot_be_read() {
    let Example { sheet, record, .. } = example("A1");
    let first = Folder::new("sheet-folder")
        .with_folder("sheet")
        .with("record", &record);
    assert_eq!(first.printed(), "cannot read sheet\n");
    let second = Folder::new("record-folder")
        .with("sheet", &sheet)
        .with_folder("record");
    assert_eq!(second.printed(), "cannot read record\n");
}

#[test]
fn a_file_may_have_65_536_bytes() {
    let Example { sheet, record, .. } = example("A1");
    let full = vec![0; LONGEST];
    // what is read is judged: a sheet of zeros has no variable, and zeros are no record
    let first = Folder::new("full-sheet")
        .with("sheet", &full)
        .with("record", &record);
    assert_eq!(first.printed(), "refused 2 at 0\n");
    let second = Folder::new("full-record")
        .with("sheet", &sheet)
        .with("record", &full);
    assert_eq!(second.printed(), "refused 5 at 0\n");
}

#[test]
fn a_byte_more_is_too_long() {
    let Example { sheet, record, .. } = example("A1");
    let long = vec![0; LONGEST + 1];
    let first = Folder::new("long-sheet")
        .with("sheet", &long)
        .with("record", &record);
    assert_eq!(first.printed(), "too long sheet\n");
    let second = Folder::new("long-record")
        .with("sheet", &sheet)
        .with("record", &long);
    assert_eq!(second.printed(), "too long record\n");
}

#[test]
fn an_empty_file_is_read() {
    let Example { sheet, record, .. } = example("A1");
    assert_eq!(
        Folder::new("empty-sheet")
            .with("sheet", &[])
            .with("record", &record)
            .printed(),
        "refused 2 at 0\n"
    );
    assert_eq!(
        Folder::new("empty-record")
            .with("sheet", &sheet)
            .with("record", &[])
            .printed(),
        "refused 5 at 0\n"
    );
}

#[test]
fn where_both_fail_the_sheet_is_told() {
    let long = vec![0; LONGEST + 1];
    assert_eq!(Folder::new("none").printed(), "cannot read sheet\n");
    assert_eq!(
        Folder::new("long-none").with("sheet", &long).printed(),
        "too long sheet\n"
    );
    assert_eq!(
        Folder::new("none-long").with("record", &long).printed(),
        "cannot read sheet\n"
    );
    assert_eq!(
        Folder::new("both-long")
            .with("sheet", &long)
            .with("record", &long)
            .printed(),
        "too long sheet\n"
    );
}
