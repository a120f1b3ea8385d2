//! Files that are written over: they stay as they were where that fails, and keep their permissions and links.

mod common;

use common::{code, complained, printed, Folder};
use plancheck::pack::pack;
use std::collections::BTreeSet;
use std::fs;
use std::os::unix::fs::{symlink, FileTypeExt, MetadataExt, PermissionsExt};
use std::process::{Command, Output};

/// Every command that writes a file, but for the file that `-o` names.
const WRITING: [&[&str]; 7] = [
    &["text", "sheet"],
    &["pack", "sheet.txt"],
    &["add", "sheet", "more.txt"],
    &["write", "sheet"],
    &["trim", "sheet", "record"],
    &["plan", "sheet"],
    &["import", "sheet.wcnf"],
];

/// A folder with something to read for each of them. The sheet has more bytes than the shells' smallest limits for a file, and so
/// has the record, trimmed too: its last step cites every clause, and the one before it is idle.
fn filled(name: &str) -> Folder {
    let folder = Folder::new(name);
    let costs: String = (1..=300).map(|v| format!("cost {v} 1\n")).collect();
    let clauses = (1..=300).rev().map(|v| format!("clause {v}\n"));
    let text = format!("sheet\n{costs}{}", clauses.collect::<String>());
    let all: String = (1..=300).map(|number| format!(" {number}")).collect();
    let steps = format!("cost : bound 0\nindependent{all} : bound 300\n");
    let record = format!("record\nvariables 300\nclaim 300\nassign{all}\n{steps}");
    folder.write("sheet", pack(&text).unwrap().1);
    folder.write("record", pack(&record).unwrap().1);
    folder.write("sheet.txt", text);
    folder.write("more.txt", "clause 1 2\n");
    folder.write("sheet.wcnf", "p wcnf 1 1 9\n9 1 0\n");
    folder
}

fn to<'a>(command: &[&'a str], output: &'a str) -> Vec<&'a str> {
    [command, &["-o", output]].concat()
}

/// Runs the program here as the process in which a shell has gone through a script.
fn run_after(folder: &Folder, script: &str, arguments: &[&str]) -> Output {
    let mut shell = Command::new("sh");
    shell.args(["-c", &format!("{script}; exec \"$@\""), "sh"]);
    shell.arg(env!("CARGO_BIN_EXE_plancheck")).args(arguments);
    shell.current_dir(&folder.0).output().unwrap()
}

/// Runs the program where no file may have more than so many blocks. Then writing fails as on a full disk, for root too.
fn run_limited(folder: &Folder, blocks: usize, arguments: &[&str]) -> Output {
    let script = format!("trap '' XFSZ; ulimit -f {blocks}");
    run_after(folder, &script, arguments)
}

fn names(folder: &Folder) -> BTreeSet<String> {
    let entries = fs::read_dir(&folder.0).unwrap();
    let name = |entry: fs::DirEntry| entry.file_name().into_string().unwrap();
    entries.map(|entry| name(entry.unwrap())).collect()
}

fn mode(folder: &Folder, name: &str) -> u32 {
    let data = fs::metadata(folder.0.join(name)).unwrap();
    data.permissions().mode() & 0o777
}

#[test]
fn what_cannot_be_written_leaves_the_old_file() {
    let folder = filled("kept");
    folder.write("out", "kept");
    let before = names(&folder);
    for command in WRITING {
        let failed = run_limited(&folder, 0, &to(command, "out"));
        assert_eq!((code(&failed), printed(&failed).as_str()), (2, ""));
        let message = complained(&failed);
        let start = "plancheck: out: cannot be written: ";
        assert!(message.starts_with(start), "{message}");
        assert_eq!(folder.read("out"), b"kept", "{command:?}");
        assert_eq!(names(&folder), before, "{command:?}");
    }
}

/// Runs a command that is to write over what it reads, where nothing of it can be written, or the first blocks alone.
fn outlives(folder: &Folder, file: &str, command: &[&str]) {
    let (before, bytes) = (names(folder), folder.read(file));
    for blocks in [0, 1] {
        let failed = run_limited(folder, blocks, &to(command, file));
        let message = complained(&failed);
        let start = format!("plancheck: {file}: cannot be written: ");
        assert!(
            code(&failed) == 2 && message.starts_with(&start),
            "{message}"
        );
        assert_eq!(folder.read(file), bytes, "{blocks} blocks");
        assert_eq!(names(folder), before, "{blocks} blocks");
    }
}

#[test]
fn a_sheet_outlives_writing_over_itself() {
    outlives(&filled("outlives"), "sheet", &["write", "sheet"]);
}

#[test]
fn a_sheet_outlives_adding_to_itself() {
    let folder = filled("outlives-add");
    outlives(&folder, "sheet", &["add", "sheet", "more.txt"]);
}

#[test]
fn a_record_outlives_trimming_over_itself() {
    let folder = filled("outlives-trim");
    outlives(&folder, "record", &["trim", "sheet", "record"]);
}

/// Those of a new file would be others: they are what the user's mask leaves.
#[test]
fn permissions_stay() {
    let folder = filled("permissions");
    folder.write("out", "");
    let before = names(&folder);
    for kept in [0o600, 0o666, 0o755] {
        let permissions = fs::Permissions::from_mode(kept);
        fs::set_permissions(folder.0.join("out"), permissions).unwrap();
        for command in WRITING {
            folder.write("out", "old");
            assert_eq!(code(&folder.run(&to(command, "out"))), 0, "{command:?}");
            assert_ne!(folder.read("out"), b"old", "{command:?}");
            assert_eq!(mode(&folder, "out"), kept, "{command:?}");
        }
    }
    assert_eq!(names(&folder), before);
}

#[test]
fn a_link_leads_where_it_led() {
    let folder = filled("links");
    fs::create_dir(folder.0.join("inner")).unwrap();
    let links = [("link", "inner/out"), ("second", "link")];
    for (name, target) in links {
        symlink(target, folder.0.join(name)).unwrap();
    }
    // The first makes the file, the others write over it.
    for name in ["link", "link", "second"] {
        let written = folder.run(&["text", "sheet", "-o", name]);
        assert_eq!(code(&written), 0);
        let shown = printed(&folder.run(&["text", "sheet"]));
        assert_eq!(folder.read("inner/out"), shown.as_bytes());
        folder.write("inner/out", "old");
    }
    for (name, target) in links {
        assert_eq!(
            fs::read_link(folder.0.join(name)).unwrap().to_str(),
            Some(target)
        );
    }
    let inner = fs::read_dir(folder.0.join("inner")).unwrap();
    assert_eq!(inner.count(), 1);
}

/// A device or a pipe is written to, and no file takes its place.
#[test]
fn what_is_no_file_is_written_to() {
    let folder = filled("devices");
    for command in WRITING {
        let failed = folder.run(&to(command, "/dev/full"));
        let message = complained(&failed);
        let start = "plancheck: /dev/full: cannot be written: No space left on device";
        assert!(
            code(&failed) == 2 && message.starts_with(start),
            "{message}"
        );
    }
    let kind = fs::metadata("/dev/full").unwrap().file_type();
    assert!(kind.is_char_device());
    let text = printed(&folder.run(&["text", "sheet"]));
    let piped = folder.run(&["text", "sheet", "-o", "/dev/stdout"]);
    assert_eq!(printed(&piped), text);
    // What a shell has open stays the file that it was.
    folder.write("shown", "");
    let number = || fs::metadata(folder.0.join("shown")).unwrap().ino();
    let before = number();
    run_after(
        &folder,
        "exec > shown",
        &["text", "sheet", "-o", "/dev/stdout"],
    );
    assert_eq!(folder.read("shown"), text.as_bytes());
    assert_eq!(number(), before);
}

/// The shell's process becomes the program's, so that it knows the name that comes first.
#[test]
fn a_file_with_the_name_of_the_new_one_stays() {
    let folder = filled("clash");
    folder.write("out", "old");
    let before = names(&folder);
    let script = "printf kept > .plancheck-$$-0";
    let written = run_after(&folder, script, &["text", "sheet", "-o", "out"]);
    assert_eq!(code(&written), 0);
    assert_ne!(folder.read("out"), b"old");
    let after = names(&folder);
    let more: Vec<&String> = after.difference(&before).collect();
    assert!(more.len() == 1 && more[0].starts_with(".plancheck-"));
    assert_eq!(folder.read(more[0]), b"kept");
}
