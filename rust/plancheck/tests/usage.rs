//! Wrong calls and files that are not there.

mod common;

use common::{code, complained, printed, Folder};

const COMMANDS: [&str; 12] = [
    "judge", "explain", "stats", "text", "pack", "add", "write", "trim", "search", "try", "plan",
    "import",
];

#[test]
fn every_command_has_help() {
    let folder = Folder::new("help");
    for command in COMMANDS {
        let helped = folder.run(&[command, "--help"]);
        assert_eq!(code(&helped), 0);
        assert!(printed(&helped).starts_with(&format!("plancheck {command} ")));
    }
    let helped = folder.run(&["--help"]);
    assert_eq!(code(&helped), 0);
    for command in COMMANDS {
        assert!(printed(&helped).contains(&format!("plancheck {command} ")));
    }
}

#[test]
fn wrong_use_shows_help_and_exits_with_2() {
    let folder = Folder::new("usage");
    folder.write("a", "sheet\ncost 1 1\n");
    let calls: [&[&str]; 26] = [
        &[],
        &["guess"],
        &["judge"],
        &["judge", "a"],
        &["judge", "a", "a", "a"],
        &["judge", "--fast", "a", "a"],
        &["judge", "a", "a", "-o", "b"],
        &["explain", "a"],
        &["stats", "a"],
        &["try"],
        &["try", "a", "a", "a"],
        &["text"],
        &["text", "a", "a"],
        &["text", "--record", "a"],
        &["pack", "a"],
        &["pack", "a", "-o"],
        &["plan", "a"],
        &["import", "a", "-o", "b", "-o", "c"],
        &["plan", "a", "-o", "b", "--steps"],
        &["plan", "--steps", "0", "a", "-o", "b"],
        &["plan", "--steps", "-1", "a", "-o", "b"],
        &["plan", "--steps", "1.5", "a", "-o", "b"],
        &["plan", "--steps", "few", "a", "-o", "b"],
        &["plan", "--steps", "3", "--steps", "3", "a", "-o", "b"],
        &["plan", "--steps", "3", "--tree", "a", "-o", "b"],
        &["judge", "--steps", "3", "a", "a"],
    ];
    for call in calls {
        let wrong = folder.run(call);
        assert_eq!(code(&wrong), 2, "{call:?}");
        assert!(complained(&wrong).contains("plancheck "), "{call:?}");
        assert!(complained(&wrong).contains(" SHEET") || complained(&wrong).contains(" TEXT"));
        assert_eq!(printed(&wrong), "");
        assert!(!folder.0.join("b").exists(), "{call:?}");
    }
}

#[test]
fn files_that_cannot_be_read_or_written_exit_with_2() {
    let folder = Folder::new("unreadable");
    folder.write("a.txt", "sheet\ncost 1 1\n");
    let calls: [(&[&str], &str); 16] = [
        (&["judge", "a.txt", "gone"], "gone"),
        (&["explain", "gone", "a.txt"], "gone"),
        (&["text", "."], "."),
        (&["pack", "gone", "-o", "b"], "gone"),
        (&["pack", "a.txt", "-o", "gone/b"], "gone/b"),
        (&["pack", "a.txt", "-o", "."], "."),
        (&["add", "gone", "a.txt", "-o", "b"], "gone"),
        (&["add", "a.txt", "gone", "-o", "b"], "gone"),
        (&["write", "gone", "-o", "b"], "gone"),
        (&["trim", "gone", "a.txt", "-o", "b"], "gone"),
        (&["trim", "a.txt", "gone", "-o", "b"], "gone"),
        (&["search", "gone"], "gone"),
        (&["search", ".", "--budget", "3"], "."),
        (&["try", "gone"], "gone"),
        (&["try", "a.txt", "gone"], "gone"),
        (&["import", "gone", "-o", "b"], "gone"),
    ];
    for (call, file) in calls {
        let wrong = folder.run(call);
        assert_eq!(code(&wrong), 2, "{call:?}");
        let start = format!("plancheck: {file}: cannot be ");
        assert!(complained(&wrong).starts_with(&start), "{call:?}");
    }
}

#[test]
fn what_is_no_text_names_its_byte() {
    let folder = Folder::new("no-text");
    folder.write("a.txt", b"sheet\n\xFF");
    let wrong = folder.run(&["pack", "a.txt", "-o", "b"]);
    assert_eq!(code(&wrong), 1);
    assert!(complained(&wrong).contains("a.txt: byte 6: "));
}
