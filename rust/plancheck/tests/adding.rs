//! `add`: clauses from a text behind those of a sheet, texts and sheets that are refused, and what becomes of records.

mod common;

use common::{code, complained, printed, Folder};
use plancheck::help;
use plancheck::pack::pack;
use plancheck::sheet::{literals, Sheet};
use plancheck::text::listed;
use planner::{format, Literal};
use samples::draft::code_bytes;
use samples::examples::{example, Example};
use samples::longer::stream;
use samples::random::Random;
use samples::sheets;
use std::fs;
use std::os::unix::fs::symlink;
use std::process::Command;

/// Sheet A with each sort of loss: no mark, a mark without a loss, and a loss.
const LOSSES: [&str; 3] = ["", "loss 0\n", "loss 4\n"];
const CLAUSES: &str = "clause 1 2\nclause 1 -2\n";

fn packed(text: &str) -> Vec<u8> {
    pack(text).unwrap().1
}

fn sheet_text(loss: &str, clauses: &str) -> String {
    format!("sheet\ncost 1 3\ncost 2 5\n{loss}{clauses}")
}

/// A folder with sheet A and this text.
fn holding(name: &str, text: &str) -> Folder {
    let folder = Folder::new(name);
    folder.write("sheet", example("A1").sheet);
    folder.write("more.txt", text);
    folder
}

const ADD: [&str; 5] = ["add", "sheet", "more.txt", "-o", "out"];

/// The bodies of a valid sheet's clauses.
fn bodies(bytes: &[u8]) -> Vec<&[u8]> {
    let sheet = Sheet::open(bytes).unwrap();
    let numbers = 1..=sheet.clauses.count();
    let bodies = numbers.map(|number| sheet.clauses.body(number).unwrap());
    bodies.collect()
}

/// The lines of a sheet's text without their comments.
fn lines(folder: &Folder, sheet: &str) -> Vec<String> {
    let shown = printed(&folder.run(&["text", sheet]));
    let content = |line: &str| line.split("  #").next().unwrap().to_string();
    shown.lines().map(content).collect()
}

#[test]
fn the_text_of_the_longer_sheet_is_the_text_with_the_clauses_behind_it() {
    let more = ["clause -1", "clause 1 2", "clause", "clause -1 -2"];
    let text = format!("# winter\n\n{}  # why\n", more.join("\n"));
    let folder = holding("add-inverse", &text);
    for loss in LOSSES {
        let sheet = packed(&sheet_text(loss, CLAUSES));
        folder.write("sheet", &sheet);
        let ran = folder.run(&ADD);
        let bytes = sheet.len() + 8 * 4 + 2 * 5;
        let told = format!("out: 6 clauses, {bytes} bytes; added: clauses 3 to 6\n");
        assert_eq!((printed(&ran), code(&ran)), (told, 0));
        let (old, longer) = (lines(&folder, "sheet"), folder.read("out"));
        let wanted: Vec<String> = old.into_iter().chain(more.map(String::from)).collect();
        assert_eq!(lines(&folder, "out"), wanted);
        assert_eq!(longer, packed(&(wanted.join("\n") + "\n")));
        assert_eq!(bodies(&longer)[..2], bodies(&sheet));
        // The mark, the costs, and the loss behind them: two pairs and two bodies follow these in the shorter sheet.
        let end = sheet.len() - 2 * (8 + 4);
        assert_eq!(longer[..2], sheet[..2]);
        assert_eq!(longer[4..end], sheet[4..end]);
        assert_eq!(folder.read("sheet"), sheet);
    }
}

/// A sheet without clauses, with one, and with some, gets one and several.
#[test]
fn one_line_tells_the_numbers_of_what_was_added() {
    let folder = holding("add-told", "");
    let cases = [
        ("", "clause 1\n", "1 clause, 22 bytes; added: clause 1"),
        (
            "",
            "clause\nclause\n",
            "2 clauses, 28 bytes; added: clauses 1 to 2",
        ),
        (
            "clause 1\n",
            "clause 2\n",
            "2 clauses, 32 bytes; added: clause 2",
        ),
        (
            CLAUSES,
            "clause -2\n",
            "3 clauses, 46 bytes; added: clause 3",
        ),
        (
            CLAUSES,
            "clause 1 2\nclause 1 2\nclause\n",
            "5 clauses, 68 bytes; added: clauses 3 to 5",
        ),
    ];
    for (own, more, told) in cases {
        folder.write("sheet", packed(&sheet_text("", own)));
        folder.write("more.txt", more);
        let ran = folder.run(&["add", "-o", "out", "sheet", "more.txt"]);
        assert_eq!((printed(&ran), code(&ran)), (format!("out: {told}\n"), 0));
        let wanted = packed(&sheet_text("", &format!("{own}{more}")));
        assert_eq!(folder.read("out"), wanted, "{own}{more}");
    }
}

fn clause_line(literals: &[Literal]) -> String {
    format!("clause{}\n", listed(literals))
}

/// A sheet that is cut before any clause and gets the rest back is the sheet that it was.
#[test]
fn what_is_cut_off_can_be_added_again() {
    let (folder, mut random) = (holding("add-cut", ""), Random::new(10));
    let mut count = 0;
    for _ in 0..60 {
        let mut problem = sheets::small(&mut random);
        let whole = format::sheet(&problem);
        let place = random.below(problem.clauses.len().max(1));
        let rest = problem.clauses.split_off(place);
        if rest.is_empty() {
            continue;
        }
        let text: String = rest.iter().map(|clause| clause_line(clause)).collect();
        folder.write("sheet", format::sheet(&problem));
        folder.write("more.txt", text);
        let ran = folder.run(&["add", "sheet", "more.txt", "-o", "sheet"]);
        assert_eq!((complained(&ran).as_str(), code(&ran)), ("", 0));
        assert_eq!(folder.read("sheet"), whole);
        count += 1;
    }
    assert!(count > 50, "{count}");
}

/// Runs the program on what is refused: nothing is printed, and no file is written, by whatever name.
fn refused(folder: &Folder, sheet: &[u8]) -> String {
    folder.write("sheet", sheet);
    folder.write("out", "kept");
    let mut messages = ["out", "sheet", "new"].map(|out| {
        let ran = folder.run(&["add", "sheet", "more.txt", "-o", out]);
        assert_eq!((code(&ran), printed(&ran).as_str()), (1, ""));
        complained(&ran)
    });
    assert_eq!(folder.read("out"), b"kept");
    assert_eq!(folder.read("sheet"), sheet);
    assert!(!folder.0.join("new").exists());
    messages.sort();
    assert_eq!(messages[0], messages[2]);
    messages[0].clone()
}

#[test]
fn a_refused_sheet_is_told_as_the_proved_checker_tells_it() {
    let good = example("A1").sheet;
    let mut unsorted = good.clone();
    unsorted[34] = 3;
    let cases = [
        (good[..3].to_vec(), "byte 0: refused 2 at 0\nSheet head: "),
        (
            good[..35].to_vec(),
            "byte 20: refused 3 at 2\nSheet pairs: ",
        ),
        (unsorted, "byte 32: refused 4 at 2\nRule form: "),
    ];
    let folder = holding("add-refused", "clause 1\n");
    for (sheet, told) in cases {
        let message = refused(&folder, &sheet);
        let start = format!("plancheck: sheet: {told}");
        assert!(message.starts_with(&start), "{message}");
    }
}

const NO_LIST: &str =
    "is no list of literals: each takes two bytes, of variables that the sheet has, rising.";

/// What the proved checker has against a longer sheet is told with the line of the text, whatever comment stands before it.
#[test]
fn a_clause_that_the_sheet_cannot_have_names_its_line() {
    let folder = holding("add-form", "");
    let cases = [
        ("clause 3\n", 1, 3),
        ("clause 1\n# more\nclause -2 3\nclause 9\n", 3, 4),
        ("clause 2 1\n", 1, 3),
        ("clause\n\nclause 1 -1\n", 3, 4),
        ("clause 1 1\n", 1, 3),
    ];
    for (text, line, place) in cases {
        folder.write("more.txt", text);
        let message = refused(&folder, &example("A1").sheet);
        let told = format!(
            "more.txt: line {line}: refused 4 at {place}\nRule form: clause {place} {NO_LIST}"
        );
        assert_eq!(message, format!("plancheck: {told}\n"));
    }
}

#[test]
fn what_is_no_clause_names_its_line() {
    let other = |word| format!("'clause' is due here, not '{word}': nothing else can be added");
    let nothing = "there is nothing to add: write lines 'clause'".to_string();
    let no_literal = "'or' is no literal: write a variable from 1 to 32767, with - in front for a negative literal".to_string();
    let cases = [
        ("sheet\nclause 1\n", 1, other("sheet")),
        ("clause 1\ncost 3 4\n", 2, other("cost")),
        ("clause 1\n# the loss\nloss 4\n", 3, other("loss")),
        ("1 2\n", 1, other("1")),
        ("clause 1\nClause 2\n", 2, other("Clause")),
        ("clause 1\nclause 1 or 2\n", 2, no_literal),
        ("", 1, nothing.clone()),
        ("\n# clause 1\n", 1, nothing),
    ];
    let folder = holding("add-text", "");
    for (text, line, told) in cases {
        folder.write("more.txt", text);
        let message = refused(&folder, &example("A1").sheet);
        assert_eq!(
            message,
            format!("plancheck: more.txt: line {line}: {told}\n")
        );
    }
}

#[test]
fn what_is_no_text_names_its_byte() {
    let folder = holding("add-bytes", "");
    folder.write("more.txt", b"clause 1\n\xFF");
    let message = refused(&folder, &example("A1").sheet);
    assert_eq!(message, "plancheck: more.txt: byte 9: this is no text\n");
}

/// A sheet of so many clauses.
fn of_clauses(count: usize) -> Vec<u8> {
    packed(&sheet_text("", &"clause 1 2\n".repeat(count)))
}

#[test]
fn a_sheet_can_be_filled_and_no_more() {
    let folder = holding("add-most", "");
    for own in [0, 4_000, 4_095] {
        let room = 4_096 - own;
        folder.write("sheet", of_clauses(own));
        folder.write("more.txt", "clause 1 2\n".repeat(room));
        let ran = folder.run(&ADD);
        let (first, bytes) = (own + 1, 12 + 12 * 4_096);
        let numbers = match room {
            1 => "clause 4096".to_string(),
            _ => format!("clauses {first} to 4096"),
        };
        let told = format!("out: 4096 clauses, {bytes} bytes; added: {numbers}\n");
        assert_eq!((printed(&ran), code(&ran)), (told, 0));
        assert_eq!(folder.read("out"), of_clauses(4_096));
    }
    // Counts that two bytes cannot hold are no others either.
    for (own, count) in [(4_096, 1), (4_095, 2), (0, 4_097), (1, 65_536), (0, 69_632)] {
        folder.write("more.txt", "# one\nclause 1 2\n".repeat(count));
        let message = refused(&folder, &of_clauses(own));
        let line = 2 * (4_097 - own);
        let told = format!("this is one clause too many: the sheet has {own}, the text has {count}, and 4096 together are the most");
        assert_eq!(
            message,
            format!("plancheck: more.txt: line {line}: {told}\n")
        );
    }
}

/// By whatever name: the longer sheet is not written over the text.
#[test]
fn the_text_is_not_written_over() {
    let folder = holding("add-over-text", "clause 1\n");
    let full = folder.0.join("more.txt").display().to_string();
    for (name, target) in [("link", "more.txt"), ("second", "link"), ("third", &full)] {
        symlink(target, folder.0.join(name)).unwrap();
    }
    for to in ["more.txt", "./more.txt", &full, "link", "second", "third"] {
        for from in ["more.txt", "link"] {
            let wrong = folder.run(&["add", "sheet", from, "-o", to]);
            let told = format!("{to} is the text, which would be lost\n\n{}", help::ADD);
            assert_eq!(complained(&wrong), format!("plancheck: {told}"));
            assert_eq!((code(&wrong), printed(&wrong).as_str()), (2, ""));
            assert_eq!(folder.read("more.txt"), b"clause 1\n", "{to}");
        }
    }
    assert_eq!(folder.read("sheet"), example("A1").sheet);
}

/// Each time over itself, by its name and by a link to it.
#[test]
fn a_sheet_grows_winter_by_winter() {
    let folder = holding("add-winters", "clause -2\n");
    symlink("sheet", folder.0.join("link")).unwrap();
    let winters = [
        ("sheet", "sheet", 3, 46),
        ("sheet", "link", 4, 56),
        ("link", "sheet", 5, 66),
    ];
    for (from, to, number, bytes) in winters {
        let ran = folder.run(&["add", from, "more.txt", "-o", to]);
        let told = format!("{to}: {number} clauses, {bytes} bytes; added: clause {number}\n");
        assert_eq!((printed(&ran), code(&ran)), (told, 0));
    }
    assert!(fs::symlink_metadata(folder.0.join("link"))
        .unwrap()
        .is_symlink());
    let all = format!("{CLAUSES}{}", "clause -2\n".repeat(3));
    assert_eq!(folder.read("sheet"), packed(&sheet_text("", &all)));
}

#[test]
fn a_text_may_come_through_a_pipe() {
    let folder = holding("add-pipe", "");
    let mut shell = Command::new("sh");
    let script = "echo 'clause -2' | \"$0\" add sheet /dev/stdin -o out";
    shell.args(["-c", script, env!("CARGO_BIN_EXE_plancheck")]);
    let ran = shell.current_dir(&folder.0).output().unwrap();
    let told = "out: 3 clauses, 46 bytes; added: clause 3\n";
    assert_eq!((printed(&ran).as_str(), code(&ran)), (told, 0));
}

#[rustfmt::skip]
#[test]
fn wrong_arguments_show_the_help_of_add() {
    let folder = holding("wrong-add", "clause 1\n");
    folder.write("out", "kept");
    let calls: [(&[&str], &str); 8] = [
        (&[], "2 files are due, not 0"),
        (&["sheet", "-o", "out"], "2 files are due, not 1"),
        (&["sheet", "more.txt", "out"], "2 files are due, not 3"),
        (&["sheet", "more.txt"], "-o FILE is missing"),
        (&["sheet", "more.txt", "-o"], "-o needs a file"),
        (&["sheet", "more.txt", "-o", "out", "-o", "out"], "-o stands twice"),
        (&["--record", "sheet", "more.txt", "-o", "out"], "unknown option --record"),
        (&["sheet", "more.txt", "-o", "out", "--steps", "3"], "unknown option --steps"),
    ];
    for (words, message) in calls {
        let wrong = folder.run(&[&["add"], words].concat());
        assert_eq!((code(&wrong), printed(&wrong).as_str()), (2, ""));
        let told = format!("plancheck: {message}\n\n{}", help::ADD);
        assert_eq!(complained(&wrong), told, "{words:?}");
    }
    assert_eq!(folder.read("out"), b"kept");
    let unwritten = folder.run(&["add", "sheet", "more.txt", "-o", "gone/out"]);
    assert_eq!(code(&unwritten), 2);
    assert!(complained(&unwritten).starts_with("plancheck: gone/out: cannot be written: "));
}

/// What is said of an example's record beside its sheet with this text added.
fn judged_beside(name: &str, text: &str) -> (String, i32) {
    let folder = holding("add-records", text);
    let Example { sheet, record, .. } = example(name);
    folder.write("sheet", sheet);
    folder.write("record", record);
    assert_eq!(code(&folder.run(&ADD)), 0);
    let judged = folder.run(&["judge", "out", "record"]);
    (printed(&judged), code(&judged))
}

/// A1, T2 and L1 have variable 1 true and 2 false; T2 does not show what it claims. B2 claims none, and has every variable false.
#[test]
fn records_stay_or_are_refused_at_the_added_clause() {
    let cases = [
        ("A1", "clause 1\nclause -2\n", "least 3 open 1 steps 5"),
        ("A1", "clause 1\nclause 2\n", "refused 10 at 4"),
        ("A1", "clause -1\nclause 2\n", "refused 10 at 3"),
        ("A1", "clause 1\nclause\n", "refused 10 at 4"),
        ("T2", "clause 1 2\n", "within 3 cost 3 open 1 steps 6"),
        ("T2", "clause 1 2\nclause -1 2\n", "refused 10 at 4"),
        ("L1", "clause 1\n", "least 7 open 1 steps 5"),
        ("L1", "clause 1\nclause 2\n", "refused 10 at 4"),
        ("B2", "clause 1\nclause -1\n", "none open 0 steps 1"),
        ("B2", "clause\n", "none open 0 steps 1"),
    ];
    for (name, text, line) in cases {
        let exit = match line.split(' ').next() {
            Some("least" | "none") => 0,
            Some("within") => 3,
            _ => 1,
        };
        assert_eq!(
            judged_beside(name, text),
            (format!("{line}\n"), exit),
            "{name} {text}"
        );
    }
}

/// The program writes what the samples have for the longer sheet, if the mark is the same.
#[test]
fn the_longer_sheets_of_the_samples() {
    let folder = holding("add-samples", "");
    let text = |codes: &Vec<u16>| clause_line(&literals(&code_bytes(codes)).unwrap());
    let mut count = 0;
    for mut pair in stream(10).take(130) {
        pair.loss = pair.draft.loss;
        folder.write("sheet", pair.draft.files().sheet);
        folder.write("more.txt", pair.added.iter().map(text).collect::<String>());
        let ran = folder.run(&ADD);
        assert_eq!(
            code(&ran),
            i32::from(pair.added.is_empty()),
            "{}",
            pair.what
        );
        if !pair.added.is_empty() {
            assert_eq!(folder.read("out"), pair.sheet(), "{}", pair.what);
            count += 1;
        }
    }
    assert!(count > 100);
}
