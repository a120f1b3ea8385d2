//! `write`: one form for all sheets of a problem, refused sheets, and records that keep to the sheet that they were made for.

mod common;

use common::{code, complained, printed, Folder};
use plancheck::pack::pack;
use plancheck::{explain, help};
use samples::examples::{example, Example};
use std::collections::BTreeSet;

const MOVED: &str =
    "clause numbers have moved or are gone: a record keeps to the sheet that it was made for\n";
const UNMOVED: &str = "nothing has moved: the sheet was written in this way already\n";

const COSTS: &str = "sheet\ncost 1 4\ncost 2 3\ncost 3 2\n";
/// Clauses in the order that is asked for, a clause before those that begin with it.
const CLAUSES: [&str; 8] = ["", " 1", " 1 2", " 1 2 3", " 1 -2", " 1 3", " -1 3", " 2"];
const ALL: [usize; 8] = [0, 1, 2, 3, 4, 5, 6, 7];

fn packed(text: &str) -> Vec<u8> {
    pack(text).unwrap().1
}

/// A sheet with these of the clauses.
fn sheet(places: &[usize]) -> Vec<u8> {
    let clauses = places.iter().map(|place| CLAUSES[*place]);
    let lines = clauses.map(|clause| format!("clause{clause}\n"));
    packed(&(COSTS.to_string() + &lines.collect::<String>()))
}

#[test]
fn orders_and_repeats_of_one_sheet_give_the_same_bytes() {
    let folder = Folder::new("orders");
    let lists: [(&[usize], usize); 6] = [
        (&[7, 6, 5, 4, 3, 2, 1, 0], 0),
        (&[3, 1, 0, 2, 7, 5, 6, 4], 0),
        (&[0, 1, 2, 3, 4, 5, 7, 6], 0),
        (&[0, 0, 1, 2, 3, 4, 5, 6, 7], 1),
        (&[0, 1, 2, 3, 4, 5, 6, 7, 7], 1),
        (&[5, 2, 5, 0, 7, 1, 4, 3, 6, 2, 5, 0], 4),
    ];
    for (places, repeats) in lists {
        folder.write("sheet", sheet(places));
        let written = folder.run(&["write", "sheet", "-o", "out"]);
        let told = format!("out: 8 clauses, 106 bytes; repeats left out: {repeats}\n{MOVED}");
        assert_eq!((printed(&written), code(&written)), (told, 0));
        assert_eq!(folder.read("out"), sheet(&ALL), "{places:?}");
        assert_eq!(folder.read("sheet"), sheet(places));
    }
}

#[test]
fn what_is_written_already_stays() {
    let folder = Folder::new("stays");
    let sheets = [
        (sheet(&ALL), "8 clauses, 106 bytes"),
        (sheet(&[]), "0 clauses, 16 bytes"),
        (sheet(&[0]), "1 clause, 24 bytes"),
        (example("A1").sheet, "2 clauses, 36 bytes"),
        (example("W2").sheet, "3 clauses, 52 bytes"),
        (example("L1").sheet, "2 clauses, 40 bytes"),
    ];
    for (sheet, size) in sheets {
        folder.write("sheet", &sheet);
        let written = folder.run(&["write", "sheet", "-o", "out"]);
        let told = format!("out: {size}; repeats left out: 0\n{UNMOVED}");
        assert_eq!((printed(&written), code(&written)), (told, 0));
        assert_eq!(folder.read("out"), sheet);
    }
}

/// The example of docs/FORMATS.md: 255 goes before 256, and the low bytes of the two the other way round.
#[test]
fn codes_go_by_number() {
    let folder = Folder::new("numbers");
    let costs: String = (1..=128).map(|v| format!("cost {v} 1\n")).collect();
    let clauses = "clause 128\nclause 1 -127\nclause 1\nclause -127\nclause 1\n";
    folder.write("sheet", packed(&format!("sheet\n{costs}{clauses}")));
    assert_eq!(folder.read("sheet").len(), 568);
    let written = folder.run(&["write", "-o", "out", "sheet"]);
    let told = format!("out: 4 clauses, 558 bytes; repeats left out: 1\n{MOVED}");
    assert_eq!((printed(&written), code(&written)), (told, 0));
    let shown = printed(&folder.run(&["text", "out"]));
    let wanted = "clause 1  # clause 1\nclause 1 -127  # clause 2\nclause -127  # clause 3\nclause 128  # clause 4\n";
    assert_eq!(shown, format!("sheet\n{costs}{wanted}"));
}

#[test]
fn other_sheets_give_other_bytes() {
    let folder = Folder::new("others");
    let texts = [
        format!("{COSTS}clause 1 3\nclause 1 2\n"),
        format!("{COSTS}clause 1 3\nclause 1 -2\n"),
        format!("{COSTS}clause 1 3\n"),
        format!("{COSTS}clause 1 3\nclause 1 2\nclause\n"),
        format!("{COSTS}clause 1 3\nclause 1 2 3\n"),
        format!("{COSTS}cost 4 0\nclause 1 3\nclause 1 2\n"),
        "sheet\ncost 1 4\ncost 2 2\ncost 3 3\nclause 1 3\nclause 1 2\n".to_string(),
    ];
    let written = texts.each_ref().map(|text| {
        folder.write("sheet", packed(text));
        assert_eq!(code(&folder.run(&["write", "sheet", "-o", "out"])), 0);
        folder.read("out")
    });
    assert_eq!(written.iter().collect::<BTreeSet<_>>().len(), texts.len());
}

/// Sheet A's costs and clauses in these orders, with this line for the loss.
fn with_loss(loss: &str, clauses: [&str; 2]) -> Vec<u8> {
    let [first, second] = clauses;
    packed(&format!(
        "sheet\ncost 1 3\ncost 2 5\n{loss}clause {first}\nclause {second}\n"
    ))
}

const IN_ORDER: [&str; 2] = ["1 2", "1 -2"];
const TURNED: [&str; 2] = ["1 -2", "1 2"];
const NO_MARK: &str = "the mark is left out, since the loss is 0\n";
const KEPT: &str =
    "no clause number has moved: a record of the sheet does for the written one too\n";

#[test]
fn a_mark_without_a_loss_is_left_out() {
    let folder = Folder::new("marks");
    let least = with_loss("", IN_ORDER);
    let lists = [
        (with_loss("loss 0\n", IN_ORDER), format!("{NO_MARK}{KEPT}")),
        (with_loss("loss 0\n", TURNED), format!("{NO_MARK}{MOVED}")),
        (with_loss("", TURNED), MOVED.to_string()),
        (least.clone(), UNMOVED.to_string()),
    ];
    for (sheet, told) in lists {
        folder.write("sheet", sheet);
        let written = folder.run(&["write", "sheet", "-o", "out"]);
        let told = format!("out: 2 clauses, 36 bytes; repeats left out: 0\n{told}");
        assert_eq!((printed(&written), code(&written)), (told, 0));
        assert_eq!(folder.read("out"), least);
    }
}

#[test]
fn a_loss_is_written_as_it_stands() {
    let folder = Folder::new("losses");
    let mut all = BTreeSet::from([with_loss("", IN_ORDER)]);
    for loss in ["loss 1\n", "loss 4\n", "loss 4294967295\n"] {
        let least = with_loss(loss, IN_ORDER);
        for (clauses, told) in [(IN_ORDER, UNMOVED), (TURNED, MOVED)] {
            folder.write("sheet", with_loss(loss, clauses));
            let written = folder.run(&["write", "sheet", "-o", "out"]);
            let told = format!("out: 2 clauses, 40 bytes; repeats left out: 0\n{told}");
            assert_eq!((printed(&written), code(&written)), (told, 0));
            assert_eq!(folder.read("out"), least);
        }
        assert!(all.insert(least));
    }
}

/// What the second line says when the mark alone goes.
#[test]
fn a_record_outlives_the_mark() {
    let folder = Folder::new("outlives-mark");
    folder.write("sheet", with_loss("loss 0\n", IN_ORDER));
    folder.write("record", example("A1").record);
    assert_eq!(code(&folder.run(&["write", "sheet", "-o", "out"])), 0);
    for sheet in ["sheet", "out"] {
        let judged = folder.run(&["judge", sheet, "record"]);
        assert_eq!(printed(&judged), "least 3 open 1 steps 5\n");
    }
}

#[test]
fn the_sheet_itself_may_be_written_over() {
    let folder = Folder::new("itself");
    folder.write("sheet", sheet(&[7, 6, 5, 4, 3, 2, 1, 0, 7, 6, 5]));
    let told = "sheet: 8 clauses, 106 bytes; repeats left out: ";
    for (repeats, moved) in [(3, MOVED), (0, UNMOVED)] {
        let written = folder.run(&["write", "sheet", "-o", "sheet"]);
        let told = format!("{told}{repeats}\n{moved}");
        assert_eq!((printed(&written), code(&written)), (told, 0));
        assert_eq!(folder.read("sheet"), sheet(&ALL));
    }
}

/// A sheet with one byte changed.
fn with(mut sheet: Vec<u8>, place: usize, byte: u8) -> Vec<u8> {
    sheet[place] = byte;
    sheet
}

/// Refused sheets, and the first line, the refusal's word and the last line of what is said of them.
#[rustfmt::skip]
fn refused_sheets() -> [(Vec<u8>, &'static str, &'static str, &'static str); 9] {
    let (a1, l1) = (|| example("A1").sheet, || example("L1").sheet);
    let longer = [example("B1").sheet, vec![0]].concat();
    [
        (Vec::new(), "byte 0: refused 2 at 0", "Sheet head: ", "sheet: 0 bytes"),
        (with(a1(), 0, 0), "byte 0: refused 2 at 0", "Sheet head: ",
            "sheet (byte 0): 0 variables, 2 clauses; costs and pairs end at byte 20, the file has 36 bytes"),
        (with(a1(), 20, 33), "byte 20: refused 3 at 2", "Sheet pairs: ",
            "clause 2 (sheet, pair at byte 20): offset 33, length 4; the offset due is 32, and the end due is 36, where it is 37"),
        (longer, "byte 0: refused 3 at 0", "Sheet pairs: ",
            "sheet (byte 0): 1 variables, 0 clauses; costs and pairs end at byte 8, the file has 9 bytes"),
        (with(a1(), 34, 3), "byte 32: refused 4 at 2", "Rule form: ", "clause 2 (sheet, byte 32): 1 -1"),
        (with(a1(), 30, 6), "byte 28: refused 4 at 1", "Rule form: ", "clause 1 (sheet, byte 28): 1 3"),
        (l1()[..14].to_vec(), "byte 0: refused 2 at 0", "Sheet head: ",
            "sheet (byte 0): marked, 2 variables, 2 clauses; costs, loss and pairs end at byte 32, the file has 14 bytes"),
        (with(l1(), 16, 28), "byte 16: refused 3 at 1", "Sheet pairs: ",
            "clause 1 (sheet, pair at byte 16): offset 28, length 4; the offset due is 32"),
        (with(l1(), 38, 3), "byte 36: refused 4 at 2", "Rule form: ", "clause 2 (sheet, byte 36): 1 -1"),
    ]
}

#[test]
fn a_refused_sheet_leaves_the_output() {
    let folder = Folder::new("refused");
    for (sheet, first, word, last) in refused_sheets() {
        folder.write("sheet", &sheet);
        folder.write("out", "kept");
        for out in ["out", "sheet", "new"] {
            let refused = folder.run(&["write", "sheet", "-o", out]);
            let message = complained(&refused);
            let lines: Vec<&str> = message.lines().collect();
            assert_eq!((code(&refused), lines.len()), (1, 3), "{message}");
            assert_eq!(lines[0], format!("plancheck: sheet: {first}"));
            assert!(lines[1].starts_with(word), "{message}");
            assert_eq!(lines[2], last);
            assert_eq!(printed(&refused), "");
        }
        assert_eq!(folder.read("out"), b"kept");
        assert_eq!(folder.read("sheet"), sheet);
        assert!(!folder.0.join("new").exists());
    }
}

/// A file that long is not made here.
#[test]
fn an_oversize_sheet_is_shown_by_its_size() {
    let sheet = example("A1").sheet;
    let mut answer = proved::judge(&sheet, &[]);
    answer.number = 1;
    assert_eq!(explain::sheet_alone(&sheet, &answer), ["sheet: 36 bytes"]);
}

#[test]
fn wrong_arguments_show_the_help_of_write() {
    let folder = Folder::new("wrong-write");
    folder.write("sheet", sheet(&[1, 0]));
    folder.write("out", "kept");
    let calls: [&[&str]; 8] = [
        &["write"],
        &["write", "sheet"],
        &["write", "sheet", "-o"],
        &["write", "-o", "out"],
        &["write", "sheet", "sheet", "-o", "out"],
        &["write", "sheet", "-o", "out", "-o", "out"],
        &["write", "--record", "sheet", "-o", "out"],
        &["write", "--steps", "3", "sheet", "-o", "out"],
    ];
    for call in calls {
        let wrong = folder.run(call);
        assert_eq!(
            (code(&wrong), printed(&wrong).as_str()),
            (2, ""),
            "{call:?}"
        );
        let message = complained(&wrong);
        assert!(
            message.ends_with(&format!("\n\n{}", help::WRITE)),
            "{message}"
        );
        assert_eq!(folder.read("out"), b"kept", "{call:?}");
    }
    let unwritten = folder.run(&["write", "sheet", "-o", "gone/out"]);
    assert_eq!(code(&unwritten), 2);
    assert!(complained(&unwritten).starts_with("plancheck: gone/out: cannot be written: "));
}

/// What is said of an example's record beside its own sheet, and beside the written one.
fn judged_beside(name: &str) -> [String; 2] {
    let folder = Folder::new(&format!("beside-{name}"));
    let Example { sheet, record, .. } = example(name);
    folder.write("sheet", sheet);
    folder.write("record", record);
    assert_eq!(code(&folder.run(&["write", "sheet", "-o", "out"])), 0);
    ["sheet", "out"].map(|sheet| printed(&folder.run(&["judge", sheet, "record"])))
}

/// Where nothing has moved, the line stays.
#[test]
fn a_record_keeps_to_its_own_sheet() {
    let lines = [
        ("D", "least 11 open 3 steps 17\n", "refused 12 at 2\n"),
        (
            "S1",
            "within 3 cost 11 open 3 steps 7\n",
            "refused 12 at 2\n",
        ),
        ("C1", "refused 19 at 1\n", "refused 20 at 1\n"),
        ("W1", "refused 19 at 1\n", "refused 24 at 1\n"),
        ("A1", "least 3 open 1 steps 5\n", "least 3 open 1 steps 5\n"),
        ("W2", "least 2 open 2 steps 1\n", "least 2 open 2 steps 1\n"),
        ("L1", "least 7 open 1 steps 5\n", "least 7 open 1 steps 5\n"),
    ];
    for (name, own, written) in lines {
        assert_eq!(judged_beside(name), [own, written], "{name}");
    }
}
