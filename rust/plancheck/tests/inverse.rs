//! Text and bytes are inverse: over the examples, over samples, and over texts written by hand.

mod common;

use common::{code, complained, printed, Folder};
use plancheck::files::{laid_out, valid_sheet};
use plancheck::pack::{pack, Packed};
use plancheck::text::{write_record, write_sheet};
use samples::examples::examples;
use samples::{stream, NUMBERS};
use std::collections::BTreeSet;
use std::path::Path;

fn plain(text: &str) -> Vec<String> {
    let line = |line: &str| {
        let content = line.split('#').next().unwrap_or("");
        content.split_whitespace().collect::<Vec<_>>().join(" ")
    };
    text.lines()
        .map(line)
        .filter(|line| !line.is_empty())
        .collect()
}

fn sheet_text(sheet: &[u8]) -> Option<String> {
    let mut out = Vec::new();
    let sheet = valid_sheet(Path::new("sheet"), sheet).ok()?;
    write_sheet(&sheet, &mut out).unwrap();
    Some(String::from_utf8(out).unwrap())
}

fn record_text(sheet: &[u8], record: &[u8]) -> Option<String> {
    let variables = valid_sheet(Path::new("sheet"), sheet).ok()?.variables;
    let record = laid_out(Path::new("record"), sheet, record).ok()?;
    let mut out = Vec::new();
    write_record(&record, variables, &mut out).unwrap();
    Some(String::from_utf8(out).unwrap())
}

/// Whether the record came through too.
fn inverse(sheet: &[u8], record: &[u8]) -> bool {
    let Some(text) = sheet_text(sheet) else {
        return false;
    };
    assert_eq!(pack(&text), Ok((Packed::Sheet, sheet.to_vec())));
    let Some(text) = record_text(sheet, record) else {
        return false;
    };
    assert_eq!(pack(&text), Ok((Packed::Record, record.to_vec())), "{text}");
    true
}

#[test]
fn examples_come_back() {
    for example in examples() {
        let came = inverse(&example.sheet, &example.record);
        let number = proved::judge(&example.sheet, &example.record).number;
        let laid_out = ![1, 2, 3, 4, 5, 7].contains(&number);
        assert!(came || !laid_out, "{}", example.line);
    }
}

#[test]
fn samples_come_back() {
    let mut numbers = BTreeSet::new();
    let mut count = 0;
    for sample in stream(13).take(10_000) {
        let answer = proved::judge(&sample.sheet, &sample.record);
        assert_eq!(
            valid_sheet(Path::new("sheet"), &sample.sheet).is_ok(),
            reference::sheet_is_valid(&sample.sheet)
        );
        let came = inverse(&sample.sheet, &sample.record);
        match answer.number {
            1..=5 | 7 => assert!(!came),
            6 => {}
            _ => assert!(came, "{}", sample.aimed),
        }
        if came {
            numbers.insert(answer.number);
            count += 1;
        }
    }
    assert!(count > 5_000, "{count}");
    for number in [0, 6].into_iter().chain(8..NUMBERS as u64) {
        assert!(numbers.contains(&number), "{number} did not come back");
    }
}

const SHEET: &str = "
# two paddles
sheet
  cost 1 3
cost   2 5   # the dear one
clause 1 2
clause 1 -2
clause
";

const RECORD: &str = "
record
variables 2
claim none
assign raw 07
copy 1 : 1 2 bound none
cost : -1 bound 3
independent 1 2 :   bound 18446744073709551614
independent : 2 -1 bound 0
resolve 1 0 on 65535 : 32767 bound 3
weighted 1*3 2*4 over 2 : 1 -2 bound 4
weighted 4294967295*65535 0*0 over 0 : bound none
weighted 7*1 over 65535 : 2 -1 bound 0
raw
raw 01 00 FF
raw 05 00 00 00 00 00 00 00 00 00 00 00 01 00
raw 05 00 00 00 00 00 00 00 00 00 00 00 01 00 02 00 00 00 03
";

#[test]
fn texts_come_back() {
    let (packed, sheet) = pack(SHEET).unwrap();
    assert_eq!(packed, Packed::Sheet);
    assert_eq!(plain(&sheet_text(&sheet).unwrap()), plain(SHEET));
    let (packed, record) = pack(RECORD).unwrap();
    assert_eq!(packed, Packed::Record);
    assert_eq!(plain(&record_text(&sheet, &record).unwrap()), plain(RECORD));
}

#[test]
fn faults_name_their_line() {
    let record = "record\nvariables 2\nclaim 3\nassign 1\n";
    let faults = [
        ("", 1),
        ("# nothing", 1),
        ("paper", 1),
        ("sheet 2", 1),
        ("sheet\ncost 2 5", 2),
        ("sheet\ncost 1 4294967296", 2),
        ("sheet\ncost 1 03", 2),
        ("sheet\ncost 1 3\nclause 1 -0", 3),
        ("sheet\ncost 1 3\nclause 1 +2", 3),
        ("sheet\nclause\ncost 1 3", 3),
        ("record\nclaim 3", 2),
        ("record\nvariables 2\n\n", 2),
        ("record\nvariables 2\nclaim 18446744073709551615", 3),
        ("record\nvariables 2\nclaim 3\nassign 2 1", 4),
        ("record\nvariables 2\nclaim 3\nassign 3", 4),
        ("record\nvariables 2\nclaim 3\nassign raw 03", 4),
        ("record\nvariables 2\nclaim 3\nassign raw 03 00", 4),
        (&format!("{record}copy 1 1 2 bound none"), 5),
        (&format!("{record}copy 1 : 1 2"), 5),
        (&format!("{record}copy 1 : 1 2 bound none 4"), 5),
        (&format!("{record}resolve 1 2 : 1 bound none"), 5),
        (&format!("{record}resolve 1 2 on 65536 : bound 1"), 5),
        (&format!("{record}guess : bound none"), 5),
        (&format!("{record}raw 0g"), 5),
        (&format!("{record}raw ff"), 5),
        // These bytes are a step: it has a line of its own.
        (
            &format!("{record}raw 02 00 00 00 01 00 00 00 00 00 00 00"),
            5,
        ),
    ];
    for (text, line) in faults {
        let fault = pack(text).unwrap_err();
        assert_eq!(fault.line, line, "{text}: {}", fault.reason);
    }
}

const NO_CLAUSE: &str = "a weighted step cites one clause at least: write CLAUSE*WEIGHT";

/// Lines of weighted steps that cannot be written, and why.
#[rustfmt::skip]
const WEIGHTS: [(&str, &str); 15] = [
    ("weighted 1*65536 over 1 : 1 bound 2", "the weight of clause 1 is 65536, above 65535"),
    ("weighted 1*-3 over 1 : 1 bound 2", "the weight of clause 1 is no plain number: '-3'"),
    ("weighted 1* over 1 : 1 bound 2", "the weight of clause 1 is no plain number: ''"),
    ("weighted 1*03 over 1 : 1 bound 2", "the weight of clause 1 is no plain number: '03'"),
    ("weighted 1*3*2 over 1 : 1 bound 2", "the weight of clause 1 is no plain number: '3*2'"),
    ("weighted 4294967296*3 over 1 : 1 bound 2", "a clause is 4294967296, above 4294967295"),
    ("weighted *3 over 1 : 1 bound 2", "a clause is no plain number: ''"),
    ("weighted 1 2 over 1 : 1 bound 2", "'1' is no clause with a weight: write CLAUSE*WEIGHT"),
    ("weighted 1*3 2*4 : 1 bound 2", "'over' is due here, not ':'"),
    ("weighted 1*3 over : 1 bound 2", "the divisor is no plain number: ':'"),
    ("weighted 1*3 over", "the divisor is missing"),
    ("weighted 1*3 over 65536 : 1 bound 2", "the divisor is 65536, above 65535"),
    ("weighted 1*3 over 2 2*4 : 1 bound 2", "':' is due here, not '2*4'"),
    ("weighted over 1 : 1 bound 2", NO_CLAUSE),
    ("weighted : 1 bound 2", NO_CLAUSE),
];

#[test]
fn faults_of_weights_say_what_is_due() {
    for (line, reason) in WEIGHTS {
        let text = format!("record\nvariables 2\nclaim 3\nassign 1\n{line}\n");
        let fault = pack(&text).unwrap_err();
        assert_eq!((fault.line, fault.reason.as_str()), (5, reason));
    }
}

/// Each body has one text: these bytes are a step.
#[test]
fn a_weighted_step_is_not_written_raw() {
    let bytes = "05 00 00 00 01 00 00 00 00 00 00 00 01 00 02 00 00 00 03 00";
    let text = format!("record\nvariables 2\nclaim 3\nassign 1\nraw {bytes}\n");
    let reason = "write these bytes as 'weighted 2*3 over 1 : bound 1'";
    assert_eq!(pack(&text).unwrap_err().reason, reason);
}

#[test]
fn the_program_goes_both_ways() {
    let folder = Folder::new("both-ways");
    folder.write("sheet.txt", SHEET);
    folder.write("record.txt", RECORD);
    let packed = folder.run(&["pack", "sheet.txt", "-o", "sheet"]);
    assert_eq!(printed(&packed), "sheet: sheet, 44 bytes\n");
    assert_eq!(
        code(&folder.run(&["pack", "-o", "record", "record.txt"])),
        0
    );
    let shown = folder.run(&["text", "--record", "sheet", "record"]);
    assert_eq!(plain(&printed(&shown)), plain(RECORD));
    assert_eq!(code(&folder.run(&["text", "sheet", "-o", "again.txt"])), 0);
    assert_eq!(code(&folder.run(&["pack", "again.txt", "-o", "again"])), 0);
    assert_eq!(folder.read("again"), folder.read("sheet"));
    folder.write("bad.txt", "sheet\ncost 1 x\n");
    let refused = folder.run(&["pack", "bad.txt", "-o", "bad"]);
    assert_eq!(code(&refused), 1);
    assert!(complained(&refused).contains("bad.txt: line 2: "));
}
