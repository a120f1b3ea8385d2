//! `judge`, `explain` and `stats`: the examples through the program, and explanations of every refusal that is met.

mod common;

use common::{code, complained, printed, Folder};
use plancheck::explain::explain;
use plancheck::pack::pack;
use plancheck::refusals::{place_of, sentence, Place};
use samples::examples::{example, examples, Example};
use samples::{stream, NUMBERS};
use std::collections::{BTreeMap, BTreeSet};

#[test]
fn examples_give_their_lines_and_exit_codes() {
    let folder = Folder::new("examples");
    for example in examples() {
        let path = |name| example.folder.join(name).display().to_string();
        let (files, line) = (["sheet", "record"].map(path), example.line);
        let wanted = match line.split(' ').next().unwrap() {
            "least" | "none" => 0,
            "refused" => 1,
            "within" => 3,
            other => panic!("{other} is no answer"),
        };
        let judged = folder.run(&["judge", &files[0], &files[1]]);
        assert_eq!((printed(&judged), code(&judged)), (line.clone(), wanted));
        let explained = folder.run(&["explain", &files[0], &files[1]]);
        assert!(printed(&explained).starts_with(&line));
        assert_eq!(code(&explained), wanted);
    }
}

#[test]
fn explanations_name_the_place() {
    let mut met: BTreeMap<u64, usize> = BTreeMap::new();
    for sample in stream(11).take(20_000) {
        let answer = proved::judge(&sample.sheet, &sample.record);
        let lines = explain(&sample.sheet, &sample.record, &answer);
        assert_eq!(lines[0], answer.line());
        let start = match place_of(answer.number) {
            Place::Clause if answer.place > 0 => format!("clause {} (", answer.place),
            Place::Step => format!("step {} (", answer.place),
            _ => String::new(),
        };
        assert!(lines.len() > 2, "{lines:?}");
        assert!(lines[2].starts_with(&start), "{lines:?}");
        *met.entry(answer.number).or_default() += 1;
    }
    for number in (0..NUMBERS as u64).filter(|number| *number != 1) {
        assert!(met.contains_key(&number), "{number} was not met: {met:?}");
    }
}

fn sentence_at_7(number: usize, marked: bool) -> String {
    let mut answer = proved::judge(&[], &[]);
    answer.number = number as u64;
    answer.place = 7;
    sentence(&answer, marked)
}

/// The writer's own refusal, the search's, the trimmer's two and the two of turns: no judgement has them.
const UNJUDGED: [usize; 6] = [25, 26, 27, 28, 29, 30];
const LAST: usize = 30;

fn sentences_differ(marked: bool) {
    let numbers = (1..NUMBERS).chain(UNJUDGED);
    let sentences = numbers.map(|number| {
        let sentence = sentence_at_7(number, marked);
        assert_eq!(
            place_of(number as u64) != Place::File,
            sentence.contains(" 7 ") || sentence.contains(" 7:")
        );
        assert!(!sentence.contains("not the number"), "{sentence}");
        sentence
    });
    let sentences: BTreeSet<String> = sentences.collect();
    assert_eq!(sentences.len(), LAST);
    assert!(sentence_at_7(LAST + 1, marked).contains("not the number of a refusal"));
    assert_eq!(place_of(LAST as u64 + 1), Place::File);
}

#[test]
fn each_refusal_has_a_sentence_of_its_own() {
    sentences_differ(false);
    sentences_differ(true);
}

/// Of a marked sheet the head and three bounds are told otherwise, and of a sheet without a mark nothing speaks of a loss.
#[test]
fn the_loss_is_told_where_it_counts() {
    for number in 1..=LAST {
        let [plain, marked] = [false, true].map(|marked| sentence_at_7(number, marked));
        assert!(!plain.contains(" loss"), "{plain}");
        let counts = [2, 13, 15, 24].contains(&number);
        assert_eq!(marked.contains(" loss "), counts, "{marked}");
        assert_eq!(plain != marked, counts, "{marked}");
    }
}

#[test]
fn stats_count_the_worked_pair() {
    let folder = Folder::new("stats");
    let Example { sheet, record, .. } = example("A1");
    folder.write("sheet", &sheet);
    folder.write("record", &record);
    let counted = folder.run(&["stats", "sheet", "record"]);
    let wanted = "least 3 open 1 steps 5\nsheet: 2 variables, 2 clauses, 36 bytes\nrecord: 153 bytes\n\
        steps: 5 (copy 2, cost 1, independent 0, resolve 2, weighted 0)\nliterals in steps: 6\ndepth of the last step: 3\n\
        steps that the last one rests on: 4\n";
    assert_eq!((printed(&counted).as_str(), code(&counted)), (wanted, 0));
}

#[test]
fn stats_tell_the_loss_of_a_marked_sheet() {
    let folder = Folder::new("stats-loss");
    let Example { record, .. } = example("L1");
    folder.write("record", &record);
    let heads = [
        ("", "refused 11 at 0", "36 bytes"),
        ("loss 0\n", "refused 11 at 0", "loss 0, 40 bytes"),
        ("loss 4\n", "least 7 open 1 steps 5", "loss 4, 40 bytes"),
        (
            "loss 4294967295\n",
            "refused 11 at 0",
            "loss 4294967295, 40 bytes",
        ),
    ];
    for (loss, line, rest) in heads {
        let text = format!("sheet\ncost 1 3\ncost 2 5\n{loss}clause 1 2\nclause 1 -2\n");
        folder.write("sheet", pack(&text).unwrap().1);
        let counted = folder.run(&["stats", "sheet", "record"]);
        let start = format!("{line}\nsheet: 2 variables, 2 clauses, {rest}\nrecord: 153 bytes\n");
        let told = printed(&counted);
        assert!(told.starts_with(&start), "{told}");
        assert_eq!(code(&counted), 0);
    }
}

#[test]
fn stats_count_weights() {
    let folder = Folder::new("stats-weights");
    let sheet = "sheet\ncost 1 4\ncost 2 3\ncost 3 2\nclause 1 2\nclause 2 3\nclause 1 3\n";
    let record = "record\nvariables 3\nclaim 5\nassign 2 3\n\
        weighted 1*2 over 1 : -1 bound 4\nraw 05 00\nweighted 1*5 2*1 3*3 over 2 : bound 5\n";
    for (name, text) in [("sheet", sheet), ("record", record)] {
        folder.write(&format!("{name}.txt"), text);
        let packed = folder.run(&["pack", &format!("{name}.txt"), "-o", name]);
        assert_eq!(code(&packed), 0);
    }
    let counted = folder.run(&["stats", "sheet", "record"]);
    let counts = printed(&counted);
    let counts = counts.split("record: ").nth(1).unwrap();
    let wanted = "93 bytes\nsteps: 3 (copy 0, cost 0, independent 0, resolve 0, weighted 2)\n\
        literals in steps: 1\ndepth of the last step: 1\nsteps that the last one rests on: 0\n\
        clauses with weights: 4\nbodies that are no step: 1\n";
    assert_eq!((counts, code(&counted)), (wanted, 0));
}

#[test]
fn stats_and_text_answer_to_every_sample() {
    let folder = Folder::new("any");
    for sample in stream(12).take(150) {
        folder.write("sheet", &sample.sheet);
        folder.write("record", &sample.record);
        let number = proved::judge(&sample.sheet, &sample.record).number;
        let wanted = i32::from([2, 3, 4, 5, 7].contains(&number));
        for command in [&["stats"][..], &["text", "--record"]] {
            let ran = folder.run(&[command, &["sheet", "record"]].concat());
            // A stray bit is told before wrong pairs, which these two commands cannot do without.
            assert!(code(&ran) == wanted || number == 6, "{}", sample.aimed);
            if code(&ran) == 1 {
                assert!(complained(&ran).contains(": byte "), "{}", complained(&ran));
            }
        }
    }
}

/// Files cut anywhere are shown as far as they go.
#[test]
fn cut_files_are_explained() {
    for Example { sheet, record, .. } in examples() {
        let cut_sheets = (0..sheet.len()).map(|end| (&sheet[..end], &record[..]));
        let cut_records = (0..record.len()).map(|end| (&sheet[..], &record[..end]));
        for (sheet, record) in cut_sheets.chain(cut_records) {
            let answer = proved::judge(sheet, record);
            assert!(!answer.accepts());
            assert!(explain(sheet, record, &answer).len() > 2);
        }
    }
}
