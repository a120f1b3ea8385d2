//! `trim`: records without their idle steps, refused records, what is told of the bytes that are saved, and the planner, whose
//! records have no idle steps.

mod common;

use common::{code, complained, printed, Folder};
use plancheck::help;
use plancheck::pack::pack;
use plancheck::record::Record;
use plancheck::sheet::Sheet;
use plancheck::stats::stats;
use plancheck::steps;
use plancheck::trim::{best_idle, trimmed, without_idle_steps, Trimmed};
use planner::random::Random;
use planner::search::{plan_by, plan_in, Bounds};
use planner::{format, tree, Problem, Reason, Step};
use proved::Verdict;
use samples::examples::{example, examples, Example};
use samples::{sheets, stream};
use std::fs;
use std::os::unix::fs::symlink;

const UNTRIMMED: &str = "nothing was to be trimmed: no step is idle\n";

fn packed(text: &str) -> Vec<u8> {
    pack(text).unwrap().1
}

/// A folder with the two files.
fn holding(name: &str, sheet: &[u8], record: &[u8]) -> Folder {
    let folder = Folder::new(name);
    folder.write("sheet", sheet);
    folder.write("record", record);
    folder
}

/// Every folder whose record is not refused tells how it is trimmed, and has the trimmed record where that is another.
#[test]
fn the_examples_are_trimmed_as_their_files_say() {
    for example in examples() {
        let file = |name: &str| fs::read(example.folder.join(name)).ok();
        let Example { sheet, record, .. } = &example;
        let folder = holding("trim-examples", sheet, record);
        let ran = folder.run(&["trim", "sheet", "record", "-o", "trimmed"]);
        let place = example.folder.display();
        if example.line.starts_with("refused") {
            assert_eq!((code(&ran), printed(&ran).as_str()), (1, ""), "{place}");
            assert_eq!((file("trim"), file("trimmed")), (None, None), "{place}");
            continue;
        }
        assert_eq!((code(&ran), complained(&ran).as_str()), (0, ""), "{place}");
        assert_eq!(Some(ran.stdout), file("trim"), "{place}");
        let left = folder.read("trimmed");
        assert_eq!(file("trimmed").is_some(), left != *record, "{place}");
        assert_eq!(left, file("trimmed").unwrap_or(record.clone()), "{place}");
    }
}

#[test]
fn t1_without_its_idle_steps_is_a1() {
    let [t1, a1] = ["T1", "A1"].map(example);
    assert_eq!(t1.sheet, a1.sheet);
    let Trimmed { record, marks } = trimmed(&t1.sheet, &t1.record).unwrap();
    assert_eq!(marks, [1, 0, 0, 1, 1, 1, 1]);
    assert_eq!(record, a1.record);
}

/// The steps of A1 are all idle below a last step that shows next to nothing: the gap stays, and what could have closed it goes.
#[test]
fn a_record_within_a_gap_is_trimmed_and_exits_with_0() {
    let [t2, a1] = ["T2", "A1"].map(example);
    let folder = holding("trim-within", &t2.sheet, &t2.record);
    let ran = folder.run(&["trim", "sheet", "record", "-o", "out"]);
    let told = "out: 1 of 6 steps kept, 33 of 173 bytes; saved: 80%\n\
        the answer stays, but for the step count: within 3 cost 3 open 1 steps 1\n\
        step 5, which is left out, shows more: bound 3\n";
    assert_eq!((printed(&ran).as_str(), code(&ran)), (told, 0));
    let judged = folder.run(&["judge", "sheet", "out"]);
    assert_eq!(printed(&judged), "within 3 cost 3 open 1 steps 1\n");
    assert_eq!(code(&judged), 3);
    // Up to its last step it is a record that is accepted.
    let shown = printed(&folder.run(&["text", "--record", "sheet", "record"]));
    let cut: Vec<&str> = shown
        .lines()
        .filter(|line| !line.ends_with("step 6"))
        .collect();
    assert_eq!(packed(&(cut.join("\n") + "\n")), a1.record);
}

/// Each of the three variables has to be true, at a cost of 1. The number and the bound are those of the step that is named.
#[rustfmt::skip]
#[test]
fn the_best_step_that_is_left_out_is_named() {
    let sheet = "sheet\ncost 1 1\ncost 2 1\ncost 3 1\nclause 1\nclause 2\nclause 3\n";
    let folder = holding("trim-best", &packed(sheet), &[]);
    let (zero, one, all) = ("cost : bound 0", "independent 1 : bound 1", "independent 1 2 3 : bound 3");
    let (two, again) = ("independent 1 2 : bound 2", "independent 2 3 : bound 2");
    let (dear, never) = ("cost : -1 -2 bound 2", "copy 1 : 1 bound none");
    type Named = Option<(usize, u64)>;
    let cases: [(&[&str], Named); 8] = [
        (&[one, zero], Some((1, 1))),
        (&[one, two, again, zero], Some((2, 2))),
        (&[two, one, all, all, one], Some((3, 3))),
        (&[one, again, two], None),
        // Nothing is shown by itself where there are literals.
        (&[dear, never, one], None),
        (&[never, dear, two, zero], Some((3, 2))),
        (&[one, two, all], None),
        (&[zero], None),
    ];
    for (steps, named) in cases {
        let record = format!("record\nvariables 3\nclaim 3\nassign 1 2 3\n{}\n", steps.join("\n"));
        folder.write("record", packed(&record));
        let ran = folder.run(&["trim", "sheet", "record", "-o", "out"]);
        let line = named.map(|(number, bound)| format!("step {number}, which is left out, shows more: bound {bound}"));
        assert_eq!(printed(&ran).lines().nth(2), line.as_deref(), "{steps:?}");
        assert_eq!(code(&ran), 0, "{steps:?}");
    }
}

#[test]
fn trimming_a_record_over_itself_again_changes_nothing() {
    let Example { sheet, record, .. } = example("T1");
    let folder = holding("trim-itself", &sheet, &record);
    let first = "record: 5 of 7 steps kept, 153 of 207 bytes; saved: 26%\n\
        the answer stays, but for the step count: least 3 open 1 steps 5\n"
        .to_string();
    let again = format!("record: 5 of 5 steps kept, 153 of 153 bytes\n{UNTRIMMED}");
    for told in [first, again.clone(), again] {
        let ran = folder.run(&["trim", "sheet", "record", "-o", "record"]);
        assert_eq!((printed(&ran), code(&ran)), (told, 0));
        assert_eq!(folder.read("record"), example("A1").record);
    }
    assert_eq!(folder.read("sheet"), sheet);
}

/// A record that claims 0, with so many idle steps.
fn idle(count: usize) -> Vec<u8> {
    let steps = "cost : bound 0\n".repeat(count + 1);
    packed(&format!("record\nvariables 1\nclaim 0\nassign\n{steps}"))
}

/// 20 bytes a step, the pair included. Of 2,000,033 bytes 33 are left, and that is not all saved.
#[test]
fn the_saved_share_is_rounded_down() {
    let folder = holding("trim-share", &packed("sheet\ncost 1 1\n"), &[]);
    let counts = [
        (1, "33 of 53 bytes; saved: 37%"),
        (2, "33 of 73 bytes; saved: 54%"),
        (98, "33 of 1993 bytes; saved: 98%"),
        (100_000, "33 of 2000033 bytes; saved: 99%"),
    ];
    for (count, told) in counts {
        folder.write("record", idle(count));
        let ran = folder.run(&["trim", "sheet", "record", "-o", "out"]);
        let start = format!("out: 1 of {} steps kept, {told}\n", count + 1);
        assert!(printed(&ran).starts_with(&start), "{}", printed(&ran));
        assert_eq!(folder.read("out"), idle(0));
    }
}

/// The text once for each number from 1 to 600, in the place of V.
fn for_600(text: &str) -> String {
    let numbers = (1..=600).map(|number| text.replace('V', &number.to_string()));
    numbers.collect()
}

/// One step of 20 bytes goes, and one that cites 600 clauses stays.
#[test]
fn a_share_below_one_percent_is_not_told_as_nothing() {
    let sheet = format!("sheet\n{}{}", for_600("cost V 1\n"), for_600("clause V\n"));
    let all = for_600(" V");
    let steps = format!("cost : bound 0\nindependent{all} : bound 600\n");
    let record = format!("record\nvariables 600\nclaim 600\nassign{all}\n{steps}");
    let folder = holding("trim-little", &packed(&sheet), &packed(&record));
    let ran = folder.run(&["trim", "sheet", "record", "-o", "out"]);
    let told = "out: 1 of 2 steps kept, 2507 of 2527 bytes; saved: under 1%\n\
        the answer stays, but for the step count: least 600 open 600 steps 1\n";
    assert_eq!((printed(&ran).as_str(), code(&ran)), (told, 0));
}

/// The numbers of the last step and of all that a step among them cites, looked up until there are no more.
fn kept(steps: &[Step]) -> Vec<usize> {
    let mut kept = vec![steps.len()];
    let mut next = 0;
    while next < kept.len() {
        if let Reason::Resolution {
            positive, negative, ..
        } = steps[kept[next] - 1].reason
        {
            let cited = [positive, negative].map(|number| number as usize);
            let fresh = cited.into_iter().filter(|number| !kept.contains(number));
            kept.extend(fresh.collect::<Vec<_>>());
        }
        next += 1;
    }
    kept.sort_unstable();
    kept.dedup();
    kept
}

/// The record of these steps alone, with what they cite counted anew.
fn of_kept(record: &Record, steps: &[Step], kept: &[usize]) -> Vec<u8> {
    let place = |number: u32| kept.binary_search(&(number as usize)).unwrap() as u32 + 1;
    let bodies = kept.iter().map(|number| {
        let mut step = steps[number - 1].clone();
        step.reason = step.reason.renumbered(place);
        format::step_body(&step)
    });
    format::record_from(record.claim, record.bits, &bodies.collect())
}

/// What is kept of a record that is not refused is what the sentence says, and so are its bytes, its answer and its counts.
/// Whether it had idle steps.
fn is_trimmed_by_the_sentence(sheet: &[u8], bytes: &[u8]) -> bool {
    let answer = proved::judge(sheet, bytes);
    let record = Record::open(bytes, Sheet::open(sheet).unwrap().variables).unwrap();
    let numbers = 1..=record.steps.count();
    let steps: Vec<Step> = numbers
        .map(|number| steps::read(record.steps.body(number).unwrap()).unwrap())
        .collect();
    let kept = kept(&steps);
    let trimmed = trimmed(sheet, bytes).unwrap();
    let marked = (1..=steps.len()).map(|number| u8::from(kept.contains(&number)));
    assert_eq!(trimmed.marks, marked.collect::<Vec<_>>());
    assert_eq!(trimmed.record, of_kept(&record, &steps, &kept));
    let mut wanted = answer;
    wanted.step_count = kept.len() as u64;
    assert_eq!(proved::judge(sheet, &trimmed.record), wanted);
    // What `stats` tells without the trimmer.
    let counts = stats(&record);
    assert_eq!(trimmed.kept(), counts.needed + 1);
    assert_eq!(counts.idle, steps.len() - kept.len());
    counts.idle > 0
}

#[test]
fn what_is_kept_is_what_the_last_step_rests_on() {
    let (mut met, mut untrimmed) = ([0; 3], 0);
    for sample in stream(19).take(6_000) {
        let answer = proved::judge(&sample.sheet, &sample.record);
        if answer.verdict() == Verdict::Refused {
            let refused = trimmed(&sample.sheet, &sample.record);
            assert_eq!(refused, Err(answer), "{}", sample.aimed);
            continue;
        }
        let was_idle = is_trimmed_by_the_sentence(&sample.sheet, &sample.record);
        untrimmed += usize::from(!was_idle);
        met[answer.verdict() as usize] += usize::from(was_idle);
    }
    println!("least, none, within: {met:?}; nothing idle in {untrimmed}");
    let enough = met.iter().all(|count| *count > 20);
    assert!(enough && untrimmed > 20, "{met:?}, {untrimmed}");
}

/// Of the idle steps without literals none does better than the step that is named, and no earlier one as well; where none is
/// named, none does better than the last. A record that ends on it is closed up to its bound. Whether one is named.
fn names_the_best_idle_step(sheet: &[u8], bytes: &[u8]) -> bool {
    let record = Record::open(bytes, Sheet::open(sheet).unwrap().variables).unwrap();
    let read = |number| steps::read(record.steps.body(number).unwrap()).unwrap();
    let steps: Vec<Step> = (1..=record.steps.count()).map(read).collect();
    let marks = trimmed(sheet, bytes).unwrap().marks;
    let (named, last) = (
        best_idle(sheet, bytes, &marks),
        steps[steps.len() - 1].bound,
    );
    let (number, bound) = named.unwrap_or((0, last));
    for (index, step) in steps.iter().enumerate() {
        if marks[index] == 0 && step.literals.is_empty() {
            let earlier = index + 1 < number;
            assert!(step.bound < bound || step.bound == bound && !earlier);
        }
    }
    if named.is_some() {
        let bodies = steps[..number].iter().map(format::step_body).collect();
        let cut = format::record_from(record.claim, record.bits, &bodies);
        let answer = proved::judge(sheet, &cut);
        assert_eq!((answer.number, answer.gap), (0, record.claim - bound));
        assert!(bound > last && marks[number - 1] == 0);
    }
    named.is_some()
}

#[test]
fn the_step_that_is_named_is_the_best_that_goes() {
    let mut met = [0; 3];
    for sample in stream(19).take(6_000) {
        let verdict = proved::judge(&sample.sheet, &sample.record).verdict();
        if verdict != Verdict::Refused {
            let named = names_the_best_idle_step(&sample.sheet, &sample.record);
            met[verdict as usize] += usize::from(named);
        }
    }
    println!("least, none, within: {met:?}");
    // Nothing shows more than what is accepted.
    assert!(met[..2] == [0, 0] && met[2] > 10, "{met:?}");
}

#[test]
fn stats_tell_idle_steps_and_who_leaves_them_out() {
    for (name, idle) in [("T1", Some(2)), ("T2", Some(5)), ("A1", None), ("S1", None)] {
        let Example { sheet, record, .. } = example(name);
        let folder = holding("trim-stats", &sheet, &record);
        let counted = printed(&folder.run(&["stats", "sheet", "record"]));
        let line = idle.map(|idle| format!("idle steps: {idle}; plancheck trim leaves them out"));
        let told = counted.lines().find(|line| line.contains("idle"));
        assert_eq!(told, line.as_deref(), "{name}");
    }
    // A refused record is not trimmed, and nobody is sent there with it.
    let refused =
        packed("record\nvariables 2\nclaim 3\nassign 1\ncost : bound 0\ncost : bound 9\n");
    let folder = holding("trim-stats", &example("A1").sheet, &refused);
    let counted = printed(&folder.run(&["stats", "sheet", "record"]));
    assert!(counted.starts_with("refused 13 at 2\n"), "{counted}");
    assert!(!counted.contains("idle"), "{counted}");
}

/// A record with one byte changed.
fn with(mut record: Vec<u8>, place: usize, byte: u8) -> Vec<u8> {
    record[place] = byte;
    record
}

/// Records for sheet A that are refused, and the three lines that are said of them, the second by its word.
#[rustfmt::skip]
fn refused_records() -> [(Vec<u8>, &'static str, &'static str, &'static str); 7] {
    let (a1, t1) = (|| example("A1").record, || example("T1").record);
    [
        (Vec::new(), "refused 5 at 0", "Record head: ", "sheet: 36 bytes; record: 0 bytes"),
        (t1()[..206].to_vec(), "refused 7 at 7", "Record pairs: ",
            "step 7 (record, pair at byte 61): offset 185, length 22; the offset due is 185, and the end due is 206, where it is 207"),
        (example("A2").record, "refused 11 at 0", "Claimed cost: ", "claim (record, byte 0): 4"),
        (example("A3").record, "refused 10 at 2", "Broken rule: ", "clause 2 (sheet, byte 32): 1 -2"),
        // An idle step has to be right as well.
        (with(t1(), 93, 6), "refused 13 at 2", "Cost bound: ", "step 2 (record, byte 89): cost : -2 bound 6"),
        (example("A7").record, "refused 18 at 5", "Lesser bound: ", "step 5 (record, byte 131): resolve 3 4 on 1 : bound 4"),
        (with(a1(), 133, 1), "refused 8 at 5", "Step form: ",
            "step 5 (record, byte 131): raw 04 00 01 00 03 00 00 00 00 00 00 00 03 00 00 00 04 00 00 00 01 00"),
    ]
}

#[test]
fn a_refused_record_leaves_the_output() {
    for (record, first, word, last) in refused_records() {
        let folder = holding("trim-refused", &example("A1").sheet, &record);
        folder.write("out", "kept");
        for out in ["out", "record", "new"] {
            let refused = folder.run(&["trim", "sheet", "record", "-o", out]);
            let message = complained(&refused);
            let lines: Vec<&str> = message.lines().collect();
            assert_eq!((code(&refused), lines.len()), (1, 3), "{message}");
            assert_eq!(lines[0], format!("plancheck: record: {first}"));
            assert!(lines[1].starts_with(word), "{message}");
            assert_eq!((lines[2], printed(&refused).as_str()), (last, ""));
        }
        assert_eq!(folder.read("out"), b"kept");
        assert_eq!(folder.read("record"), record);
        assert!(!folder.0.join("new").exists());
    }
}

#[test]
fn a_refused_sheet_is_named_and_leaves_the_output() {
    let Example { sheet, record, .. } = example("T1");
    let folder = holding("trim-sheet", &with(sheet, 34, 3), &record);
    let refused = folder.run(&["trim", "sheet", "record", "-o", "record"]);
    let message = complained(&refused);
    let start = "plancheck: sheet: byte 32: refused 4 at 2\nRule form: ";
    assert!(message.starts_with(start), "{message}");
    assert_eq!((code(&refused), printed(&refused).as_str()), (1, ""));
    assert_eq!(folder.read("record"), record);
}

/// By whatever name: a trimmed record is not written over the sheet.
#[test]
fn the_sheet_is_not_written_over() {
    let Example { sheet, record, .. } = example("T1");
    let folder = holding("trim-over-sheet", &sheet, &record);
    let full = folder.0.join("sheet").display().to_string();
    for (name, target) in [("link", "sheet"), ("second", "link"), ("third", &full)] {
        symlink(target, folder.0.join(name)).unwrap();
    }
    for to in ["sheet", "./sheet", &full, "link", "second", "third"] {
        for from in ["sheet", "link"] {
            let wrong = folder.run(&["trim", from, "record", "-o", to]);
            let told = format!("{to} is the sheet, which would be lost\n\n{}", help::TRIM);
            assert_eq!(complained(&wrong), format!("plancheck: {told}"));
            assert_eq!((code(&wrong), printed(&wrong).as_str()), (2, ""));
            assert_eq!(folder.read("sheet"), sheet, "{to}");
        }
    }
}

/// A hard link to the sheet is given a file of its own, and the record may be written over by every name.
#[test]
fn other_files_are_written_over() {
    let Example { sheet, record, .. } = example("T1");
    let folder = holding("trim-over-others", &sheet, &record);
    fs::hard_link(folder.0.join("sheet"), folder.0.join("hard")).unwrap();
    symlink("record", folder.0.join("link")).unwrap();
    for to in ["hard", "link"] {
        let ran = folder.run(&["trim", "sheet", "record", "-o", to]);
        assert_eq!(code(&ran), 0, "{to}");
        assert_eq!(folder.read(to), example("A1").record, "{to}");
    }
    assert_eq!(folder.read("sheet"), sheet);
    assert_eq!(folder.read("record"), example("A1").record);
}

#[rustfmt::skip]
#[test]
fn wrong_arguments_show_the_help_of_trim() {
    let Example { sheet, record, .. } = example("T1");
    let folder = holding("wrong-trim", &sheet, &record);
    folder.write("out", "kept");
    let calls: [(&[&str], &str); 8] = [
        (&[], "2 files are due, not 0"),
        (&["sheet", "-o", "out"], "2 files are due, not 1"),
        (&["sheet", "record", "out"], "2 files are due, not 3"),
        (&["sheet", "record"], "-o FILE is missing"),
        (&["sheet", "record", "-o"], "-o needs a file"),
        (&["sheet", "record", "-o", "out", "-o", "out"], "-o stands twice"),
        (&["--record", "sheet", "record", "-o", "out"], "unknown option --record"),
        (&["sheet", "record", "-o", "out", "--steps", "3"], "unknown option --steps"),
    ];
    for (words, message) in calls {
        let wrong = folder.run(&[&["trim"], words].concat());
        assert_eq!((code(&wrong), printed(&wrong).as_str()), (2, ""));
        let told = format!("plancheck: {message}\n\n{}", help::TRIM);
        assert_eq!(complained(&wrong), told, "{words:?}");
    }
    assert_eq!(folder.read("out"), b"kept");
    let unwritten = folder.run(&["trim", "sheet", "record", "-o", "gone/out"]);
    assert_eq!(code(&unwritten), 2);
    assert!(complained(&unwritten).starts_with("plancheck: gone/out: cannot be written: "));
}

/// The records that the planner makes of a problem in every way, before anything is done to them.
fn planned(problem: &Problem) -> Vec<Vec<u8>> {
    let mut records = Vec::new();
    for bounds in [Bounds::Independent, Bounds::Weights] {
        let whole = plan_by(problem, bounds, u64::MAX).0;
        records.push(whole.unwrap().record());
        let stopped = [1, 2, 3, 5, 9, 20].map(|most| plan_in(problem, bounds, most));
        records.extend(stopped.into_iter().flatten().map(|plan| plan.record()));
    }
    if problem.variables() <= 8 {
        records.push(tree::plan(problem).record());
    }
    records
}

/// So `plan` writes them as they are, and `--steps` counts steps that are needed.
#[test]
fn the_planner_makes_no_idle_steps() {
    let mut random = Random::new(9);
    let mut met = [0; 3];
    for round in 0..90 {
        let mut problem = match round % 3 {
            0 => sheets::middle(&mut random),
            _ => sheets::small(&mut random),
        };
        problem.loss = sheets::some_loss(&mut random);
        let sheet = format::sheet(&problem);
        for record in planned(&problem) {
            let left = trimmed(&sheet, &record).unwrap();
            assert!(left.record == record && left.marks.iter().all(|mark| *mark == 1));
            met[proved::judge(&sheet, &record).verdict() as usize] += 1;
        }
    }
    println!("least, none, within: {met:?}");
    assert!(met.iter().all(|count| *count > 50), "{met:?}");
}

/// What `plan` does to a record of the planner, on records that it would not make.
#[test]
fn idle_steps_are_left_out_before_a_record_is_written() {
    let [a1, a7, t1, t2] = ["A1", "A7", "T1", "T2"].map(example);
    let left = fs::read(t2.folder.join("trimmed")).unwrap();
    assert_eq!(without_idle_steps(&t1.sheet, t1.record), a1.record);
    assert_eq!(without_idle_steps(&t2.sheet, t2.record), left);
    // A refused one is written as it is.
    assert_eq!(without_idle_steps(&a7.sheet, a7.record.clone()), a7.record);
}

#[test]
fn what_plan_writes_is_trimmed() {
    let folder = Folder::new("trim-planned");
    let mut random = Random::new(10);
    for ways in [&[][..], &["--unweighted"], &["--tree"], &["--steps", "3"]] {
        let mut problem = sheets::small(&mut random);
        // One that has an assignment, so that something is written for every number of steps.
        problem
            .clauses
            .retain(|clause| clause.iter().any(|literal| literal.is_positive()));
        folder.write("sheet", format::sheet(&problem));
        let planned = folder.run(&[&["plan", "sheet", "-o", "record"], ways].concat());
        assert_eq!(code(&planned), 0, "{ways:?}");
        let record = folder.read("record");
        let ran = folder.run(&["trim", "sheet", "record", "-o", "record"]);
        assert!(printed(&ran).ends_with(UNTRIMMED), "{ways:?}");
        assert_eq!(folder.read("record"), record);
    }
}
