//! Records within a gap, which are neither accepted nor refused: their line, their exit code, what is said of them, and
//! `plan --steps`, which writes them.
//!
//! Explanations here are of the reference checker's answers; the program's own are the proved checker's.

mod common;

use common::{code, complained, judged, printed, Folder};
use plancheck::explain::explain;
use plancheck::pack::pack;
use planner::{format, random::Random, search, Problem};
use proved::Verdict;
use samples::examples::{example, Example};
use samples::sheets;

/// Of any two pumps one has to run.
const PUMPS: &str = "sheet\ncost 1 4\ncost 2 3\ncost 3 2\nclause 1 2\nclause 2 3\nclause 1 3\n";
/// And no two may.
const TIGHT: &str = "clause -1 -2\nclause -1 -3\nclause -2 -3\n";

fn packed(text: &str) -> Vec<u8> {
    pack(text).unwrap().1
}

/// What is said of a record for the pumps.
fn explained(record: &str) -> String {
    let (sheet, record) = (packed(PUMPS), packed(record));
    explain(&sheet, &record, &judged(&sheet, &record)).join("\n")
}

#[test]
fn a4_is_explained_with_what_is_known_and_what_is_not() {
    let Example { sheet, record, .. } = example("A4");
    let answer = judged(&sheet, &record);
    let wanted = "\
within 5 cost 8 open 2 steps 5
Within 5, neither accepted nor refused: the record's assignment satisfies every clause and costs 8, and the least cost lies \
between 3 and 8. The record does not show that 8 is the least.
assignment (record, byte 12): true are: variable 1 costs 3, variable 2 costs 5; together 8
the last step's bound is 3: 5 below the claim, 8
step 5 (record, byte 131): resolve 3 4 on 1 : bound 3
step 3 (record, byte 93): resolve 1 2 on 2 : 1 bound none
step 4 (record, byte 117): cost : -1 bound 3";
    assert_eq!(explain(&sheet, &record, &answer).join("\n"), wanted);
    assert_eq!(answer.verdict(), Verdict::Within);
    assert!(!answer.accepts());
}

#[test]
fn a_gap_of_the_whole_claim_is_told() {
    let record = "record\nvariables 3\nclaim 9\nassign 1 2 3\ncost : bound 0\n";
    let wanted = "\
within 9 cost 9 open 3 steps 1
Within 9, neither accepted nor refused: the record's assignment satisfies every clause and costs 9, and the least cost lies \
between 0 and 9. The record does not show that 9 is the least.
assignment (record, byte 12): true are: variable 1 costs 4, variable 2 costs 3, variable 3 costs 2; together 9
the last step's bound is 0: 9 below the claim, 9
step 1 (record, byte 21): cost : bound 0";
    assert_eq!(explained(record), wanted);
}

const CLOSE: &str = "\
refused 19 at 1
Close: step 1 is the last and still has literals, or the claim is none and its bound is not none.
";

#[test]
fn nineteen_is_left_for_literals() {
    // The bound is not below the claim, below it, and none.
    let steps = [
        ("independent 1 2 : 2 bound 6", "claim (record, byte 0): 5\nclause 1 (sheet, byte 40): 1 2\n  costs there: variable 1 costs 4, variable 2 costs 3\n\
            clause 2 (sheet, byte 44): 2 3\n  costs there: variable 2 costs 3, variable 3 costs 2"),
        ("cost : -1 bound 4", "claim (record, byte 0): 5\ncosts made true: variable 1 costs 4"),
        ("copy 1 : 1 2 bound none", "claim (record, byte 0): 5\nclause 1 (sheet, byte 40): 1 2"),
    ];
    for (step, shown) in steps {
        let record = format!("record\nvariables 3\nclaim 5\nassign 2 3\n{step}\n");
        let wanted = format!("{CLOSE}step 1 (record, byte 21): {step}\n{shown}");
        assert_eq!(explained(&record), wanted);
    }
}

#[test]
fn nineteen_is_left_for_none_with_another_bound() {
    let record = "record\nvariables 3\nclaim none\nassign\nindependent 1 : bound 3\n";
    let wanted = format!(
        "{CLOSE}step 1 (record, byte 21): independent 1 : bound 3\nclaim (record, byte 0): none\n\
        clause 1 (sheet, byte 40): 1 2\n  costs there: variable 1 costs 4, variable 2 costs 3"
    );
    assert_eq!(explained(record), wanted);
}

/// The exit codes of the commands that judge, for one record.
fn codes(folder: &Folder) -> [i32; 3] {
    ["judge", "explain", "stats"].map(|command| code(&folder.run(&[command, "sheet", "record"])))
}

#[test]
fn acceptance_refusal_and_within_have_exit_codes_of_their_own() {
    let folder = Folder::new("codes");
    for (name, wanted) in [("A1", 0), ("B2", 0), ("A2", 1), ("C1", 1), ("A4", 3)] {
        let Example { sheet, record, .. } = example(name);
        folder.write("sheet", &sheet);
        folder.write("record", &record);
        assert_eq!(codes(&folder), [wanted, wanted, 0], "{name}");
    }
    let counted = printed(&folder.run(&["stats", "sheet", "record"]));
    assert!(counted.starts_with("within 5 cost 8 open 2 steps 5\nsheet: 2 variables"));
    assert_eq!(code(&folder.run(&["judge", "sheet", "gone"])), 2);
}

#[test]
fn help_tells_the_four_lines_and_codes() {
    let folder = Folder::new("four");
    let judge = printed(&folder.run(&["judge", "--help"]));
    for line in [
        "least C",
        "none open 0",
        "within G cost C",
        "refused N at P",
    ] {
        assert!(judge.contains(line), "{judge}");
    }
    for help in [judge, printed(&folder.run(&["--help"]))] {
        assert!(help.contains("3 ") && help.contains("within"), "{help}");
    }
    let plan = printed(&folder.run(&["plan", "--help"]));
    assert!(plan.contains("--steps N") && plan.contains("exit code is 2"));
}

/// The line and the exit code of `plan --steps`.
fn planned(folder: &Folder, steps: usize, more: &[&str]) -> (String, i32) {
    let steps = steps.to_string();
    let call = ["plan", "sheet", "-o", "record", "--steps", &steps];
    let ran = folder.run(&[&call[..], more].concat());
    (printed(&ran), code(&ran))
}

#[test]
fn the_pumps_are_within_a_gap_until_the_steps_suffice() {
    let folder = Folder::new("pumps");
    folder.write("sheet", packed(PUMPS));
    let unweighted = |steps| planned(&folder, steps, &["--unweighted"]);
    let within = ("within 2 cost 5 open 2 steps 1\n".to_string(), 3);
    assert_eq!([unweighted(1), unweighted(2)], [within.clone(), within]);
    let least = |steps| (format!("least 5 open 2 steps {steps}\n"), 0);
    assert_eq!([unweighted(3), unweighted(6)], [least(3), least(3)]);
    assert_eq!([unweighted(7), unweighted(8)], [least(7), least(7)]);
    assert_eq!(planned(&folder, 1, &[]), least(1));
}

#[test]
fn the_classrooms_sheet_takes_one_step() {
    let folder = Folder::new("classroom");
    folder.write("sheet", example("A1").sheet);
    let whole = printed(&folder.run(&["plan", "sheet", "-o", "record"]));
    for steps in 1..9 {
        let (line, code) = planned(&folder, steps, &[]);
        let short = line == "least 3 open 1 steps 1\n";
        assert!((short || line == whole) && code == 0, "{line}");
    }
}

#[test]
fn where_nothing_is_known_nothing_is_written() {
    let folder = Folder::new("tight");
    folder.write("sheet", packed(&(PUMPS.to_string() + TIGHT)));
    let stopped = folder.run(&["plan", "sheet", "-o", "record", "--steps", "6"]);
    let message = "plancheck: sheet: no assignment was found, and 6 steps do not show that none exists: nothing is written\n";
    assert_eq!(
        (complained(&stopped).as_str(), code(&stopped)),
        (message, 2)
    );
    assert_eq!(printed(&stopped), "");
    assert!(!folder.0.join("record").exists());
    let (line, code) = planned(&folder, 11, &[]);
    assert!(
        line.starts_with("none open 0 steps ") && code == 0,
        "{line}"
    );
}

/// What `plan --steps` writes has no more steps, and its line and exit code are the proved checker's. Nothing where it writes
/// nothing.
fn steps_are_kept(folder: &Folder, problem: &Problem, steps: usize) -> Option<Verdict> {
    folder.write("sheet", format::sheet(problem));
    let (line, code) = planned(folder, steps, &[]);
    if code == 2 {
        return None;
    }
    let record = folder.read("record");
    let answer = proved::judge(&folder.read("sheet"), &record);
    assert_eq!(line, answer.line() + "\n");
    assert!(answer.step_count <= steps as u64, "{line}");
    let wanted = match answer.verdict() {
        Verdict::Least | Verdict::NoneExists => 0,
        Verdict::Within => 3,
        Verdict::Refused => panic!("a planned record is refused: {line}"),
    };
    assert_eq!(code, wanted, "{line}");
    Some(answer.verdict())
}

#[test]
fn planned_records_keep_to_their_steps() {
    let folder = Folder::new("steps");
    let mut random = Random::new(17);
    let mut within = 0;
    for round in 0..24 {
        let mut problem = match round % 3 {
            0 => sheets::middle(&mut random),
            _ => sheets::small(&mut random),
        };
        problem.loss = (round % 2 == 0).then_some(round);
        let enough = search::plan(&problem).steps.len();
        for steps in [1, 2, 3, 5, 9, enough] {
            let verdict = steps_are_kept(&folder, &problem, steps);
            let unfinished = matches!(verdict, None | Some(Verdict::Within));
            assert!(steps < enough || !unfinished, "{steps}: {verdict:?}");
            within += u32::from(verdict == Some(Verdict::Within));
        }
    }
    assert!(within > 5, "{within}");
}
