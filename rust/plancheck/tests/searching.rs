//! `search`: the best plan of a sheet, its floor, searches that stop early, refused sheets, and what is told meanwhile.

mod common;

use common::{code, complained, printed, Folder};
use plancheck::help;
use plancheck::pack::pack;
use plancheck::search::{in_parts, lines, progress_line, BUDGET};
use plancheck::sheet::Sheet;
use planner::random::Random;
use planner::{format, search, Problem, NONE};
use proved::Found;
use samples::examples::{example, examples};
use samples::sheets;
use std::collections::BTreeSet;
use std::fs;

/// Of any two pumps one has to run.
const PUMPS: &str = "sheet\ncost 1 4\ncost 2 3\ncost 3 2\nclause 1 2\nclause 2 3\nclause 1 3\n";
/// And no two may.
const TIGHT: &str = "clause -1 -2\nclause -1 -3\nclause -2 -3\n";

fn packed(text: &str) -> Vec<u8> {
    pack(text).unwrap().1
}

/// What is printed of a sheet with this budget, or with none that is said. Every answer has exit code 0 and is all that is told.
fn searched(folder: &Folder, sheet: &[u8], budget: Option<u64>) -> String {
    folder.write("sheet", sheet);
    let number = budget.map(|number| number.to_string());
    let option = number.iter().flat_map(|number| ["--budget", number]);
    let ran = folder.run(&[&["search", "sheet"][..], &option.collect::<Vec<_>>()].concat());
    assert_eq!((code(&ran), complained(&ran).as_str()), (0, ""));
    printed(&ran)
}

/// Worked by hand: 1 false forces 2 and 3; 1 true costs 4, then 2 false forces 3 and costs 6, and 2 true costs 7.
#[test]
fn the_pumps_are_searched_by_every_budget() {
    let folder = Folder::new("search-pumps");
    let plan = "assign 2 3\ncost 5\n";
    let least = format!("{plan}floor 5\nended after 4 choices: 5 is the least cost\n");
    let answers = [
        (0, "no plan\nfloor 0\nnot ended after 0 choices: whether a plan exists is not known; none costs less than 0\n".to_string()),
        (1, format!("{plan}floor 0\nnot ended after 1 choice: the least cost lies between 0 and 5\n")),
        (2, format!("{plan}floor 4\nnot ended after 2 choices: the least cost lies between 4 and 5\n")),
        (3, format!("{plan}floor 4\nnot ended after 3 choices: the least cost lies between 4 and 5\n")),
        (4, least.clone()),
        (5, least.clone()),
        (u64::MAX, least.clone()),
    ];
    for (budget, wanted) in answers {
        let told = searched(&folder, &packed(PUMPS), Some(budget));
        assert_eq!(told, wanted, "budget {budget}");
    }
    assert_eq!(searched(&folder, &packed(PUMPS), None), least);
}

#[test]
fn where_no_plan_exists_that_is_told_once_everything_was_tried() {
    let folder = Folder::new("search-tight");
    let tight = packed(&(PUMPS.to_string() + TIGHT));
    let stopped = "no plan\nfloor 0\nnot ended after 1 choice: whether a plan exists is not known; none costs less than 0\n";
    assert_eq!(searched(&folder, &tight, Some(1)), stopped);
    let none = "no plan\nfloor none\nended after 2 choices: no assignment satisfies every clause\n";
    assert_eq!(searched(&folder, &tight, Some(2)), none);
    assert_eq!(searched(&folder, &tight, None), none);
}

/// A plan that makes nothing true is not the same as none, and what is forced takes no choice.
#[rustfmt::skip]
#[test]
fn what_is_forced_needs_no_budget() {
    let folder = Folder::new("search-forced");
    let costs = "sheet\ncost 1 4\ncost 2 3\n";
    let ended = "ended after 0 choices";
    let sheets = [
        ("clause 2\nclause 1 -2\n", format!("assign 1 2\ncost 7\nfloor 7\n{ended}: 7 is the least cost\n")),
        ("clause -1\nclause -2\n", format!("assign\ncost 0\nfloor 0\n{ended}: 0 is the least cost\n")),
        ("clause\n", format!("no plan\nfloor none\n{ended}: no assignment satisfies every clause\n")),
        ("clause 1\nclause -1\n", format!("no plan\nfloor none\n{ended}: no assignment satisfies every clause\n")),
    ];
    for (clauses, wanted) in sheets {
        let sheet = packed(&format!("{costs}{clauses}"));
        for budget in [Some(0), None] {
            assert_eq!(searched(&folder, &sheet, budget), wanted, "{clauses}");
        }
    }
}

#[test]
fn costs_and_floors_have_the_loss() {
    let folder = Folder::new("search-loss");
    let house = packed(&PUMPS.replace("clause 1 2\n", "loss 6\nclause 1 2\n"));
    let answers = [
        (Some(0), "no plan\nfloor 6\nnot ended after 0 choices: whether a plan exists is not known; none costs less than 6\n"),
        (Some(1), "assign 2 3\ncost 11\nfloor 6\nnot ended after 1 choice: the least cost lies between 6 and 11\n"),
        (Some(2), "assign 2 3\ncost 11\nfloor 10\nnot ended after 2 choices: the least cost lies between 10 and 11\n"),
        (None, "assign 2 3\ncost 11\nfloor 11\nended after 4 choices: 11 is the least cost\n"),
    ];
    for (budget, wanted) in answers {
        assert_eq!(searched(&folder, &house, budget), wanted);
    }
}

/// Nothing costs anything, so that the first plan is as good as those that were not tried.
#[test]
fn a_plan_at_the_floor_is_the_least_before_the_search_has_ended() {
    let folder = Folder::new("search-floor");
    let sheet = packed("sheet\ncost 1 0\ncost 2 0\nloss 9\n");
    let stopped = "assign\ncost 9\nfloor 9\nnot ended after 2 choices: 9 is the least cost all the same, since it is the floor\n";
    assert_eq!(searched(&folder, &sheet, Some(2)), stopped);
    let ended = "assign\ncost 9\nfloor 9\nended after 4 choices: 9 is the least cost\n";
    assert_eq!(searched(&folder, &sheet, Some(4)), ended);
}

/// A sheet of so many variables, each at a cost of its own number, of which the last two have to be true.
fn long(variables: usize) -> String {
    let costs: String = (1..=variables).map(|v| format!("cost {v} {v}\n")).collect();
    let (last, before) = (variables, variables - 1);
    format!("sheet\n{costs}clause {last}\nclause {before} -{last}\n")
}

#[test]
fn the_last_of_64_variables_has_its_place() {
    let folder = Folder::new("search-64");
    let told = searched(&folder, &packed(&long(64)), Some(62));
    let wanted =
        "assign 63 64\ncost 127\nfloor 127\nnot ended after 62 choices: 127 is the least cost all the same, since it is the floor\n";
    assert_eq!(told, wanted);
    // Each second branch takes one choice, and is left for its cost.
    let ended =
        "assign 63 64\ncost 127\nfloor 127\nended after 124 choices: 127 is the least cost\n";
    assert_eq!(searched(&folder, &packed(&long(64)), None), ended);
}

/// A sheet with one byte changed.
fn with(mut sheet: Vec<u8>, place: usize, byte: u8) -> Vec<u8> {
    sheet[place] = byte;
    sheet
}

/// Refused sheets, and the first line, the refusal's word and the last line of what is said of them.
#[rustfmt::skip]
fn refused_sheets() -> [(Vec<u8>, &'static str, &'static str, &'static str); 8] {
    let (a1, many) = (|| example("A1").sheet, || packed(&long(65)));
    let marked = packed(&long(65).replace("clause 65\n", "loss 3\nclause 65\n"));
    [
        (Vec::new(), "byte 0: refused 2 at 0", "Sheet head: ", "sheet: 0 bytes"),
        (with(a1(), 20, 33), "byte 20: refused 3 at 2", "Sheet pairs: ",
            "clause 2 (sheet, pair at byte 20): offset 33, length 4; the offset due is 32, and the end due is 36, where it is 37"),
        (with(a1(), 34, 3), "byte 32: refused 4 at 2", "Rule form: ", "clause 2 (sheet, byte 32): 1 -1"),
        (many(), "byte 0: refused 26 at 0", "Many paddles: the sheet has more variables than the 64 that the search takes.",
            "sheet (byte 0): 65 variables, 2 clauses; costs and pairs end at byte 280, the file has 286 bytes"),
        (marked, "byte 0: refused 26 at 0", "Many paddles: the sheet has more variables than the 64 that the search takes.",
            "sheet (byte 0): marked, 65 variables, 2 clauses; costs, loss and pairs end at byte 284, the file has 290 bytes"),
        // What is wrong with the sheet comes before what is too much in it.
        (many()[..270].to_vec(), "byte 0: refused 2 at 0", "Sheet head: ",
            "sheet (byte 0): 65 variables, 2 clauses; costs and pairs end at byte 280, the file has 270 bytes"),
        (with(many(), 272, 0), "byte 272: refused 3 at 2", "Sheet pairs: ",
            "clause 2 (sheet, pair at byte 272): offset 256, length 4; the offset due is 282, and the end due is 286, where it is 260"),
        (with(many(), 280, 132), "byte 280: refused 4 at 1", "Rule form: ", "clause 1 (sheet, byte 280): 66"),
    ]
}

#[test]
fn a_refused_sheet_is_not_searched() {
    let folder = Folder::new("search-refused");
    for (sheet, first, word, last) in refused_sheets() {
        folder.write("sheet", &sheet);
        for option in [&[][..], &["--budget", "0"], &["--budget", "4000000"]] {
            let refused = folder.run(&[&["search", "sheet"][..], option].concat());
            let message = complained(&refused);
            let lines: Vec<&str> = message.lines().collect();
            assert_eq!((code(&refused), lines.len()), (1, 3), "{message}");
            assert_eq!(lines[0], format!("plancheck: sheet: {first}"));
            assert!(lines[1].starts_with(word), "{message}");
            assert_eq!((lines[2], printed(&refused).as_str()), (last, ""));
        }
        // And no part of a budget is searched before that is seen.
        let found = in_parts(&sheet, 4_000_000, |found| panic!("{found:?}"));
        assert_eq!((found.number != 0, found.plan), (true, None));
    }
}

#[rustfmt::skip]
#[test]
fn wrong_arguments_show_the_help_of_search() {
    let folder = Folder::new("wrong-search");
    folder.write("sheet", packed(PUMPS));
    let calls: [(&[&str], &str); 10] = [
        (&[], "1 files are due, not 0"),
        (&["sheet", "sheet"], "1 files are due, not 2"),
        (&["sheet", "--budget"], "--budget needs a number"),
        (&["--budget", "sheet"], "--budget takes a number from 0 on, not 'sheet'"),
        (&["sheet", "--budget", "-1"], "--budget takes a number from 0 on, not '-1'"),
        (&["sheet", "--budget", "1e6"], "--budget takes a number from 0 on, not '1e6'"),
        (&["sheet", "--budget", "3", "--budget", "3"], "--budget stands twice"),
        (&["sheet", "--steps", "3"], "unknown option --steps"),
        (&["sheet", "-o", "record"], "unknown option -o"),
        (&["--tree", "sheet"], "unknown option --tree"),
    ];
    for (words, message) in calls {
        let wrong = folder.run(&[&["search"], words].concat());
        assert_eq!((code(&wrong), printed(&wrong).as_str()), (2, ""));
        let told = format!("plancheck: {message}\n\n{}", help::SEARCH);
        assert_eq!(complained(&wrong), told, "{words:?}");
    }
    // A budget belongs to the search alone.
    let wrong = folder.run(&["plan", "sheet", "-o", "record", "--budget", "3"]);
    assert!(complained(&wrong).starts_with("plancheck: unknown option --budget\n"));
    assert!(!folder.0.join("record").exists());
}

#[test]
fn the_help_tells_the_budget_that_is_taken_without_one() {
    assert!(help::SEARCH.contains(&format!("there are\n{BUDGET},")));
}

/// One folder for each sheet of the examples has what is printed for it.
#[test]
fn every_sheet_of_the_examples_has_its_search() {
    let folder = Folder::new("search-examples");
    let mut sheets = BTreeSet::new();
    for example in examples() {
        let search = fs::read_to_string(example.folder.join("search")).ok();
        assert_eq!(search.is_some(), sheets.insert(example.sheet.clone()));
        if let Some(wanted) = search {
            let place = example.folder.display();
            assert_eq!(searched(&folder, &example.sheet, None), wanted, "{place}");
        }
    }
    assert_eq!(sheets.len(), 10);
}

/// The number behind a word that begins a line.
fn number(told: &str, word: &str) -> Option<u64> {
    let line = told.lines().find(|line| line.starts_with(word))?;
    line.split(' ').nth(1)?.parse().ok()
}

/// The assignment that is told, where there is one.
fn assignment(problem: &Problem, told: &str) -> Option<Vec<bool>> {
    let listed = told.lines().next()?.strip_prefix("assign")?;
    let listed: Vec<usize> = listed
        .split_whitespace()
        .map(|v| v.parse().unwrap())
        .collect();
    Some(
        (1..=problem.variables())
            .map(|v| listed.contains(&v))
            .collect(),
    )
}

/// Whatever is told of a problem at this budget is true by the planner, which knows nothing of the search. Whether it ended.
fn is_true(folder: &Folder, problem: &Problem, least: u64, budget: u64) -> bool {
    let told = searched(folder, &format::sheet(problem), Some(budget));
    let floor = number(&told, "floor ").unwrap_or(NONE);
    assert!(floor <= least, "{told}");
    let cost = number(&told, "cost ");
    if let Some(assignment) = assignment(problem, &told) {
        assert!(problem.satisfies(&assignment), "{told}");
        assert_eq!(cost, Some(problem.cost(&assignment)), "{told}");
    }
    let ended = told.lines().any(|line| line.starts_with("ended after "));
    assert!(
        !ended || (cost.unwrap_or(NONE) == least && floor == least),
        "{told}"
    );
    ended
}

#[test]
fn searches_agree_with_the_planner() {
    let folder = Folder::new("search-planner");
    let mut random = Random::new(8);
    let (mut ended, mut stopped) = (0, 0);
    for round in 0..60 {
        let mut problem = match round % 6 {
            5 => sheets::middle(&mut random),
            _ => sheets::small(&mut random),
        };
        // Moved on by one in each six, so that the few larger problems meet every sort too.
        problem.loss = [None, Some(6), Some(u32::MAX)][(round + round / 6) % 3];
        let least = search::plan(&problem).claim;
        assert!(is_true(&folder, &problem, least, BUDGET), "round {round}");
        for budget in [0, 1, 2, 5, 12, 40] {
            match is_true(&folder, &problem, least, budget) {
                true => ended += 1,
                false => stopped += 1,
            }
        }
    }
    assert!(ended > 50 && stopped > 100, "{ended} and {stopped}");
}

/// A problem that a search is not soon through with: of any three variables in a row one is true, and all costs are alike.
fn slow() -> Vec<u8> {
    let costs: String = (1..=64).map(|v| format!("cost {v} 1\n")).collect();
    let clauses = (1..=62).map(|v| format!("clause {v} {} {}\n", v + 1, v + 2));
    packed(&format!("sheet\n{costs}{}", clauses.collect::<String>()))
}

/// Each part is half of the next or one less, the first is soon over, and what is told is what a search of that budget finds.
#[test]
fn a_long_search_tells_how_it_gets_on() {
    let slow = slow();
    for budget in [0, 1, 1_999_999, 2_000_000, 4_000_001] {
        let mut told = Vec::new();
        let found = in_parts(&slow, budget, |part| told.push(*part));
        assert_eq!(found, proved::search(&slow, budget));
        assert!(!found.ended, "the sheet is not slow enough");
        let mut whole = budget;
        for part in told.iter().rev() {
            assert_eq!(part.choices, whole / 2, "{budget}");
            assert_eq!(*part, proved::search(&slow, whole / 2));
            whole /= 2;
        }
        assert!((1_000_000..2_000_000).contains(&whole) || told.is_empty());
        assert_eq!(told.is_empty(), budget < 2_000_000, "{budget}");
    }
}

/// What ends in a part is the answer to the whole, whatever is left of the budget.
#[test]
fn a_search_that_ends_early_is_told_at_once() {
    for sheet in [packed(PUMPS), packed(&long(64)), example("B2").sheet] {
        let found = in_parts(&sheet, u64::MAX, |found| panic!("{found:?}"));
        assert!(found.ended && found == proved::search(&sheet, 1_000));
    }
}

#[test]
fn progress_tells_the_best_cost_and_the_floor() {
    let bytes = example("L1").sheet;
    let sheet = Sheet::open(&bytes).unwrap();
    let mut found = Found {
        number: 0,
        place: 0,
        plan: None,
        choices: 3,
        ended: false,
        floor: 4,
    };
    let line = progress_line(&sheet, &found, 50);
    let wanted = "searching: 3 of 50 choices, no plan yet, floor 4, not ended";
    assert_eq!(line, wanted);
    found.plan = Some(0b11);
    let line = progress_line(&sheet, &found, 50);
    let wanted = "searching: 3 of 50 choices, best cost 12, floor 4, not ended";
    assert_eq!(line, wanted);
    // A bit behind the sheet's variables would be no variable of it.
    found.plan = Some(0b110);
    assert_eq!(lines(&sheet, &found)[..2], ["assign 2", "cost 9"]);
}
