//! `plan` and `import`.

mod common;

use common::{code, complained, printed, Folder};
use plancheck::import::import;
use planner::random::Random;
use planner::{format, search, Problem, NONE};
use samples::examples::example;
use samples::sheets;

/// What a plan costs by the one that is made without the loss.
fn least_cost(problem: &Problem) -> u64 {
    let without = Problem {
        loss: None,
        ..problem.clone()
    };
    match search::plan(&without).claim {
        NONE => NONE,
        cost => cost + problem.standing_loss(),
    }
}

#[test]
fn planned_sheets_are_accepted() {
    let folder = Folder::new("plan");
    let mut random = Random::new(7);
    for round in 0..40 {
        let mut problem = match round % 10 {
            8 => sheets::middle(&mut random),
            9 => sheets::wide(&mut random),
            _ => sheets::small(&mut random),
        };
        // In turn, and moved on by one in each ten, so that the few large problems meet every sort too.
        problem.loss = [None, Some(0), Some(6), Some(u32::MAX)][(round + round / 10) % 4];
        folder.write("sheet", format::sheet(&problem));
        let least = least_cost(&problem);
        let ways: &[&[&str]] = match problem.variables() {
            1..=8 => &[&["plan"], &["plan", "--unweighted"], &["plan", "--tree"]],
            _ => &[&["plan"], &["plan", "--unweighted"]],
        };
        for way in ways {
            let planned = folder.run(&[way, &["sheet", "-o", "record"][..]].concat());
            let answer = proved::judge(&folder.read("sheet"), &folder.read("record"));
            assert!(answer.accepts());
            assert_eq!(answer.cost, least);
            let line = answer.line() + "\n";
            assert_eq!((printed(&planned), code(&planned)), (line, 0));
            let shown = printed(&folder.run(&["text", "--record", "sheet", "record"]));
            assert!(way.len() == 1 || !shown.contains("weighted"), "{shown}");
        }
    }
}

#[test]
fn a_damaged_sheet_is_not_planned() {
    let folder = Folder::new("damaged");
    folder.write(
        "sheet",
        [1, 0, 1, 0, 7, 0, 0, 0, 16, 0, 0, 0, 2, 0, 0, 0, 8, 0],
    );
    let refused = folder.run(&["plan", "sheet", "-o", "record"]);
    assert_eq!(code(&refused), 1);
    assert!(complained(&refused).contains("sheet: byte 16: refused 4 at 1"));
    assert!(!folder.0.join("record").exists());
}

const GOOD: &str = "c two variables and their costs
p wcnf 3 5 20
20 2 1 0
20 -2 1 0
3 -1 0
2 -2 0
3 -2 0
";

#[test]
fn a_good_file_is_imported() {
    let folder = Folder::new("import");
    folder.write("good.wcnf", GOOD);
    let imported = folder.run(&["import", "good.wcnf", "-o", "sheet"]);
    assert_eq!(printed(&imported), "sheet: 3 variables, 2 clauses\n");
    let planned = folder.run(&["plan", "sheet", "-o", "record"]);
    assert!(printed(&planned).starts_with("least 3 open 1 "));
    let shown = folder.run(&["text", "sheet"]);
    let wanted =
        "sheet\ncost 1 3\ncost 2 5\ncost 3 0\nclause 1 2  # clause 1\nclause 1 -2  # clause 2\n";
    assert_eq!(printed(&shown), wanted);
}

/// Soft clauses without literals, and the loss that they come to.
const LOSSES: [(&str, Option<u32>); 7] = [
    ("p wcnf 1 2 20\n20 1 0\n3 -1 0\n", None),
    ("p wcnf 1 3 20\n20 1 0\n3 -1 0\n0 0\n", None),
    ("p wcnf 1 3 20\n4 0\n20 1 0\n3 -1 0\n", Some(4)),
    ("p wcnf 1 5 20\n20 1 0\n4 0\n3 -1 0\n0 0\n5 0\n", Some(9)),
    ("h 1 0\n4 0\n3 -1 0\n", Some(4)),
    ("h 1 0\n3 -1 0\n4294967295 0\n0 0\n", Some(u32::MAX)),
    ("4294967294 0\n1 0\nh 1 0\n3 -1 0\n", Some(u32::MAX)),
];

#[test]
fn soft_clauses_without_literals_are_the_loss() {
    for (text, loss) in LOSSES {
        let problem = import(text).unwrap();
        assert_eq!(problem.loss, loss, "{text}");
        assert_eq!((problem.costs, problem.clauses.len()), (vec![3], 1));
    }
    // A hard clause without literals is none of them: nothing satisfies it.
    for text in ["p wcnf 1 2 20\n20 0\n3 -1 0\n", "h 0\n3 -1 0\n"] {
        let problem = import(text).unwrap();
        assert_eq!((problem.loss, problem.clauses), (None, vec![vec![]]));
    }
}

/// Each sentence whole: the file is the first that is too much.
#[rustfmt::skip]
#[test]
fn what_no_loss_can_hold_is_refused() {
    let most = "soft clauses without literals come to more than 4294967295";
    let one = "a soft clause has to have one negative literal, or no literal; this one";
    let positive = format!("{one} is positive: a sheet cannot make a false variable cost something");
    let cases = [
        ("h 1 0\n4294967296 0\n", 2, most.to_string()),
        ("h 1 0\n4294967295 0\n1 0\n", 3, most.to_string()),
        ("h 1 0\n1 0\n18446744073709551615 0\n", 3, most.to_string()),
        ("h 1 0\n4 1 0\n", 2, positive),
        ("h 1 0\n4 -1 -2 0\n", 2, format!("{one} has 2 literals")),
        ("h 1 0\n4\n", 2, "a clause stands in one line and ends with 0".to_string()),
        ("4 0\n", 1, "the file has no variables; a sheet has one at least".to_string()),
    ];
    for (text, line, reason) in cases {
        let fault = import(text).unwrap_err();
        assert_eq!((fault.line, fault.reason), (line, reason), "{text}");
    }
}

/// The sheet A of the classroom, with a loss of 4.
#[test]
fn a_loss_is_imported_and_planned() {
    let folder = Folder::new("import-loss");
    folder.write(
        "loss.wcnf",
        "p wcnf 2 5 20\n20 1 2 0\n20 1 -2 0\n3 -1 0\n5 -2 0\n4 0\n",
    );
    let imported = folder.run(&["import", "loss.wcnf", "-o", "sheet"]);
    assert_eq!(
        printed(&imported),
        "sheet: 2 variables, 2 clauses, loss 4\n"
    );
    assert_eq!(folder.read("sheet"), example("L1").sheet);
    for way in [
        &["plan"][..],
        &["plan", "--unweighted"],
        &["plan", "--tree"],
    ] {
        let planned = folder.run(&[way, &["sheet", "-o", "record"]].concat());
        assert!(printed(&planned).starts_with("least 7 open 1 steps "));
        assert_eq!(code(&planned), 0);
        let judged = folder.run(&["judge", "sheet", "record"]);
        assert_eq!(printed(&judged), printed(&planned));
    }
    // One step shows 3 and the loss.
    let planned = folder.run(&["plan", "sheet", "-o", "record", "--steps", "1"]);
    assert_eq!(printed(&planned), "least 7 open 1 steps 1\n");
}

#[test]
fn the_newer_form_is_imported() {
    let problem = import("c newer\nh 2 1 0\nh 0\n7 -3 0\n").unwrap();
    assert_eq!(problem.costs, [0, 0, 7]);
    assert_eq!(problem.clauses.len(), 2);
    assert!(problem.clauses[0].is_sorted());
}

#[test]
fn what_a_sheet_cannot_hold_is_refused() {
    let many = "p wcnf 2 5000 9\n".to_string() + &"9 1 0\n".repeat(5000);
    let bad = [
        ("p wcnf 2 1 9\n4 -1 -2 0\n", 2, "one negative literal"),
        ("p wcnf 2 1 9\n4 1 0\n", 2, "positive"),
        ("p wcnf 1025 0 9\n", 1, "1024"),
        ("p wcnf 0 0 9\n", 1, "1 to 1024"),
        (many.as_str(), 4098, "4096"),
        ("p wcnf 1 1 5000000000\n4294967296 -1 0\n", 2, "4294967295"),
        ("p wcnf 2 1 9\n9 1 2 1 0\n", 2, "twice"),
        ("p wcnf 2 1 9\n9 1 2 -1 0\n", 2, "both ways"),
        ("p wcnf 2 1 9\n9 3 0\n", 2, "above 2"),
        ("p wcnf 2 1 9\n9 1 2\n", 2, "ends with 0"),
        ("p wcnf 2 2 9\n9 1 0\n", 2, "2 clauses"),
        ("p wcnf 2 1 9\n10 1 0\n", 2, "top"),
        ("p cnf 2 1\n1 0\n", 1, "p wcnf"),
        ("9 -1 0\np wcnf 2 1 9\n", 2, "once"),
        ("h 1 0 2 0\n", 1, "0 stands"),
        ("h 1025 0\n", 1, "1024"),
        ("h 40000 0\n", 1, "1024"),
        ("h one 0\n", 1, "no literal"),
        ("x 1 0\n", 1, "weight"),
        ("c nothing\n", 1, "no variables"),
    ];
    let folder = Folder::new("bad-import");
    for (text, line, reason) in bad {
        folder.write("bad.wcnf", text);
        let refused = folder.run(&["import", "bad.wcnf", "-o", "sheet"]);
        let message = complained(&refused);
        assert_eq!(code(&refused), 1, "{message}");
        assert!(
            message.contains(&format!("bad.wcnf: line {line}: ")),
            "{message}"
        );
        assert!(message.contains(reason), "{message}");
        assert!(!folder.0.join("sheet").exists());
    }
}
