//! `try`: what turns break and mend, lines that are wrong, where it begins, and when each line comes.

mod common;

use common::{code, complained, printed, Folder};
use plancheck::help;
use plancheck::pack::pack;
use plancheck::turns::{start_line, turn_line, Change, SHOWN};
use planner::{format, Literal, Problem};
use samples::examples::{example, examples};
use samples::random::Random;
use samples::sheets;
use std::fs::File;
use std::io::{BufRead, BufReader, Read, Write};
use std::process::{Child, Command, Output, Stdio};
use std::sync::mpsc;
use std::thread;
use std::time::Duration;

/// Of any two of three variables one at least is true, and neither 1 and 2 nor 2 and 3 are true together.
const CLAUSES: &str = "clause 1 2\nclause 2 3\nclause 1 3\nclause -1 -2\nclause -2 -3\n";
const START: &str = "start: 3 broken: 1 2 3\n";

fn packed(text: &str) -> Vec<u8> {
    pack(text).unwrap().1
}

/// A folder with a sheet of three variables and these clauses.
fn holding(name: &str, clauses: &str) -> Folder {
    let folder = Folder::new(name);
    let text = format!("sheet\ncost 1 4\ncost 2 3\ncost 3 2\n{clauses}");
    folder.write("sheet", packed(&text));
    folder
}

fn command(folder: &Folder, arguments: &[&str]) -> Command {
    let mut command = Command::new(env!("CARGO_BIN_EXE_plancheck"));
    command.arg("try").args(arguments).current_dir(&folder.0);
    command
}

/// Runs the program with this input to its end.
fn tried(folder: &Folder, arguments: &[&str], input: impl AsRef<[u8]>) -> Output {
    folder.write("turns", input);
    let turns = File::open(folder.0.join("turns")).unwrap();
    command(folder, arguments).stdin(turns).output().unwrap()
}

/// Nothing was wrong with the input, and this was printed.
fn taken(folder: &Folder, arguments: &[&str], input: impl AsRef<[u8]>) -> String {
    let ran = tried(folder, arguments, input);
    assert_eq!((complained(&ran).as_str(), code(&ran)), ("", 0));
    printed(&ran)
}

#[test]
fn each_turn_tells_what_it_mended_and_broke() {
    let folder = holding("try-turns", CLAUSES);
    let lines = "2 true: mended 1 2; 1 broken\n\
        1 true: mended 3, broke 4; 1 broken\n\
        3 true: broke 5; 2 broken\n\
        2 false: mended 4 5; 0 broken\n\
        2 true: broke 4 5; 2 broken\n\
        2 false: mended 4 5; 0 broken\n\
        1 false: broke 1; 1 broken\n\
        3 false: broke 2 3; 3 broken\n";
    let shown = taken(&folder, &["sheet"], "2\n1\n3\n2\n2\n2\n1\n3\n");
    assert_eq!(shown, format!("{START}{lines}"));
    assert_eq!(taken(&folder, &["sheet"], ""), START);
}

#[test]
fn where_nothing_changes_that_is_told() {
    let folder = holding("try-same", "clause 1 2 3\nclause 1 -2\n");
    let shown = taken(&folder, &["sheet"], "1\n3\n3\n2\n1\n");
    let lines = "start: 1 broken: 1\n1 true: mended 1; 0 broken\n3 true: no change; 0 broken\n\
        3 false: no change; 0 broken\n2 true: no change; 0 broken\n1 false: broke 2; 1 broken\n";
    assert_eq!(shown, lines);
    let folder = holding("try-none", "");
    let shown = taken(&folder, &["sheet"], "3\n");
    assert_eq!(shown, "start: 0 broken\n3 true: no change; 0 broken\n");
    let folder = holding("try-empty", "clause\nclause -1\n");
    let shown = taken(&folder, &["sheet"], "1\n1\n");
    let lines = "start: 1 broken: 1\n1 true: broke 2; 2 broken\n1 false: mended 2; 1 broken\n";
    assert_eq!(shown, lines);
}

#[test]
fn the_example_of_the_help_is_a_run() {
    let folder = holding("try-help", CLAUSES);
    let example = help::TRY.lines().filter_map(|line| line.strip_prefix("  "));
    let example: String = example.map(|line| format!("{line}\n")).collect();
    assert_eq!(taken(&folder, &["sheet"], "2\n1\n2\n3\n"), example);
}

/// The numbers of the clauses that an assignment breaks, by the planner's reading of a literal.
fn broken(problem: &Problem, assignment: &[bool]) -> Vec<usize> {
    let clauses = (1..).zip(&problem.clauses);
    let broken =
        clauses.filter(|(_, clause)| !clause.iter().any(|literal| literal.is_true(assignment)));
    broken.map(|(number, _)| number).collect()
}

fn listed(word: &str, numbers: &[usize], others: &[usize]) -> Option<String> {
    let new = numbers.iter().filter(|number| !others.contains(number));
    let list: String = new.map(|number| format!(" {number}")).collect();
    (!list.is_empty()).then(|| format!("{word}{list}"))
}

/// What is due for these turns, told apart from the program.
fn due(problem: &Problem, assignment: &mut [bool], turns: &[usize]) -> String {
    let mut before = broken(problem, assignment);
    let list = listed(":", &before, &[]).unwrap_or_default();
    let mut lines = format!("start: {} broken{list}\n", before.len());
    for variable in turns {
        assignment[variable - 1] = !assignment[variable - 1];
        let after = broken(problem, assignment);
        let lists = [
            listed("mended", &before, &after),
            listed("broke", &after, &before),
        ];
        let lists: Vec<String> = lists.into_iter().flatten().collect();
        let lists = if lists.is_empty() {
            "no change".to_string()
        } else {
            lists.join(", ")
        };
        let value = assignment[variable - 1];
        lines += &format!("{variable} {value}: {lists}; {} broken\n", after.len());
        before = after;
    }
    lines
}

/// Small sheets from false and from the assignment of a record, which has any bits and no steps.
#[test]
fn random_turns_of_random_sheets() {
    let (folder, mut random) = (Folder::new("try-random"), Random::new(11));
    for round in 0..120 {
        let problem = sheets::small(&mut random);
        let variables = problem.variables();
        let turns: Vec<usize> = (0..20).map(|_| 1 + random.below(variables)).collect();
        let mut assignment: Vec<bool> = (0..variables).map(|_| random.percent(50)).collect();
        let mut record = vec![0; 12 + variables.div_ceil(8)];
        for place in (0..variables).filter(|place| assignment[*place]) {
            record[12 + place / 8] |= 1 << (place % 8);
        }
        folder.write("sheet", format::sheet(&problem));
        folder.write("record", record);
        let files: &[&str] = match round % 2 {
            0 => &["sheet"],
            _ => &["sheet", "record"],
        };
        if round % 2 == 0 {
            assignment.fill(false);
        }
        let input: String = turns
            .iter()
            .map(|variable| format!("{variable}\n"))
            .collect();
        let shown = taken(&folder, files, input);
        assert_eq!(shown, due(&problem, &mut assignment, &turns));
    }
}

const NOTHING: &str = "; nothing was turned\n";

/// Lines that are no variable of a sheet of three, with what is said of each.
fn wrong_lines() -> [(&'static [u8], String); 16] {
    let not = |word: &str| format!("{word} is not a variable from 1 to 3");
    let refused = |word: &str| format!("{} (refused 30 at 1)", not(word));
    let more = "'3' is too much in this line: one variable is due";
    [
        (b"0", refused("0")),
        (b"4", refused("4")),
        (b"259", refused("259")),
        (b"32770", refused("32770")),
        (b"65535", refused("65535")),
        (b"65536", not("'65536'")),
        (b"65538", not("'65538'")),
        (b"70000", not("'70000'")),
        (b"18446744073709551618", not("'18446744073709551618'")),
        (b"-2", not("'-2'")),
        (b"+2", not("'+2'")),
        (b"02", not("'02'")),
        (b"2.0", not("'2.0'")),
        (b"two # 2", not("'two'")),
        (b" 2\t3 ", more.to_string()),
        (b"2\xFF", "this is no text".to_string()),
    ]
}

/// Each between two good lines, which do what they would do without it.
#[test]
fn a_wrong_line_is_told_and_turns_nothing() {
    let folder = holding("try-wrong", CLAUSES);
    let good = "2 true: mended 1 2; 1 broken\n1 true: mended 3, broke 4; 1 broken\n";
    for (line, told) in wrong_lines() {
        let ran = tried(&folder, &["sheet"], [b"2\n", line, b"\n1\n"].concat());
        assert_eq!(printed(&ran), format!("{START}{good}"), "{told}");
        let told = format!("line 2: {told}{NOTHING}");
        assert_eq!((complained(&ran), code(&ran)), (told, 1));
    }
}

#[test]
fn every_wrong_line_is_told() {
    let folder = holding("try-all-wrong", CLAUSES);
    let (mut input, mut wanted) = (Vec::new(), String::new());
    for (number, (line, told)) in (1..).zip(wrong_lines()) {
        input.extend([line, b"\n"].concat());
        wanted += &format!("line {number}: {told}{NOTHING}");
    }
    let ran = tried(&folder, &["sheet"], input);
    assert_eq!((printed(&ran).as_str(), code(&ran)), (START, 1));
    assert_eq!(complained(&ran), wanted);
}

#[test]
fn blank_lines_comments_and_any_end_of_a_line() {
    let folder = holding("try-blank", CLAUSES);
    let wanted = taken(&folder, &["sheet"], "2\n1\n3\n");
    let same = [
        "2\n1\n3",
        "2\r\n1\r\n3\r\n",
        "\n\n2\n \t \n1\n\r\n3\n\n",
        "# first\n2 # a comment\n#1\n1#3\n  3\t\n# 9",
    ];
    for input in same {
        assert_eq!(taken(&folder, &["sheet"], input), wanted, "{input:?}");
    }
    // What is skipped counts as a line.
    let ran = tried(&folder, &["sheet"], "\n# one\r\n2\n\n9");
    let told = format!("line 5: 9 is not a variable from 1 to 3 (refused 30 at 1){NOTHING}");
    assert_eq!(complained(&ran), told);
}

#[test]
fn a_line_has_a_thousand_bytes_at_most() {
    let folder = holding("try-long", CLAUSES);
    let wanted = taken(&folder, &["sheet"], "2\n1\n");
    let padded = |bytes: usize| format!("2{}", " ".repeat(bytes - 1));
    for input in [
        padded(1_000) + "\n1\n",
        padded(999) + "\r\n1\n",
        "2\n1".to_string() + &" ".repeat(999),
    ] {
        assert_eq!(taken(&folder, &["sheet"], &input), wanted);
    }
    let told = |line: usize| format!("line {line}: a line has 1000 bytes at most{NOTHING}");
    for bytes in [1_001, 2_001, 2_002, 8_192, 1_000_000] {
        let ran = tried(&folder, &["sheet"], format!("2\n{}\n1\n", padded(bytes)));
        assert_eq!(
            (printed(&ran), complained(&ran), code(&ran)),
            (wanted.clone(), told(2), 1)
        );
        let ran = tried(&folder, &["sheet"], format!("2\n1\n{}", padded(bytes)));
        assert_eq!(
            (printed(&ran), complained(&ran), code(&ran)),
            (wanted.clone(), told(3), 1)
        );
    }
}

/// No judgement is asked for: records that are refused begin as others do, and one may end behind its assignment.
#[test]
fn a_record_tells_where_to_begin() {
    let folder = holding("try-record", CLAUSES);
    let record = |assign: &str| {
        let lines = format!("record\nvariables 3\nclaim 9\nassign{assign}\ncost : bound 0\n");
        packed(&lines)
    };
    let cases = [
        (" 1 3", "start: 0 broken\n3 false: broke 2; 1 broken\n"),
        (
            " 2",
            "start: 1 broken: 3\n3 true: mended 3, broke 5; 1 broken\n",
        ),
        (
            " 1 2 3",
            "start: 2 broken: 4 5\n3 false: mended 5; 1 broken\n",
        ),
        ("", "start: 3 broken: 1 2 3\n3 true: mended 2 3; 1 broken\n"),
        // Bits that belong to no variable.
        (" raw FD", "start: 0 broken\n3 false: broke 2; 1 broken\n"),
    ];
    for (assign, lines) in cases {
        folder.write("record", record(assign));
        assert_eq!(
            taken(&folder, &["sheet", "record"], "3\n"),
            lines,
            "{assign}"
        );
        folder.write("record", &record(assign)[..13]);
        assert_eq!(
            taken(&folder, &["sheet", "record"], "3\n"),
            lines,
            "{assign}"
        );
        assert_eq!(folder.read("record"), record(assign)[..13]);
    }
}

/// What is broken at the start of a record that is not refused is nothing, and of one that is refused with 10 its first is told.
#[test]
fn the_examples_begin_as_they_are_judged() {
    let folder = Folder::new("try-examples");
    let mut met = [0; 2];
    for example in examples() {
        folder.write("sheet", &example.sheet);
        folder.write("record", &example.record);
        let answer = proved::judge(&example.sheet, &example.record);
        let ran = tried(&folder, &["sheet", "record"], "");
        if answer.number == 10 {
            let shown = printed(&ran) + " ";
            let first = shown.replace('\n', " ");
            assert!(
                first.contains(&format!(" broken: {} ", answer.place)),
                "{first}"
            );
            met[0] += 1;
        } else if answer.number == 0 && answer.cost != u64::MAX {
            assert_eq!(
                (printed(&ran).as_str(), code(&ran)),
                ("start: 0 broken\n", 0)
            );
            met[1] += 1;
        }
    }
    assert!(met[0] > 0 && met[1] > 5, "{met:?}");
}

#[test]
fn a_short_record_is_told() {
    let folder = Folder::new("try-short");
    for (variables, end) in [(1, 13), (8, 13), (9, 14), (1_024, 140)] {
        let costs: String = (1..=variables).map(|v| format!("cost {v} 1\n")).collect();
        folder.write("sheet", packed(&format!("sheet\n{costs}")));
        for bytes in [0, 7, 8, 11, 12, end - 1] {
            folder.write("record", vec![0xFF; bytes]);
            let ran = tried(&folder, &["sheet", "record"], "1\n");
            let told = format!("no assignment here: that of {variables} variables ends at byte {end}, the file has {bytes} bytes");
            assert_eq!(complained(&ran), format!("plancheck: record: {told}\n"));
            assert_eq!((printed(&ran).as_str(), code(&ran)), ("", 1));
        }
        folder.write("record", vec![0xFF; end]);
        let shown = taken(&folder, &["sheet", "record"], "1\n");
        assert_eq!(shown, "start: 0 broken\n1 false: no change; 0 broken\n");
    }
}

/// As the search tells it, whatever record stands beside it.
#[test]
fn a_refused_sheet_is_told_as_elsewhere() {
    let folder = Folder::new("try-refused");
    let good = example("A1").sheet;
    let mut unsorted = good.clone();
    unsorted[34] = 3;
    let many = [&[0xFF, 0x7F, 0xFF, 0xFF][..], &[0; 300]].concat();
    folder.write("record", "short");
    for sheet in [
        vec![],
        good[..3].to_vec(),
        good[..35].to_vec(),
        unsorted,
        many,
    ] {
        folder.write("sheet", &sheet);
        let told = complained(&folder.run(&["search", "sheet"]));
        assert!(told.starts_with("plancheck: sheet: byte "), "{told}");
        for files in [&["sheet"][..], &["sheet", "record"]] {
            let ran = tried(&folder, files, "1\n");
            assert_eq!((printed(&ran).as_str(), code(&ran)), ("", 1));
            assert_eq!(complained(&ran), told);
        }
    }
}

#[test]
fn wrong_calls() {
    let folder = holding("try-calls", CLAUSES);
    let has = "has the turns: SHEET and RECORD have to be other files";
    let calls: [(&[&str], String); 7] = [
        (&[], "1 file is due, or 2, not 0".to_string()),
        (
            &["sheet", "sheet", "sheet"],
            "1 file is due, or 2, not 3".to_string(),
        ),
        (&["sheet", "-o", "out"], "unknown option -o".to_string()),
        (
            &["--record", "sheet", "sheet"],
            "unknown option --record".to_string(),
        ),
        (&["/dev/stdin"], format!("/dev/stdin {has}")),
        (&["sheet", "/dev/stdin"], format!("/dev/stdin {has}")),
        (&["/dev/fd/0", "sheet"], format!("/dev/fd/0 {has}")),
    ];
    for (words, message) in calls {
        let wrong = tried(&folder, words, "1\n");
        assert_eq!((code(&wrong), printed(&wrong).as_str()), (2, ""));
        assert_eq!(
            complained(&wrong),
            format!("plancheck: {message}\n\n{}", help::TRY)
        );
    }
}

/// An input that cannot be read is no end of it.
#[test]
fn an_unreadable_input_exits_with_2() {
    let folder = holding("try-unread", CLAUSES);
    let here = File::open(&folder.0).unwrap();
    let ran = command(&folder, &["sheet"]).stdin(here).output().unwrap();
    assert_eq!((printed(&ran).as_str(), code(&ran)), (START, 2));
    let start = "plancheck: standard input: cannot be read: ";
    assert!(complained(&ran).starts_with(start), "{}", complained(&ran));
}

fn begun(folder: &Folder) -> Child {
    let mut command = command(folder, &["sheet"]);
    let piped = command.stdin(Stdio::piped()).stdout(Stdio::piped());
    piped.stderr(Stdio::piped()).spawn().unwrap()
}

/// Lines as they come. What does not come is not waited for without end.
fn lines(pipe: impl Read + Send + 'static) -> impl FnMut() -> String {
    let (sender, receiver) = mpsc::channel();
    thread::spawn(move || {
        for line in BufReader::new(pipe).lines() {
            let _ = sender.send(line.unwrap());
        }
    });
    move || receiver.recv_timeout(Duration::from_secs(60)).unwrap()
}

#[test]
fn each_line_comes_while_the_input_is_open() {
    let folder = holding("try-flush", CLAUSES);
    let mut child = begun(&folder);
    let mut input = child.stdin.take().unwrap();
    let mut out = lines(child.stdout.take().unwrap());
    let mut err = lines(child.stderr.take().unwrap());
    assert_eq!(out() + "\n", START);
    for _ in 0..3 {
        input.write_all(b"2\n").unwrap();
        assert_eq!(out(), "2 true: mended 1 2; 1 broken");
        input.write_all(b"4\n2").unwrap();
        let told = err();
        assert!(
            told.contains(": 4 is not a variable from 1 to 3 "),
            "{told}"
        );
        input.write_all(b"\n").unwrap();
        assert_eq!(out(), "2 false: broke 1 2; 3 broken");
    }
    drop(input);
    assert_eq!(child.wait().unwrap().code(), Some(1));
}

/// An input without end, of which the reader has had enough: the program tells that as the others do, and ends.
#[test]
fn a_closed_output_ends_it() {
    let folder = holding("try-closed", CLAUSES);
    let mut child = begun(&folder);
    let mut input = child.stdin.take().unwrap();
    let feeder = thread::spawn(move || while input.write_all(b"2\n").is_ok() {});
    let mut first = [0; START.len()];
    let mut out = child.stdout.take().unwrap();
    out.read_exact(&mut first).unwrap();
    drop(out);
    let ended = child.wait_with_output().unwrap();
    feeder.join().unwrap();
    let told = "plancheck: standard output: Broken pipe (os error 32)\n";
    assert_eq!((complained(&ended).as_str(), code(&ended)), (told, 2));
}

/// The turns go on where nobody hears what is wrong.
#[test]
fn a_closed_standard_error_does_not_end_it() {
    let folder = holding("try-deaf", CLAUSES);
    let mut child = begun(&folder);
    drop(child.stderr.take());
    let mut input = child.stdin.take().unwrap();
    input.write_all(b"9\n9\n3\n").unwrap();
    drop(input);
    let ended = child.wait_with_output().unwrap();
    let shown = format!("{START}3 true: mended 2 3; 1 broken\n");
    assert_eq!((printed(&ended), code(&ended)), (shown, 1));
}

/// As many variables and clauses as a sheet can have: a pipe gets every number.
#[test]
fn the_largest_sheets() {
    let folder = Folder::new("try-largest");
    let costs: String = (1..=1_024).map(|v| format!("cost {v} 1\n")).collect();
    let clauses = "clause 1 1024\n".repeat(4_096);
    folder.write("sheet", packed(&format!("sheet\n{costs}{clauses}")));
    let all: String = (1..=4_096).map(|number| format!(" {number}")).collect();
    let lines = format!(
        "start: 4096 broken:{all}\n1024 true: mended{all}; 0 broken\n1 true: no change; 0 broken\n\
        1024 false: no change; 0 broken\n1 false: broke{all}; 4096 broken\n"
    );
    assert_eq!(taken(&folder, &["sheet"], "1024\n1\n1024\n1\n"), lines);
}

/// No index is longer than that of a sheet whose clauses all have every variable.
#[test]
fn the_fullest_sheet() {
    let folder = Folder::new("try-fullest");
    let clause: Vec<Literal> = (1..=1_024).map(Literal::positive).collect();
    let problem = Problem {
        loss: Some(u32::MAX),
        costs: vec![u32::MAX; 1_024],
        clauses: vec![clause; 4_096],
    };
    folder.write("sheet", format::sheet(&problem));
    let all: String = (1..=4_096).map(|number| format!(" {number}")).collect();
    let lines = format!("start: 4096 broken:{all}\n1024 true: mended{all}; 0 broken\n");
    assert_eq!(taken(&folder, &["sheet"], "1024\n"), lines);
}

/// A count takes two bytes, and the lower of them is 0 for 256 true literals too.
#[test]
fn a_clause_of_many_true_literals_is_not_broken() {
    let folder = Folder::new("try-bytes");
    let costs: String = (1..=600).map(|v| format!("cost {v} 1\n")).collect();
    let all: String = (1..=600).map(|v| format!(" {v}")).collect();
    folder.write("sheet", packed(&format!("sheet\n{costs}clause{all}\n")));
    let turns: String = (1..=600).map(|v| format!("{v}\n")).collect();
    let later = (2..=600).map(|v| format!("{v} true: no change; 0 broken\n"));
    let first = "start: 1 broken: 1\n1 true: mended 1; 0 broken\n";
    let lines = format!("{first}{}", later.collect::<String>());
    assert_eq!(taken(&folder, &["sheet"], turns), lines);
}

#[test]
fn a_person_sees_the_first_of_a_long_list() {
    let list = |count: usize| {
        (1..=count)
            .map(|number| format!(" {number}"))
            .collect::<String>()
    };
    let change = |mended: usize, broke: usize| Change {
        mended: (1..=mended).collect(),
        broke: (1..=broke).collect(),
        total: 77,
    };
    let twenty = list(20);
    let cases = [
        (20, 0, format!("mended{twenty}")),
        (21, 1, format!("mended{twenty} and 1 more, broke 1")),
        (0, 57, format!("broke{twenty} and 37 more")),
        (
            4_096,
            22,
            format!("mended{twenty} and 4076 more, broke{twenty} and 2 more"),
        ),
    ];
    for (mended, broke, told) in cases {
        let line = turn_line(5, false, &change(mended, broke), SHOWN);
        assert_eq!(line, format!("5 false: {told}; 77 broken"));
        let all = turn_line(5, false, &change(mended, broke), usize::MAX);
        assert!(!all.contains("more"));
    }
    let start = |count: usize| start_line(&(1..=count).collect(), count as u64, SHOWN);
    assert_eq!(start(20), format!("start: 20 broken:{twenty}"));
    assert_eq!(start(30), format!("start: 30 broken:{twenty} and 10 more"));
}

/// Through `script`, which lends a terminal; that shows what is typed, unless `stty` says otherwise. Where there is no `script`,
/// this says so and tests nothing.
#[test]
fn a_terminal_is_asked() {
    let folder = holding("try-terminal", &"clause 1\n".repeat(23));
    folder.write("turns", "1\n9\n");
    let turns = File::open(folder.0.join("turns")).unwrap();
    let call = format!(
        "stty -echo; '{}' try sheet",
        env!("CARGO_BIN_EXE_plancheck")
    );
    let mut script = Command::new("script");
    script
        .args(["-q", "-e", "-c", &call, "/dev/null"])
        .stdin(turns);
    let Ok(ran) = script.current_dir(&folder.0).output() else {
        eprintln!("there is no program `script` here: no terminal was tried");
        return;
    };
    let shown = printed(&ran).replace('\r', "");
    let list: String = (1..=20).map(|number| format!(" {number}")).collect();
    let parts = [
        format!("start: 23 broken:{list} and 3 more\n"),
        "a variable from 1 to 3 and Enter turns it, Ctrl-D ends\n> ".to_string(),
        format!("1 true: mended{list} and 3 more; 0 broken\n> "),
        format!("line 2: 9 is not a variable from 1 to 3 (refused 30 at 1){NOTHING}> "),
    ];
    for part in parts {
        assert!(shown.contains(&part), "{part}\n{shown}");
    }
    assert_eq!(code(&ran), 1);
    // A pipe is not asked.
    let ran = tried(&folder, &["sheet"], "1\n");
    assert!(!printed(&ran).contains("Ctrl-D") && complained(&ran).is_empty());
}
