//! The example programs of `bindings/`, built and run: every plan of `examples/` gives its line and exit code, its sheet is
//! written in the one way, searched, and its variables turned, and its record trimmed; and the C programs make no memory error
//! that valgrind sees, whatever the files hold.

use planner::{format, Literal, Problem};
use reference::{Found, Verdict, Written};
use samples::examples::{example, examples, Example};
use samples::writing::Listing;
use samples::Sample;
use std::collections::BTreeMap;
use std::fs;
use std::path::{Path, PathBuf};
use std::process::{Command, Output};

/// What valgrind exits with after an error, unlike any code of the program.
const MEMORY_ERROR: i32 = 99;

fn root() -> PathBuf {
    Path::new(env!("CARGO_MANIFEST_DIR")).join("../..")
}

/// A folder of one test's own.
fn folder(name: &str) -> PathBuf {
    let path = Path::new(env!("CARGO_TARGET_TMPDIR")).join(name);
    fs::create_dir_all(&path).unwrap();
    path
}

fn run(command: &mut Command) -> Output {
    let output = command.output();
    output.unwrap_or_else(|error| panic!("{command:?}: {error}"))
}

fn build(command: &mut Command) {
    let output = run(command);
    let said = String::from_utf8_lossy(&output.stderr);
    assert!(output.status.success(), "{command:?}\n{said}");
}

/// A C program in a folder of this test's own, with the command that its comment has and every warning an error.
fn c_program(name: &str, test: &str) -> PathBuf {
    let program = folder(test).join(name);
    let compiler = std::env::var("CC").unwrap_or("cc".into());
    let words = format!(
        "-std=c11 -O2 -Wall -Wextra -Wpedantic -Werror -Iinclude bindings/c/{name}.c \
         target/staticlib/libexports.a"
    );
    let mut command = Command::new(compiler);
    command.current_dir(root()).args(words.split_whitespace());
    build(command.arg("-o").arg(&program));
    program
}

fn rust_program() -> PathBuf {
    let target = folder("rust");
    let mut command = Command::new(env!("CARGO"));
    command.args(["build", "--offline", "--locked", "--manifest-path"]);
    command.arg(root().join("bindings/rust/Cargo.toml"));
    build(command.arg("--target-dir").arg(&target));
    target.join("debug/judge")
}

/// The exit code for a line, by its first word: 0 is for the acceptances alone.
fn code_for(line: &str) -> i32 {
    match line.split(' ').next() {
        Some("least" | "none") => 0,
        Some("refused") => 1,
        Some("within") => 3,
        _ => panic!("{line}"),
    }
}

fn gives_every_line(program: &Path) {
    let mut met: BTreeMap<i32, usize> = BTreeMap::new();
    for example in examples() {
        let files = ["sheet", "record"].map(|name| example.folder.join(name));
        let output = run(Command::new(program).args(files));
        let (line, place) = (example.line, example.folder.display());
        assert_eq!(String::from_utf8_lossy(&output.stdout), line, "{place}");
        assert_eq!(output.status.code(), Some(code_for(&line)), "{place}");
        *met.entry(code_for(&line)).or_default() += 1;
    }
    assert_eq!(met.keys().copied().collect::<Vec<_>>(), [0, 1, 3]);
}

fn tells_wrong_use(program: &Path) {
    let missing = folder("missing").join("no such file");
    for words in [vec![], vec![missing.clone(), missing]] {
        let output = run(Command::new(program).args(words));
        assert_eq!(output.status.code(), Some(2));
        assert!(output.stdout.is_empty() && !output.stderr.is_empty());
    }
}

#[test]
fn the_c_program_gives_every_line() {
    let program = c_program("judge", "c");
    gives_every_line(&program);
    tells_wrong_use(&program);
}

#[test]
fn the_rust_program_gives_every_line() {
    let program = rust_program();
    gives_every_line(&program);
    tells_wrong_use(&program);
}

/// What a C program that writes does to a file that holds something already, the last of its words: the bytes that are wanted,
/// or the refusal, which leaves that file alone. What stands in the file then.
fn leaves(
    mut start: Command,
    files: &[PathBuf],
    answer: Written,
    mut bytes: Vec<u8>,
    what: &str,
) -> Vec<u8> {
    let before = b"before".to_vec();
    let out = files.last().unwrap();
    fs::write(out, &before).unwrap();
    bytes.truncate(answer.length as usize);
    let refusal = format!("refused {} at {}\n", answer.number, answer.place);
    let (code, line, wanted) = match answer.number {
        0 => (0, String::new(), bytes),
        _ => (1, refusal, before),
    };
    let output = run(start.args(files));
    let said = String::from_utf8_lossy(&output.stderr);
    assert_eq!(output.status.code(), Some(code), "{what}\n{said}");
    assert_eq!(String::from_utf8_lossy(&output.stdout), line, "{what}");
    assert!(fs::read(out).unwrap() == wanted, "{what}");
    wanted
}

/// What the C writer does to a sheet: what the reference writer does. `start` gets the program's two words.
fn writes(start: Command, folder: &Path, sheet: &[u8], what: &str) {
    let files = ["sheet", "written"].map(|name| folder.join(name));
    fs::write(&files[0], sheet).unwrap();
    let mut bytes = vec![0; sheet.len()];
    let answer = reference::write_sheet(sheet, &mut bytes);
    leaves(start, &files, answer, bytes, what);
}

/// The sheet with its clauses listed a second time: what is written of it is shorter.
fn twice_over(sheet: &[u8]) -> Vec<u8> {
    let mut listing = Listing::read(sheet).unwrap();
    listing.clauses.extend_from_within(..);
    listing.sheet()
}

#[test]
fn the_c_writer_writes_every_sheet() {
    let program = c_program("write", "c-write");
    let folder = program.parent().unwrap();
    for Example { sheet, .. } in examples() {
        let cut = &sheet[..sheet.len() - 1];
        for file in [cut, &twice_over(&sheet), &sheet] {
            writes(Command::new(&program), folder, file, "an example's sheet");
        }
    }
    tells_wrong_use(&program);
    let words = ["sheet", "no such folder/written"].map(|name| folder.join(name));
    let output = run(Command::new(&program).args(words));
    let said = String::from_utf8_lossy(&output.stderr);
    assert!(
        output.status.code() == Some(2) && said.starts_with("cannot write "),
        "{said}"
    );
}

/// What the C search prints of a sheet that is not refused.
fn found_lines(found: &Found) -> String {
    let is_true = |plan: u64, variable: usize| plan >> (variable - 1) & 1 == 1;
    let plan = found.plan.map(|plan| {
        let listed = (1..=64).filter(|variable| is_true(plan, *variable));
        listed.fold("assign".to_string(), |line, v| format!("{line} {v}"))
    });
    let plan = plan.unwrap_or("no plan".to_string());
    let floor = match found.floor {
        reference::NONE => "none".to_string(),
        floor => floor.to_string(),
    };
    let ended = if found.ended { "ended" } else { "not ended" };
    let choices = found.choices;
    format!("{plan}\nfloor {floor}\n{ended} after {choices} choices\n")
}

/// What the C search says of a sheet is what the reference search finds. `start` gets the program's two words.
fn searches(mut start: Command, folder: &Path, sheet: &[u8], budget: u64) {
    let path = folder.join("sheet");
    fs::write(&path, sheet).unwrap();
    let found = reference::search(sheet, budget);
    let (code, lines) = match (found.number, found.place) {
        (0, _) => (0, found_lines(&found)),
        (number, place) => (1, format!("refused {number} at {place}\n")),
    };
    let output = run(start.arg(&path).arg(budget.to_string()));
    let said = String::from_utf8_lossy(&output.stderr);
    assert_eq!(output.status.code(), Some(code), "{budget}\n{said}");
    assert_eq!(String::from_utf8_lossy(&output.stdout), lines, "{budget}");
}

/// So many variables, of which the last has to be true, and of any two neighbours one: the plan's highest bit is set.
fn many_variables(count: usize) -> Vec<u8> {
    let pair = |v| vec![Literal::positive(v), Literal::positive(v + 1)];
    let mut clauses: Vec<Vec<Literal>> = (1..count).map(pair).collect();
    clauses.push(vec![Literal::positive(count)]);
    format::sheet(&Problem {
        loss: Some(7),
        costs: vec![1; count],
        clauses,
    })
}

#[test]
fn the_c_search_finds_the_plan_of_every_sheet() {
    let program = c_program("search", "c-search");
    let folder = program.parent().unwrap();
    for Example { sheet, .. } in examples() {
        let cut = &sheet[..sheet.len() - 1];
        searches(Command::new(&program), folder, cut, 9);
        for budget in [0, 1, 3, u64::MAX] {
            searches(Command::new(&program), folder, &sheet, budget);
        }
    }
    for count in [64, 65] {
        let sheet = many_variables(count);
        searches(Command::new(&program), folder, &sheet, 500);
    }
    tells_wrong_use(&program);
    for budget in ["", "-1", "+1", " 1", "1.5", "18446744073709551616"] {
        let output = run(Command::new(&program).arg(folder.join("sheet")).arg(budget));
        assert_eq!(output.status.code(), Some(2), "'{budget}'");
        assert!(output.stdout.is_empty() && !output.stderr.is_empty());
    }
    let output = run(Command::new(&program).arg("no such file").arg("1"));
    let said = String::from_utf8_lossy(&output.stderr);
    assert_eq!(
        (output.status.code(), &*said),
        (Some(2), "cannot read no such file\n")
    );
}

/// What the C trimmer does to a record: what the reference trimmer does. `start` gets the program's three words.
fn trims(start: Command, folder: &Path, sheet: &[u8], record: &[u8], what: &str) -> Vec<u8> {
    let files = ["sheet", "record", "trimmed"].map(|name| folder.join(name));
    fs::write(&files[0], sheet).unwrap();
    fs::write(&files[1], record).unwrap();
    let mut marks = vec![0; reference::judge(sheet, record).step_count as usize];
    let mut bytes = vec![0; record.len()];
    let answer = reference::trim(sheet, record, &mut marks, &mut bytes);
    leaves(start, &files, answer, bytes, what)
}

/// A folder has the trimmed record where that is another than its record, and a line that tells a refusal.
#[test]
fn the_c_trimmer_trims_every_record() {
    let program = c_program("trim", "c-trim");
    let folder = program.parent().unwrap();
    for example in examples() {
        let Example { sheet, record, .. } = &example;
        let cut = &record[..record.len() - 1];
        trims(Command::new(&program), folder, sheet, cut, "a cut record");
        let place = example.folder.display().to_string();
        let left = trims(Command::new(&program), folder, sheet, record, &place);
        let wanted = match example.line.starts_with("refused") {
            true => b"before".to_vec(),
            false => fs::read(example.folder.join("trimmed")).unwrap_or(record.clone()),
        };
        assert!(left == wanted, "{place}");
    }
    tells_wrong_use(&program);
    let [sheet, record] = ["sheet", "record"].map(|name| example("T1").folder.join(name));
    let [gone, nowhere] = ["no such file", "no such folder/out"].map(PathBuf::from);
    let calls = [
        ([&gone, &record, &nowhere], "cannot read no such file\n"),
        ([&sheet, &gone, &nowhere], "cannot read no such file\n"),
        (
            [&sheet, &record, &nowhere],
            "cannot write no such folder/out\n",
        ),
    ];
    for (words, wanted) in calls {
        let output = run(Command::new(&program).args(words));
        let said = String::from_utf8_lossy(&output.stderr);
        assert_eq!((output.status.code(), &*said), (Some(2), wanted));
        assert!(output.stdout.is_empty());
    }
}

/// What is said of a sheet whose variables are turned from all false, and the code: what the reference checker finds. As much is
/// lent as the program lends.
fn turned_lines(sheet: &[u8], turns: &[u16]) -> (i32, String) {
    let length = sheet.len();
    let [mut bits, mut index, mut counts] = [length, 2 * length, length].map(|size| vec![0; size]);
    let answer = reference::turn(sheet, &mut bits, turns, &mut index, &mut counts);
    if answer.number != 0 {
        let refusal = format!("refused {} at {}\n", answer.number, answer.place);
        return (1, refusal);
    }
    let clauses = Listing::read(sheet).unwrap().clauses.len();
    let broken = (1..=clauses).filter(|clause| counts[2 * clause - 2..2 * clause] == [0, 0]);
    let lines = broken.map(|clause| format!("{clause}\n"));
    (
        0,
        format!("broken {}\n{}", answer.total, lines.collect::<String>()),
    )
}

/// What the C program says of turns is that. `start` gets the program's words.
fn turns(mut start: Command, folder: &Path, sheet: &[u8], turns: &[u16]) {
    let path = folder.join("sheet");
    fs::write(&path, sheet).unwrap();
    let (code, lines) = turned_lines(sheet, turns);
    start.arg(&path).args(turns.iter().map(u16::to_string));
    let output = run(&mut start);
    let said = String::from_utf8_lossy(&output.stderr);
    assert_eq!(output.status.code(), Some(code), "{turns:?}\n{said}");
    assert_eq!(String::from_utf8_lossy(&output.stdout), lines, "{turns:?}");
}

#[test]
fn the_c_turner_tells_the_broken_clauses_of_every_sheet() {
    let program = c_program("turn", "c-turn");
    let folder = program.parent().unwrap();
    for Example { sheet, .. } in examples() {
        let cut = &sheet[..sheet.len() - 1];
        turns(Command::new(&program), folder, cut, &[1]);
        let last = Listing::read(&sheet).unwrap().costs.len() as u16;
        let wrong = [&[last + 1][..], &[1, last, 0], &[1, u16::MAX, 0]];
        let good = [&[][..], &[1], &[last], &[last, 1, last]];
        for list in wrong.into_iter().chain(good) {
            turns(Command::new(&program), folder, &sheet, list);
        }
    }
    let many = many_variables(1_024);
    turns(Command::new(&program), folder, &many, &[1_024, 3, 2, 9]);
    tells_wrong_use(&program);
    for turn in ["", "-1", "+1", " 1", "1.5", "65536", "18446744073709551616"] {
        let output = run(Command::new(&program)
            .arg(folder.join("sheet"))
            .args(["1", turn]));
        assert_eq!(output.status.code(), Some(2), "'{turn}'");
        assert!(output.stdout.is_empty() && !output.stderr.is_empty());
    }
    let output = run(Command::new(&program).args(["no such file", "1"]));
    let said = String::from_utf8_lossy(&output.stderr);
    assert_eq!(
        (output.status.code(), &*said),
        (Some(2), "cannot read no such file\n")
    );
}

/// The lines themselves, for the sheet of A1: "1 or 2" and "1 or not 2".
#[test]
fn the_c_turner_prints_these_lines() {
    let program = c_program("turn", "c-turn-lines");
    let sheet = example("A1").folder.join("sheet");
    let calls: [(&[&str], &str); 5] = [
        (&[], "broken 1\n1\n"),
        (&["2"], "broken 1\n2\n"),
        (&["1"], "broken 0\n"),
        (&["1", "2", "1"], "broken 1\n2\n"),
        (&["2", "3"], "refused 30 at 2\n"),
    ];
    for (words, wanted) in calls {
        let output = run(Command::new(&program).arg(&sheet).args(words));
        assert_eq!(String::from_utf8_lossy(&output.stdout), wanted);
    }
}

/// The program under valgrind.
fn watched(program: &Path) -> Command {
    let mut command = Command::new("valgrind");
    command.args([
        "--quiet",
        "--leak-check=full",
        "--errors-for-leak-kinds=all",
    ]);
    command.arg(format!("--error-exitcode={MEMORY_ERROR}"));
    command.arg(program);
    command
}

/// Runs the program on these bytes under valgrind, and compares its answer with the reference checker's.
fn clean(program: &Path, sheet: &[u8], record: &[u8], what: &str) {
    let folder = program.parent().unwrap();
    let files = [("sheet", sheet), ("record", record)].map(|(name, bytes)| {
        let path = folder.join(name);
        fs::write(&path, bytes).unwrap();
        path
    });
    let output = run(watched(program).args(files));
    let said = String::from_utf8_lossy(&output.stderr);
    let answer = reference::judge(sheet, record);
    let wanted = match answer.verdict() {
        Verdict::Least | Verdict::NoneExists => 0,
        Verdict::Refused => 1,
        Verdict::Within => 3,
    };
    assert_eq!(output.status.code(), Some(wanted), "{what}\n{said}");
    let line = reference::line(&answer) + "\n";
    assert_eq!(String::from_utf8_lossy(&output.stdout), line, "{what}");
}

#[test]
#[ignore = "needs valgrind"]
fn the_c_program_makes_no_memory_error() {
    let program = c_program("judge", "valgrind");
    let Example { sheet, record, .. } = example("D");
    clean(&program, &sheet, &record, "valid");
    let stopped = example("S1");
    clean(&program, &stopped.sheet, &stopped.record, "with a gap");
    clean(&program, &[], &[], "two empty files");
    clean(&program, &sheet, &[], "an empty record");
    clean(&program, &[], &record, "an empty sheet");
    for part in 1..4 {
        let cut = record.len() * part / 4;
        clean(&program, &sheet, &record[..cut], "a cut record");
    }
    clean(&program, &sheet[..sheet.len() - 1], &record, "a cut sheet");
    for sample in samples::stream(3).take(60).step_by(6) {
        clean(&program, &sample.sheet, &sample.record, sample.aimed);
    }
}

#[test]
#[ignore = "needs valgrind"]
fn the_c_writer_makes_no_memory_error() {
    let program = c_program("write", "valgrind-write");
    let folder = program.parent().unwrap();
    let sheet = example("D").sheet;
    let cut = &sheet[..sheet.len() - 1];
    for file in [&[], cut, &twice_over(&sheet), &sheet] {
        writes(watched(&program), folder, file, "a sheet of six variables");
    }
    for sample in samples::stream(3).take(60).step_by(6) {
        writes(watched(&program), folder, &sample.sheet, sample.aimed);
    }
}

#[test]
#[ignore = "needs valgrind"]
fn the_c_search_makes_no_memory_error() {
    let program = c_program("search", "valgrind-search");
    let folder = program.parent().unwrap();
    let sheet = example("D").sheet;
    let cut = &sheet[..sheet.len() - 1];
    for file in [&[], cut, &sheet, &many_variables(64), &many_variables(65)] {
        for budget in [0, 5, 60] {
            searches(watched(&program), folder, file, budget);
        }
    }
    for sample in samples::stream(3).take(60).step_by(6) {
        searches(watched(&program), folder, &sample.sheet, 40);
    }
}

#[test]
#[ignore = "needs valgrind"]
fn the_c_trimmer_makes_no_memory_error() {
    let program = c_program("trim", "valgrind-trim");
    let folder = program.parent().unwrap();
    for name in ["D", "S1", "T1", "T2"] {
        let Example { sheet, record, .. } = example(name);
        let cut = &record[..record.len() - 1];
        for file in [&[], cut, &record] {
            trims(watched(&program), folder, &sheet, file, name);
        }
        trims(watched(&program), folder, &[], &record, "an empty sheet");
    }
    for sample in samples::stream(3).take(60).step_by(6) {
        let Sample { sheet, record, .. } = &sample;
        trims(watched(&program), folder, sheet, record, sample.aimed);
    }
}

#[test]
#[ignore = "needs valgrind"]
fn the_c_turner_makes_no_memory_error() {
    let program = c_program("turn", "valgrind-turn");
    let folder = program.parent().unwrap();
    let sheet = example("D").sheet;
    let cut = &sheet[..sheet.len() - 1];
    for file in [&[], cut, &sheet, &many_variables(64), &many_variables(65)] {
        for list in [&[][..], &[1, 6, 6], &[2, 1_025]] {
            turns(watched(&program), folder, file, list);
        }
    }
    for sample in samples::stream(3).take(60).step_by(6) {
        turns(watched(&program), folder, &sample.sheet, &[1]);
    }
}
