//! The turners of variables, measured as the checkers are.

use crate::{least_times, read, rounds_of, save};
use bench::turned::{self, Buffers, Work, AFRESH, COUNTED, TURNS};
use bench::{turn_afresh, turn_last, turn_looked, turn_signed, Turn};
use proved::Turned;
use std::hint::black_box;
use std::path::Path;

/// What is measured, with how many of the turns: without any, what is left is the sheet's form, the index and the first counts.
const JOBS: [(&str, Turn, usize); TIMED] = [
    ("proved", proved::turn, TURNS),
    ("looked", turn_looked, TURNS),
    ("signed", turn_signed, TURNS),
    ("last", turn_last, TURNS),
    ("proved-building", proved::turn, 0),
    ("looked-building", turn_looked, 0),
    ("signed-building", turn_signed, 0),
    ("afresh", turn_afresh, AFRESH),
    ("afresh-building", turn_afresh, 0),
];

const TIMED: usize = 9;

pub fn run(words: &[&str]) -> Option<()> {
    match *words {
        ["times", rounds, ref sets @ ..] => times(rounds, sets),
        ["sheet", set, folder] => sheet(set, Path::new(folder)),
        ["once", job, folder] => once(job, Path::new(folder)),
        _ => None,
    }
}

/// Prints a line of the table for each set, and before it, since a set takes a while, which one is being measured.
fn times(rounds: &str, sets: &[&str]) -> Option<()> {
    let rounds = rounds_of(rounds)?;
    for name in sets {
        eprintln!("turning on {name}");
        let work = turned::work(name)?;
        let answer = same_work(name, &work);
        println!("{}", line(name, &work, answer, times_of(&work, rounds)));
    }
    Some(())
}

/// What all turners answer to all turns. Each is compared with the proved one on the turns that it is measured with.
fn same_work(set: &str, work: &Work) -> Turned {
    let proved: (&str, Turn) = ("proved", proved::turn);
    let compare = |turns: usize| {
        let others = JOBS.into_iter().filter(|(.., of)| *of == turns);
        let others = others.map(|(name, turn, _)| (name, turn));
        let turners: Vec<_> = [proved].into_iter().chain(others).collect();
        let answer = turned::same_work(&turners, work, &work.turns[..turns]);
        answer.unwrap_or_else(|how| panic!("{set}: {how}"))
    };
    let [.., answer] = [0, AFRESH, TURNS].map(compare);
    answer
}

/// The times on the same buffers: what the system takes to lend them is not measured.
fn times_of(work: &Work, rounds: usize) -> [f64; TIMED] {
    let mut buffers = Buffers::new(work);
    least_times(rounds, |job| {
        let (_, turn, turns) = JOBS[job];
        let turns = &work.turns[..turns];
        black_box(buffers.run(turn, black_box(work), black_box(turns)));
    })
}

/// The milliseconds of a million turns are nanoseconds of one. What counting afresh would take for all of them is multiplied up
/// from what it takes for some, without the building.
fn line(name: &str, work: &Work, answer: Turned, times: [f64; TIMED]) -> String {
    let [proved, looked, signed, last, building @ .., some, none] = times;
    let [proved_building, looked_building, signed_building] = building;
    let (faster, its_name) = match looked < signed {
        true => (looked, "looked"),
        false => (signed, "signed"),
    };
    let afresh = (some - none) * TURNS as f64 / AFRESH as f64 + none;
    format!(
        "| {name} | {} | {} | {proved:.1} | {looked:.1} | {signed:.1} | {its_name} | {:.2} | {proved_building:.2} | {looked_building:.2} | {signed_building:.2} | {last:.2} | {:.1} | {:.0} |",
        literals(work),
        answer.total,
        proved / faster,
        afresh / 1000.0,
        afresh / proved
    )
}

/// How many literals the sheet has: two bytes for each, behind the head, the costs and the pairs.
fn literals(work: &Work) -> usize {
    let [variables, clauses] = [planner::MOST_VARIABLES, planner::MOST_CLAUSES];
    (work.sheet.len() - 4 - 4 * variables - 8 * clauses) / 2
}

/// Writes a sheet, an assignment and turns to run `once` on.
fn sheet(set: &str, folder: &Path) -> Option<()> {
    let work = turned::work(set)?;
    same_work(set, &work);
    save(folder, "sheet", &work.sheet);
    save(folder, "assignment", &work.assignment);
    let turns = work.turns[..COUNTED]
        .iter()
        .flat_map(|turn| turn.to_le_bytes());
    save(folder, "turns", &turns.collect::<Vec<u8>>());
    Some(())
}

/// Does one job on the files of a folder, for a tool that counts, with as many turns as there are; "nothing" is what else there
/// is to do.
fn once(job: &str, folder: &Path) -> Option<()> {
    let [sheet, assignment, turns] =
        ["sheet", "assignment", "turns"].map(|name| read(folder, name));
    let turns = turns.as_chunks().0.iter().copied();
    let work = Work {
        sheet,
        assignment,
        turns: turns.map(u16::from_le_bytes).collect(),
    };
    let mut buffers = Buffers::new(&work);
    let total = match job {
        "nothing" => 0,
        _ => {
            let (_, turn, turns) = JOBS.into_iter().find(|(name, ..)| *name == job)?;
            let turns = &work.turns[..turns.min(work.turns.len())];
            buffers.run(turn, &work, turns).total
        }
    };
    println!("{total}");
    Some(())
}
