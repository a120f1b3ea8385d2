//! The searches for a plan, measured as the checkers are.

use crate::{least_times, read, rounds_of, save, TIMED};
use bench::searched::{self, BUDGET};
use bench::{search_again, search_sliced, search_watched};
use proved::Found;
use std::hint::black_box;
use std::path::Path;

type Job = fn(&[u8]) -> Found;

/// What is measured.
const JOBS: [(&str, Job); TIMED] = [
    ("proved", |sheet| proved::search(sheet, BUDGET)),
    ("watched", |sheet| search_watched(sheet, BUDGET)),
    ("sliced", |sheet| search_sliced(sheet, BUDGET)),
    ("again", |sheet| search_again(sheet, BUDGET)),
];

pub fn run(words: &[&str]) -> Option<()> {
    match *words {
        ["times", rounds, ref sets @ ..] => times(rounds, sets),
        ["sheet", set, folder] => sheet(set, Path::new(folder)),
        ["once", job, folder] => once(job, Path::new(folder)),
        _ => None,
    }
}

/// Prints a line of the table for each set.
fn times(rounds: &str, sets: &[&str]) -> Option<()> {
    let rounds = rounds_of(rounds)?;
    for name in sets {
        let sheet = searched::sheet(name)?;
        let found = found(name, &sheet);
        let times = least_times(rounds, |job| {
            let (_, job) = JOBS[job];
            black_box(job(black_box(&sheet)));
        });
        println!("{}", line(name, &found, times));
    }
    Some(())
}

/// What all searches find: they have to do the same work.
fn found(set: &str, sheet: &[u8]) -> Found {
    let all = JOBS.map(|(_, job)| job(sheet));
    assert_eq!(all[0].number, 0, "{set}");
    assert_eq!(all, [all[0]; TIMED], "{set}");
    all[0]
}

/// The choices of a millisecond are thousands in a second.
fn line(name: &str, found: &Found, times: [f64; TIMED]) -> String {
    let choices = found.choices;
    let end = if found.ended { "ended" } else { "spent" };
    let [a, b, c, d] = times.map(|time| choices as f64 / time);
    let [proved, watched, sliced, again] = times;
    let faster = watched.min(sliced);
    format!(
        "| {name} | {choices} | {end} | {a:.0} | {b:.0} | {c:.0} | {d:.0} | {:.2} | {:.2} |",
        proved / faster,
        proved / again
    )
}

/// Writes a sheet to run `once` on.
fn sheet(set: &str, folder: &Path) -> Option<()> {
    let sheet = searched::sheet(set)?;
    found(set, &sheet);
    save(folder, "sheet", &sheet);
    Some(())
}

/// Does one job on the sheet of a folder, for a tool that counts; "nothing" is what else there is to do.
fn once(job: &str, folder: &Path) -> Option<()> {
    let sheet = read(folder, "sheet");
    let choices = match job {
        "nothing" => 0,
        _ => {
            let (_, job) = JOBS.into_iter().find(|(name, _)| *name == job)?;
            job(&sheet).choices
        }
    };
    println!("{choices}");
    Some(())
}
