//! The writers of a sheet in its one order, measured as the checkers are.

use crate::{byte_sum, least_times, read, rounds_of, save, turns, TIMED};
use bench::{sets, write_decoded, write_stored};
use std::hint::black_box;
use std::path::Path;

type Job = fn(&[u8], &mut [u8]) -> u64;

/// What is measured, in the order of the checkers' jobs.
const JOBS: [(&str, Job); 5] = [
    ("proved", |sheet, out| {
        proved::write_sheet(sheet, out).length
    }),
    ("decoded", |sheet, out| write_decoded(sheet, out).length),
    ("stored", |sheet, out| write_stored(sheet, out).length),
    ("bytes", |sheet, _| byte_sum(sheet)),
    ("nothing", |_, _| 0),
];

pub fn run(words: &[&str]) -> Option<()> {
    match *words {
        ["times", rounds, ref sets @ ..] => times(rounds, sets),
        ["sheet", set, folder] => sheet(set, Path::new(folder)),
        ["once", job, folder] => once(job, Path::new(folder)),
        _ => None,
    }
}

/// Prints a line of the table for each set.
fn times(rounds: &str, sets: &[&str]) -> Option<()> {
    let rounds = rounds_of(rounds)?;
    for name in sets {
        let sheets = sheets(name)?;
        println!("{}", line(name, &sheets[0], times_of(&sheets, rounds)));
    }
    Some(())
}

/// Different sheets of a set. One that is sorted again and again is learnt: the processor then guesses right how its
/// comparisons end, and a short one seems to take half of what it takes.
fn sheets(set: &str) -> Option<Vec<Vec<u8>>> {
    let count = turns(sets::sheet(set, 0)?.len());
    (0..count as u64).map(|k| sets::sheet(set, k)).collect()
}

/// The times for one sheet, on a buffer that each has room in: what is written is no longer than what is read.
fn times_of(sheets: &[Vec<u8>], rounds: usize) -> [f64; TIMED] {
    let longest = sheets.iter().map(Vec::len).max();
    let mut out = vec![0; longest.unwrap_or(0)];
    for sheet in sheets {
        // A refused sheet would be done early.
        assert_eq!(proved::write_sheet(sheet, &mut out).number, 0);
    }
    let least = least_times(rounds, |job| {
        let (_, job) = JOBS[job];
        for sheet in sheets {
            black_box(job(black_box(sheet), black_box(&mut out)));
        }
    });
    least.map(|time| time / sheets.len() as f64)
}

fn line(name: &str, sheet: &[u8], [proved, decoded, stored, bytes]: [f64; TIMED]) -> String {
    let faster = decoded.min(stored);
    format!(
        "| {name} | {} | {proved:.3} | {decoded:.3} | {stored:.3} | {bytes:.3} | {:.2} | {:.0} | {:.0} | {:.0} |",
        sheet.len(),
        proved / faster,
        proved / bytes,
        decoded / bytes,
        stored / bytes
    )
}

/// Writes a sheet to run `once` on.
fn sheet(set: &str, folder: &Path) -> Option<()> {
    save(folder, "sheet", &sets::sheet(set, 0)?);
    Some(())
}

/// Does one job on the sheet of a folder, for a tool that counts.
fn once(job: &str, folder: &Path) -> Option<()> {
    let (_, job) = JOBS.into_iter().find(|(name, _)| *name == job)?;
    let sheet = read(folder, "sheet");
    println!("{}", job(&sheet, &mut vec![0; sheet.len()]));
    Some(())
}
