//! Measures the proved checker beside the checker written for speed, and so the proved writer beside such writers, the
//! proved search beside such searches, the proved trimmer beside such trimmers, and the proved turner beside such turners.
//! `bench/run`, at the repository's root, builds it and explains it.

mod searches;
mod trims;
mod turners;
mod writers;

use bench::{judge, Marks, Merge};
use planner::padding::{Kind, Mix};
use samples::Sample;
use std::hint::black_box;
use std::path::Path;
use std::time::Instant;
use std::{env, fs, process};

/// The usage, in full in `bench/run`.
const USAGE: &str = "usage: bench times MEGABYTES ROUNDS SET..
       bench write SET MEGABYTES FOLDER
       bench once proved|merge|marks|bytes|nothing FOLDER
       bench writers times ROUNDS SET..
       bench writers sheet SET FOLDER
       bench writers once proved|decoded|stored|bytes|nothing FOLDER
       bench searches times ROUNDS SET..
       bench searches sheet SET FOLDER
       bench searches once proved|watched|sliced|again|nothing FOLDER
       bench trims times MEGABYTES ROUNDS SET..
       bench trims record SET MEGABYTES FOLDER
       bench trims once proved|listed|runs|judge|marks|nothing FOLDER
       bench turners times ROUNDS SET..
       bench turners sheet SET FOLDER
       bench turners once proved|looked|signed|last|proved-building|looked-building|signed-building|nothing FOLDER";

const SEED: u64 = 11;
const MEGABYTE: usize = 1_000_000;

/// The sets of records, accepted ones all. Those of long steps of one kind are to find out where the time goes.
const SETS: [(&str, Mix); 8] = [
    ("mixed", Mix::Mixed),
    ("resolution", Mix::Resolution),
    ("long", Mix::Long),
    ("long-copy", Mix::LongOf(Kind::Copy)),
    ("long-cost", Mix::LongOf(Kind::Cost)),
    ("long-independent", Mix::LongOf(Kind::Independent)),
    ("long-resolution", Mix::LongOf(Kind::Resolution)),
    ("long-linear", Mix::LongOf(Kind::Linear)),
];

type Job = fn(&[u8], &[u8]) -> u64;

/// What is measured. Each gives a number, so that no work can be left out.
const JOBS: [(&str, Job); 5] = [
    ("proved", |sheet, record| {
        proved::judge(sheet, record).step_count
    }),
    ("merge", |sheet, record| {
        judge::<Merge>(sheet, record).step_count
    }),
    ("marks", marks),
    ("bytes", |sheet, record| byte_sum(sheet) + byte_sum(record)),
    ("nothing", |_, _| 0),
];

/// Here alone, and not put into its callers: where the judgement is called from one place only, the compiler makes fewer
/// instructions of it.
#[inline(never)]
fn marks(sheet: &[u8], record: &[u8]) -> u64 {
    judge::<Marks>(sheet, record).step_count
}

/// How many of the jobs are timed: what "nothing" does is for the counts only.
const TIMED: usize = 4;

fn byte_sum(bytes: &[u8]) -> u64 {
    bytes.iter().map(|byte| u64::from(*byte)).sum()
}

fn main() {
    let given: Vec<String> = env::args().skip(1).collect();
    let words: Vec<&str> = given.iter().map(String::as_str).collect();
    let done = match words[..] {
        ["times", size, rounds, ref sets @ ..] => times(size, rounds, sets),
        ["write", set, size, folder] => write(set, size, Path::new(folder)),
        ["once", job, folder] => once(job, Path::new(folder)),
        ["writers", ref rest @ ..] => writers::run(rest),
        ["searches", ref rest @ ..] => searches::run(rest),
        ["trims", ref rest @ ..] => trims::run(rest),
        ["turners", ref rest @ ..] => turners::run(rest),
        _ => None,
    };
    if done.is_none() {
        eprintln!("{USAGE}");
        process::exit(2);
    }
}

fn bytes_of(megabytes: &str) -> Option<usize> {
    megabytes.parse::<usize>().ok()?.checked_mul(MEGABYTE)
}

fn rounds_of(rounds: &str) -> Option<usize> {
    rounds.parse().ok().filter(|rounds| *rounds > 0)
}

/// Prints a line of the table for each set.
fn times(size: &str, rounds: &str, sets: &[&str]) -> Option<()> {
    let size = bytes_of(size)?;
    let rounds = rounds_of(rounds)?;
    for name in sets {
        let sample = sample(size, mix_of(name)?);
        println!("{}", line(name, &sample, times_of(&sample, rounds)));
    }
    Some(())
}

/// A sample of a set. Only accepted records are measured: one that is refused ends early, and one within a gap is not what the
/// sets promise.
fn sample(size: usize, mix: Mix) -> Sample {
    let sample = samples::long(SEED, size, mix);
    let answer = proved::judge(&sample.sheet, &sample.record);
    assert!(answer.accepts(), "{mix:?}: {}", answer.line());
    sample
}

fn mix_of(set: &str) -> Option<Mix> {
    let found = SETS.into_iter().find(|(name, _)| *name == set);
    found.map(|(_, mix)| mix)
}

fn times_of(sample: &Sample, rounds: usize) -> [f64; TIMED] {
    least_times(rounds * turns(sample.record.len()), |job| {
        let (_, job) = JOBS[job];
        black_box(job(black_box(&sample.sheet), black_box(&sample.record)));
    })
}

/// How many files of a size a round goes through: of short ones more.
fn turns(size: usize) -> usize {
    (10 * MEGABYTE / size).max(1)
}

/// The least time of each job in milliseconds, since what else the machine does can only make one longer. The jobs take turns,
/// so that its busy moments meet all of them.
fn least_times<const N: usize>(turns: usize, mut run: impl FnMut(usize)) -> [f64; N] {
    let mut least = [f64::INFINITY; N];
    for _ in 0..turns {
        for (job, least) in least.iter_mut().enumerate() {
            let start = Instant::now();
            run(job);
            *least = least.min(start.elapsed().as_secs_f64() * 1000.0);
        }
    }
    least
}

fn line(name: &str, sample: &Sample, [proved, merge, marks, bytes]: [f64; TIMED]) -> String {
    let steps = proved::judge(&sample.sheet, &sample.record).step_count;
    let megabytes = sample.record.len() as f64 / MEGABYTE as f64;
    let faster = merge.min(marks);
    format!(
        "| {name} | {megabytes:.1} | {steps} | {proved:.2} | {merge:.2} | {marks:.2} | {bytes:.3} | {:.2} | {:.0} | {:.0} | {:.0} |",
        proved / faster,
        proved / bytes,
        merge / bytes,
        marks / bytes
    )
}

/// Writes a sheet and a record to run `once` on.
fn write(set: &str, size: &str, folder: &Path) -> Option<()> {
    let sample = sample(bytes_of(size)?, mix_of(set)?);
    save(folder, "sheet", &sample.sheet);
    save(folder, "record", &sample.record);
    Some(())
}

fn save(folder: &Path, name: &str, bytes: &[u8]) {
    fs::write(folder.join(name), bytes).unwrap_or_else(|error| fail(name, &error));
}

/// Does one job on the files of a folder, for a tool that counts.
fn once(job: &str, folder: &Path) -> Option<()> {
    let (_, job) = JOBS.into_iter().find(|(name, _)| *name == job)?;
    println!("{}", job(&read(folder, "sheet"), &read(folder, "record")));
    Some(())
}

fn read(folder: &Path, name: &str) -> Vec<u8> {
    fs::read(folder.join(name)).unwrap_or_else(|error| fail(name, &error))
}

fn fail(name: &str, error: &std::io::Error) -> ! {
    eprintln!("{name}: {error}");
    process::exit(1)
}
