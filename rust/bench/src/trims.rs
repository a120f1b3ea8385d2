//! The trimmers of a record, measured as the checkers are.

use crate::{bytes_of, least_times, marks, read, rounds_of, save, turns, MEGABYTE};
use bench::{trim_listed, trim_runs, trimmed};
use samples::Sample;
use std::hint::black_box;
use std::path::Path;

/// What a trimmer writes: a mark for each step, and the record.
struct Buffers {
    marks: Vec<u8>,
    out: Vec<u8>,
}

impl Buffers {
    /// With room for what any trimmer writes: the trimmed record is no longer, and each step takes more than a byte.
    fn new(record: &[u8]) -> Self {
        Buffers {
            marks: vec![0; record.len() / 8],
            out: vec![0; record.len()],
        }
    }
}

type Job = fn(&[u8], &[u8], &mut Buffers) -> u64;

/// What is measured: the trimmers, whose time includes a judgement, and the two judgements alone.
const JOBS: [(&str, Job); 6] = [
    ("proved", |sheet, record, to| {
        proved::trim(sheet, record, &mut to.marks, &mut to.out).length
    }),
    ("listed", |sheet, record, to| {
        trim_listed(sheet, record, &mut to.marks, &mut to.out).length
    }),
    ("runs", |sheet, record, to| {
        trim_runs(sheet, record, &mut to.marks, &mut to.out).length
    }),
    ("judge", |sheet, record, _| {
        proved::judge(sheet, record).step_count
    }),
    ("marks", |sheet, record, _| marks(sheet, record)),
    ("nothing", |_, _, _| 0),
];

/// How many of the jobs trim, and how many are timed.
const TRIMMERS: usize = 3;
const TIMED: usize = 5;

pub fn run(words: &[&str]) -> Option<()> {
    match *words {
        ["times", size, rounds, ref sets @ ..] => times(size, rounds, sets),
        ["record", set, size, folder] => record(set, size, Path::new(folder)),
        ["once", job, folder] => once(job, Path::new(folder)),
        _ => None,
    }
}

/// Prints a line of the table for each set.
fn times(size: &str, rounds: &str, sets: &[&str]) -> Option<()> {
    let size = bytes_of(size)?;
    let rounds = rounds_of(rounds)?;
    for name in sets {
        let sample = trimmed::sample(name, size)?;
        let counts = same_work(name, &sample);
        println!("{}", line(name, &sample, counts, times_of(&sample, rounds)));
    }
    Some(())
}

/// How many steps the record has, and how many of them all trimmers keep: they have to do the same work, and one that refuses
/// would be done early.
fn same_work(set: &str, Sample { sheet, record, .. }: &Sample) -> (usize, usize) {
    let answer = proved::judge(sheet, record);
    assert!(answer.accepts(), "{set}: {}", answer.line());
    let mut before: Option<Buffers> = None;
    for (name, job) in &JOBS[..TRIMMERS] {
        let mut to = Buffers::new(record);
        assert!(job(sheet, record, &mut to) > 0, "{set}, {name}");
        if let Some(before) = before {
            assert!(before.marks == to.marks && before.out == to.out, "{set}");
        }
        before = Some(to);
    }
    let marks = before.map_or(vec![], |to| to.marks);
    let kept = marks.iter().filter(|mark| **mark == 1).count();
    (answer.step_count as usize, kept)
}

/// The times for one record, on the same buffers: what the system takes to lend them is not measured.
fn times_of(sample: &Sample, rounds: usize) -> [f64; TIMED] {
    let Sample { sheet, record, .. } = sample;
    let mut to = Buffers::new(record);
    least_times(rounds * turns(record.len()), |job| {
        let (_, job) = JOBS[job];
        black_box(job(black_box(sheet), black_box(record), black_box(&mut to)));
    })
}

/// The time for a byte tells how it grows with the record, and what the judgements leave is what trimming proper takes.
fn line(name: &str, sample: &Sample, counts: (usize, usize), times: [f64; TIMED]) -> String {
    let bytes = sample.record.len() as f64;
    let (steps, kept) = counts;
    let [proved, listed, runs, judge, marks] = times;
    let faster = listed.min(runs);
    let for_byte = |time: f64| time * 1_000_000.0 / bytes;
    format!(
        "| {name} | {:.1} | {steps} | {kept} | {proved:.2} | {listed:.2} | {runs:.2} | {:.2} | {:.3} | {:.3} | {judge:.2} | {marks:.2} | {:.2} | {:.2} |",
        bytes / MEGABYTE as f64,
        proved / faster,
        for_byte(proved),
        for_byte(faster),
        proved - judge,
        faster - marks
    )
}

/// Writes a sheet and a record to run `once` on.
fn record(set: &str, size: &str, folder: &Path) -> Option<()> {
    let sample = trimmed::sample(set, bytes_of(size)?)?;
    same_work(set, &sample);
    save(folder, "sheet", &sample.sheet);
    save(folder, "record", &sample.record);
    Some(())
}

/// Does one job on the files of a folder, for a tool that counts.
fn once(job: &str, folder: &Path) -> Option<()> {
    let (_, job) = JOBS.into_iter().find(|(name, _)| *name == job)?;
    let (sheet, record) = (read(folder, "sheet"), read(folder, "record"));
    let mut to = Buffers::new(&record);
    println!("{}", job(&sheet, &record, &mut to));
    Some(())
}
