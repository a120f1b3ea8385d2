//! Files read and written, each at once and whole, and the questions to the proved checker that say what can be done with them.

use crate::explain;
use crate::failure::Failure;
use crate::record::Record;
use crate::refusals::sentence;
use crate::sheet::{is_marked, Sheet};
use planner::Problem;
use proved::Answer;
use std::fs::{self, File};
use std::io::{self, ErrorKind, IsTerminal, Read, Write};
use std::path::{Path, PathBuf};

/// Files above this many bytes report while they are read.
const LONG: u64 = 100_000_000;
const MEGABYTE: u64 = 1_000_000;

pub fn read(path: &Path) -> Result<Vec<u8>, Failure> {
    read_all(path).map_err(|error| {
        Failure::Unreadable(format!("{}: cannot be read: {error}", path.display()))
    })
}

fn read_all(path: &Path) -> io::Result<Vec<u8>> {
    let mut file = File::open(path)?;
    let size = file.metadata()?.len();
    let mut bytes = Vec::with_capacity(usize::try_from(size).unwrap_or(0));
    let shown = size > LONG && io::stderr().is_terminal();
    if !shown {
        file.read_to_end(&mut bytes)?;
        return Ok(bytes);
    }
    while Read::by_ref(&mut file)
        .take(LONG / 10)
        .read_to_end(&mut bytes)?
        > 0
    {
        let read = bytes.len() as u64 / MEGABYTE;
        let all = size / MEGABYTE;
        eprint!("\rreading {}: {read} of {all} MB", path.display());
    }
    eprintln!();
    Ok(bytes)
}

pub fn read_text(path: &Path) -> Result<String, Failure> {
    String::from_utf8(read(path)?).map_err(|error| {
        let byte = error.utf8_error().valid_up_to();
        Failure::Content(format!("{}: byte {byte}: this is no text", path.display()))
    })
}

/// A file that stands there already stays as it was until every byte is written. It may be the only copy of what was read.
pub fn write(path: &Path, bytes: &[u8]) -> Result<(), Failure> {
    let written = match existing(path) {
        Ok(Some(old)) => replace(&old, bytes),
        Ok(None) => File::create(path).and_then(|mut file| file.write_all(bytes)),
        Err(error) => Err(error),
    };
    written.map_err(|error| {
        Failure::Unreadable(format!("{}: cannot be written: {error}", path.display()))
    })
}

/// The file that the path names, behind all links. A device or a pipe is none, and is written to where it is. So is a file that
/// stands open, as the one behind `/dev/stdout`: what else is written to it must not go astray.
fn existing(path: &Path) -> io::Result<Option<PathBuf>> {
    if path.starts_with("/dev") || path.starts_with("/proc") {
        return Ok(None);
    }
    match fs::canonicalize(path) {
        Ok(found) => Ok(Some(found).filter(|found| found.is_file())),
        Err(error) if error.kind() == ErrorKind::NotFound => Ok(None),
        Err(error) => Err(error),
    }
}

/// Refuses an output that is this input, and would take its place as a file of another sort.
pub fn keeps(output: &Path, input: &Path, what: &str) -> Result<(), Failure> {
    match is_same(output, input) {
        true => Err(Failure::Usage(format!(
            "{} is the {what}, which would be lost",
            output.display()
        ))),
        false => Ok(()),
    }
}

/// Whether both paths lead to one file, behind all links, so that what is written to one takes the place of the other. A hard
/// link is another file in this: it alone is replaced.
fn is_same(one: &Path, other: &Path) -> bool {
    let found = |path: &Path| fs::canonicalize(path).ok().filter(|found| found.is_file());
    found(one).is_some_and(|one| found(other) == Some(one))
}

/// Puts a new file in the place of an old one, or leaves the old one alone.
fn replace(old: &Path, bytes: &[u8]) -> io::Result<()> {
    // A file that may not be written is not replaced either.
    let permissions = File::options()
        .write(true)
        .open(old)?
        .metadata()?
        .permissions();
    let (new, mut file) = new_beside(old)?;
    let done = file
        .set_permissions(permissions)
        .and_then(|()| file.write_all(bytes))
        // A full disk may be told as late as this.
        .and_then(|()| file.sync_all())
        .and_then(|()| fs::rename(&new, old));
    if done.is_err() {
        let _ = fs::remove_file(&new);
    }
    done
}

/// An empty file in the same folder, since a rename cannot leave the disk. What stands under a name is not touched: another
/// machine may have a process of the same number.
fn new_beside(old: &Path) -> io::Result<(PathBuf, File)> {
    let mut number = 0;
    loop {
        let name = format!(".plancheck-{}-{number}", std::process::id());
        let new = old.with_file_name(name);
        match File::create_new(&new) {
            Err(error) if error.kind() == ErrorKind::AlreadyExists => number += 1,
            Err(error) => {
                let message = format!("no file can be made beside it: {error}");
                return Err(io::Error::new(error.kind(), message));
            }
            Ok(file) => return Ok((new, file)),
        }
    }
}

/// What the proved checker has against a sheet, if anything: with an empty record the sheet's refusals come first, and the
/// record's own is number 5.
pub fn judged_alone(bytes: &[u8]) -> Result<(), Answer> {
    match proved::judge(bytes, &[]) {
        answer if answer.number == 5 => Ok(()),
        answer => Err(answer),
    }
}

/// The sheet, where the proved checker has nothing against it.
pub fn valid_sheet<'a>(path: &Path, bytes: &'a [u8]) -> Result<Sheet<'a>, Failure> {
    judged_alone(bytes).map_err(|answer| refused_sheet(path, bytes, &answer))?;
    Sheet::open(bytes).ok_or_else(|| unread(path))
}

/// What stands in such a sheet.
pub fn problem(path: &Path, bytes: &[u8]) -> Result<Problem, Failure> {
    let problem = valid_sheet(path, bytes)?.problem();
    problem.ok_or_else(|| unread(path))
}

fn unread(path: &Path) -> Failure {
    Failure::Content(format!("{}: byte 0: no problem here", path.display()))
}

fn refused_sheet(path: &Path, bytes: &[u8], answer: &Answer) -> Failure {
    let byte = sheet_byte(bytes, answer);
    refused(path, byte, answer, is_marked(bytes))
}

/// The byte of a sheet that its refusal is about.
fn sheet_byte(bytes: &[u8], answer: &Answer) -> usize {
    let place = answer.place as usize;
    match (answer.number, Sheet::open(bytes)) {
        (3, Some(sheet)) if place > 0 => sheet.clauses.pair_place(place),
        (4, Some(sheet)) => sheet.clauses.pair(place).map_or(0, |(start, _)| start),
        _ => 0,
    }
}

/// The sheet as the proved writer has it. It grows by no byte, so that a buffer of the sheet's length is never too short.
pub fn canonical(path: &Path, sheet: &[u8]) -> Result<Vec<u8>, Failure> {
    let mut buffer = vec![0; sheet.len()];
    let written = proved::write_sheet(sheet, &mut buffer);
    if written.number != 0 {
        return Err(refused_alone(path, sheet, written.number, written.place));
    }
    buffer.truncate(written.length as usize);
    Ok(buffer)
}

/// The refusal of a call that takes no record, with what stands at its place.
pub fn refused_alone(path: &Path, sheet: &[u8], number: u64, place: u64) -> Failure {
    let answer = Answer {
        number,
        place,
        cost: 0,
        open_count: 0,
        step_count: 0,
        gap: 0,
    };
    let refused = refused_sheet(path, sheet, &answer);
    let shown = explain::sheet_alone(sheet, &answer).join("\n");
    Failure::Content(format!("{}\n{shown}", refused.message()))
}

/// The refusal of a record beside a valid sheet, with what stands at its place. What it cites is left to `explain`.
pub fn refused_record(path: &Path, sheet: &[u8], record: &[u8], answer: &Answer) -> Failure {
    let lines = explain::explain(sheet, record, answer);
    let shown: Vec<String> = lines.into_iter().take(3).collect();
    Failure::Content(format!("{}: {}", path.display(), shown.join("\n")))
}

/// The record, where the proved checker has nothing against its head and its pairs.
pub fn laid_out<'a>(path: &Path, sheet: &[u8], bytes: &'a [u8]) -> Result<Record<'a>, Failure> {
    let variables = Sheet::open(sheet).map_or(0, |sheet| sheet.variables);
    let record = Record::open(bytes, variables);
    let mut answer = proved::judge(sheet, bytes);
    if let Some(record) = record.filter(|_| answer.number == 6) {
        // A stray bit is told before the pairs: without any bit they are judged.
        let mut clean = bytes.to_vec();
        clean[12..12 + record.bits.len()].fill(0);
        answer = proved::judge(sheet, &clean);
    }
    match record.filter(|_| ![1, 5, 7].contains(&answer.number)) {
        Some(record) => Ok(record),
        None => {
            let place = answer.place as usize;
            let byte = record.filter(|_| answer.number == 7);
            let byte = byte.map_or(0, |record| record.steps.pair_place(place));
            // What a record is laid out like does not hang on the sheet's mark, and neither does what is said of it.
            Err(refused(path, byte, &answer, false))
        }
    }
}

fn refused(path: &Path, byte: usize, answer: &Answer, marked: bool) -> Failure {
    let (line, sentence) = (answer.line(), sentence(answer, marked));
    Failure::Content(format!(
        "{}: byte {byte}: {line}\n{sentence}",
        path.display()
    ))
}
