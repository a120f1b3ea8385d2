//! Records without their idle steps, as the proved trimmer has them.

use crate::record::Record;
use crate::sheet::Sheet;
use crate::steps;
use proved::Answer;
use std::cmp::Reverse;

/// What the trimmer has made of a record.
#[derive(Clone, Debug, PartialEq, Eq)]
pub struct Trimmed {
    /// The trimmed record.
    pub record: Vec<u8>,
    /// A byte for each step of the record that was trimmed: 1 where the step is kept, 0 where it is idle.
    pub marks: Vec<u8>,
}

impl Trimmed {
    /// How many steps are kept.
    pub fn kept(&self) -> usize {
        self.marks.iter().filter(|mark| **mark == 1).count()
    }
}

/// The record without its idle steps, or its refusal. There are as many marks as the record has steps, and it does not grow, so
/// that neither buffer is ever too short.
pub fn trimmed(sheet: &[u8], record: &[u8]) -> Result<Trimmed, Answer> {
    let answer = proved::judge(sheet, record);
    let mut marks = vec![0; answer.step_count as usize];
    let mut buffer = vec![0; record.len()];
    let written = proved::trim(sheet, record, &mut marks, &mut buffer);
    if written.number != 0 {
        let (number, place) = (written.number, written.place);
        return Err(Answer {
            number,
            place,
            ..answer
        });
    }
    buffer.truncate(written.length as usize);
    Ok(Trimmed {
        record: buffer,
        marks,
    })
}

/// What is left of a record that is to be written. A refused one stays: its line tells then what is wrong with it.
pub fn without_idle_steps(sheet: &[u8], record: Vec<u8>) -> Vec<u8> {
    match trimmed(sheet, &record) {
        Ok(trimmed) => trimmed.record,
        Err(_) => record,
    }
}

/// The number and the bound of the idle step that shows most by itself, the first of several, where that is more than the last
/// step shows: what has no literals could have been the last one.
pub fn best_idle(sheet: &[u8], record: &[u8], marks: &[u8]) -> Option<(usize, u64)> {
    let record = Record::open(record, Sheet::open(sheet)?.variables)?;
    let read = |number: usize| record.steps.body(number).and_then(steps::read);
    let last = read(marks.len())?.bound;
    let idle = (1..=marks.len()).filter(|number| marks[number - 1] == 0);
    let shown = idle.filter_map(|number| {
        let step = read(number).filter(|step| step.literals.is_empty())?;
        Some((number, step.bound))
    });
    let more = shown.filter(|(_, bound)| *bound > last);
    // Of equal ones this takes the first, where `max_by_key` takes the last.
    more.min_by_key(|(_, bound)| Reverse(*bound))
}
