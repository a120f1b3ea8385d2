//! What trimming answers and leaves in both buffers, and which steps are kept, found out by other means.

use super::writer::{buffer, not_written, written};
use super::*;
use reference::{judge, trim, Answer, Written};

/// The answer, and what the marks and the output hold afterwards.
type Left = (Written, Vec<u8>, Vec<u8>);

/// Trims into buffers of these lengths.
pub fn trim_into(sheet: &[u8], record: &[u8], mark_count: usize, length: usize) -> Left {
    let (mut marks, mut out) = (buffer(mark_count), buffer(length));
    let answer = trim(sheet, record, &mut marks, &mut out);
    (answer, marks, out)
}

/// A buffer of this length that begins with these bytes, and of which the others were left.
fn begun(bytes: &[u8], length: usize) -> Vec<u8> {
    edited(&buffer(length), 0, bytes)
}

/// What is left of a record with so many marks and such a result, by the order of 27 and 28.
fn expected(marks: &[u8], result: &[u8], mark_count: usize, length: usize) -> Left {
    if mark_count < marks.len() {
        return (not_written(27, 0), buffer(mark_count), buffer(length));
    }
    let marks = begun(marks, mark_count);
    if length < result.len() {
        return (not_written(28, 0), marks, buffer(length));
    }
    (written(result.len()), marks, begun(result, length))
}

/// Trimming these bytes into buffers of many lengths gives this result and these marks, one for each step.
fn assert_left(sheet: &[u8], record: &[u8], marks: &[u8], result: &[u8]) {
    let (t, size) = (marks.len(), result.len());
    for mark_count in [0, t - 1, t, t + 1, t + 9] {
        for length in [0, 1, size - 1, size, size + 1, record.len(), size + 40] {
            let left = trim_into(sheet, record, mark_count, length);
            assert_eq!(left, expected(marks, result, mark_count, length));
        }
    }
}

/// The record is trimmed to this result, with these marks. The result is no longer, is judged like the record but for
/// the step count, and stays when it is trimmed again.
pub fn assert_trimmed(sheet: &[u8], record: &[u8], marks: &[u8], result: &[u8]) {
    assert_left(sheet, record, marks, result);
    assert!(result.len() <= record.len());
    let kept_count = marks.iter().filter(|mark| **mark == 1).count();
    let judged = judge(sheet, record);
    assert_eq!((judged.number, judged.step_count), (0, marks.len() as u64));
    let of_kept = Answer {
        step_count: kept_count as u64,
        ..judged
    };
    assert_eq!(judge(sheet, result), of_kept);
    assert_left(sheet, result, &vec![1; kept_count], result);
}

/// The record is refused with this by the judgement and by trimming, whatever the buffers, which stay.
pub fn assert_refused(sheet: &[u8], record: &[u8], number: u32, place: u64) {
    assert_eq!(judge(sheet, record), refused(number, place));
    for mark_count in [0, 1, 100] {
        for length in [0, 1, record.len(), record.len() + 100] {
            let left = trim_into(sheet, record, mark_count, length);
            let stayed = (buffer(mark_count), buffer(length));
            assert_eq!(left, (not_written(number, place), stayed.0, stayed.1));
        }
    }
}

/// Where a resolution's body has the numbers of the two steps that it cites; nothing of another kind.
fn citations(body: &[u8]) -> Vec<usize> {
    match body[0] {
        4 => vec![body.len() - 10, body.len() - 6],
        _ => vec![],
    }
}

/// The body with another number in each of its citations.
fn citing(body: &[u8], new_number: impl Fn(usize) -> usize) -> Vec<u8> {
    let mut body = body.to_vec();
    for at in citations(&body) {
        let number = new_number(cited(&body, at)) as u32;
        body = edited(&body, at, &four_bytes(&[number]));
    }
    body
}

fn cited(body: &[u8], at: usize) -> usize {
    u32::from_le_bytes(body[at..at + 4].try_into().unwrap()) as usize
}

/// The marks of these steps, and those that are kept with the numbers that they have then. No step cites a later one,
/// so they are gone through from the last.
pub fn kept(steps: &[Vec<u8>]) -> (Vec<u8>, Vec<Vec<u8>>) {
    let mut marks = vec![0; steps.len()];
    marks[steps.len() - 1] = 1;
    for (index, body) in steps.iter().enumerate().rev() {
        if marks[index] == 1 {
            citations(body)
                .iter()
                .for_each(|at| marks[cited(body, *at) - 1] = 1);
        }
    }
    let kept_up_to = |number: usize| marks[..number].iter().filter(|mark| **mark == 1).count();
    let kept = steps.iter().zip(&marks).filter(|(_, mark)| **mark == 1);
    let kept = kept.map(|(body, _)| citing(body, kept_up_to)).collect();
    (marks, kept)
}

/// The steps with one more, which nobody cites, at this index.
pub fn with_idle(steps: &[Vec<u8>], index: usize, idle: Vec<u8>) -> Vec<Vec<u8>> {
    let moved = |number: usize| number + usize::from(number > index);
    let mut steps: Vec<Vec<u8>> = steps.iter().map(|body| citing(body, moved)).collect();
    steps.insert(index, idle);
    steps
}
