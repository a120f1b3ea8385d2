//! The writer's answers to compare with, and what it leaves in a buffer.

use reference::{write_sheet, Written};

/// The answer where this many bytes were written.
pub fn written(length: usize) -> Written {
    Written {
        number: 0,
        place: 0,
        length: length as u64,
    }
}

/// The answer where nothing was.
pub fn not_written(number: u32, place: u64) -> Written {
    Written {
        number,
        place,
        length: 0,
    }
}

/// A buffer before it is lent. Every byte is above what a small sheet has there, and its neighbours differ from it.
pub fn buffer(length: usize) -> Vec<u8> {
    (0..length).map(|at| 0x80 | at as u8).collect()
}

/// The sheet as it is written. A buffer of its own length is always enough.
pub fn write(sheet: &[u8]) -> Vec<u8> {
    let mut out = buffer(sheet.len());
    let answer = write_sheet(sheet, &mut out);
    let length = answer.length as usize;
    assert_eq!(answer, written(length));
    assert_eq!(out[length..], buffer(sheet.len())[length..]);
    out.truncate(length);
    out
}

/// The sheet is refused with this, whatever the buffer, which stays.
pub fn assert_refused(sheet: &[u8], number: u32, place: u64) {
    for length in [0, 1, sheet.len(), sheet.len() + 100] {
        let mut out = buffer(length);
        assert_eq!(write_sheet(sheet, &mut out), not_written(number, place));
        assert_eq!(out, buffer(length));
    }
}
