//! One way to write a sheet: refusals 1 to 4 of the sheet, refusal 25, and the bytes that are written.

use crate::judge::check_size;
use crate::layout::{append_bodies, append_number};
use crate::literal::Literal;
use crate::refusal::{refuse, Refusal, SHORT_BUFFER};
use crate::sheet::{self, Sheet, LOSS_SIZE, MARK};
use std::collections::BTreeSet;

/// The answer to a sheet and a buffer, or to a record that is trimmed.
#[derive(Clone, Copy, Debug, PartialEq, Eq)]
pub struct Written {
    /// The refusal's number; 0 where the file was written.
    pub number: u32,
    /// The clause or step that the refusal names; 0 where the file was written and where there is none to name.
    pub place: u64,
    /// How many bytes were written, from the buffer's first on; 0 with a refusal.
    pub length: u64,
}

impl Written {
    /// The answer where this many bytes were written, or where the refusal was met.
    pub(crate) fn of(outcome: Result<usize, Refusal>) -> Written {
        match outcome {
            Ok(length) => Written {
                number: 0,
                place: 0,
                length: length as u64,
            },
            Err(refusal) => Written {
                number: refusal.number,
                place: refusal.place,
                length: 0,
            },
        }
    }
}

/// Writes the sheet with its clauses in order, each once, and without a mark whose loss is 0, to the start of the
/// buffer. The bytes past what is written stay, and with a refusal the whole buffer does.
///
/// Clauses may get other numbers by this, so a record of the sheet need not be one of the written sheet.
pub fn write_sheet(sheet: &[u8], out: &mut [u8]) -> Written {
    Written::of(unrefused(sheet, out))
}

/// How many bytes were written, or the first refusal. The order of the lines is the order of the refusals.
fn unrefused(sheet: &[u8], out: &mut [u8]) -> Result<usize, Refusal> {
    check_size(sheet, &[])?;
    let bytes = canonical(&sheet::read(sheet)?);
    check_room(&bytes, out)?;
    out[..bytes.len()].copy_from_slice(&bytes);
    Ok(bytes.len())
}

/// Refusal 25.
fn check_room(bytes: &[u8], out: &[u8]) -> Result<(), Refusal> {
    if out.len() < bytes.len() {
        return refuse(SHORT_BUFFER, 0);
    }
    Ok(())
}

/// The bytes of every sheet that has these variables, costs, standing loss and set of clauses. They are no more than
/// any of those sheets has, so offsets and lengths fit into their 4 bytes again.
///
/// Among those sheets are unmarked ones exactly where the loss is 0, and there no mark is written.
fn canonical(sheet: &Sheet) -> Vec<u8> {
    // A set of lists is kept in the order asked for: by the first code that differs, and a list before those that it
    // begins.
    let clauses: BTreeSet<Vec<u32>> = sheet.clauses().iter().map(codes).collect();
    let mut file = Vec::new();
    let is_marked = sheet.standing_loss() != 0;
    let mark = if is_marked { MARK } else { 0 };
    let field = u64::from(sheet.variable_count()) | mark;
    append_number(&mut file, u128::from(field), 2);
    append_number(&mut file, clauses.len() as u128, 2);
    for variable in 1..=sheet.variable_count() {
        append_number(&mut file, sheet.cost(variable), 4);
    }
    if is_marked {
        append_number(&mut file, sheet.standing_loss(), LOSS_SIZE);
    }
    let bodies: Vec<Vec<u8>> = clauses.iter().map(|codes| body(codes)).collect();
    append_bodies(&mut file, &bodies);
    file
}

/// The codes of a clause, rising as a literal list has them.
fn codes(clause: &BTreeSet<Literal>) -> Vec<u32> {
    clause.iter().map(|literal| literal.code()).collect()
}

/// The stored form of a literal list.
fn body(codes: &[u32]) -> Vec<u8> {
    let mut bytes = Vec::new();
    for code in codes {
        append_number(&mut bytes, u128::from(*code), 2);
    }
    bytes
}
