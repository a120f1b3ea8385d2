//! Turning variables: refusals 1 to 4 of the sheet, refusals 29 and 30, and what the three buffers hold afterwards.
//!
//! The turns are all done before anything is counted, and the counting goes by the clauses: no count is carried over
//! from one turn to the next, and the index is written without being used.

use crate::assignment::Assignment;
use crate::judge::check_size;
use crate::layout::{append_bodies, append_number, length};
use crate::literal::Literal;
use crate::refusal::{refuse, Refusal, SHORT_TURN_BUFFER, WRONG_TURN};
use crate::sheet::{self, Sheet};
use std::collections::{BTreeMap, BTreeSet};

/// The answer to a sheet, an assignment and a list of turns.
#[derive(Clone, Copy, Debug, PartialEq, Eq)]
pub struct Turned {
    /// The refusal's number; 0 where the turns were done.
    pub number: u32,
    /// The clause or the turn that the refusal names; 0 where the turns were done and where there is none to name.
    pub place: u64,
    /// How many clauses have no true literal afterwards; 0 with a refusal.
    pub total: u64,
}

/// Switches the variable of each turn, in the order of the list.
///
/// The index then begins with the clauses that mention each variable, and the counts with the number of true literals
/// of each clause. The assignment's spare bits stay, and so do the bytes past those named; with a refusal all do.
pub fn turn(
    sheet: &[u8],
    assignment: &mut [u8],
    turns: &[u16],
    index: &mut [u8],
    counts: &mut [u8],
) -> Turned {
    let lent = Lent {
        assignment,
        index,
        counts,
    };
    match unrefused(sheet, turns, lent) {
        Ok(total) => Turned {
            number: 0,
            place: 0,
            total,
        },
        Err(refusal) => Turned {
            number: refusal.number,
            place: refusal.place,
            total: 0,
        },
    }
}

/// The three buffers.
struct Lent<'a> {
    assignment: &'a mut [u8],
    index: &'a mut [u8],
    counts: &'a mut [u8],
}

/// The total, or the first refusal. The order of the lines is the order of the refusals.
fn unrefused(sheet: &[u8], turns: &[u16], lent: Lent) -> Result<u64, Refusal> {
    check_size(sheet, &[])?;
    let sheet = sheet::read(sheet)?;
    check_room(&sheet, &lent)?;
    check_turns(&sheet, turns)?;
    let turned = turned(&sheet, lent.assignment, turns);
    let true_counts = true_counts(&sheet, &turned);
    write_bits(&turned, sheet.variable_count(), lent.assignment);
    write_start(&index(&sheet), lent.index);
    write_start(&in_2_bytes(&true_counts), lent.counts);
    Ok(true_counts.iter().filter(|count| **count == 0).count() as u64)
}

/// Refusal 29.
fn check_room(sheet: &Sheet, lent: &Lent) -> Result<(), Refusal> {
    let variable_count = u128::from(sheet.variable_count());
    let clause_count = sheet.clauses().len() as u128;
    let literal_count: u128 = sheet.clauses().iter().map(|c| c.len() as u128).sum();
    if length(lent.assignment) < variable_count.div_ceil(8)
        || length(lent.index) < 8 * variable_count + 4 * literal_count
        || length(lent.counts) < 2 * clause_count
    {
        return refuse(SHORT_TURN_BUFFER, 0);
    }
    Ok(())
}

/// Refusal 30, over all turns.
fn check_turns(sheet: &Sheet, turns: &[u16]) -> Result<(), Refusal> {
    for (turn_number, variable) in (1..).zip(turns) {
        if !(1..=sheet.variable_count()).contains(&u32::from(*variable)) {
            return refuse(WRONG_TURN, turn_number);
        }
    }
    Ok(())
}

/// The assignment that these bits mean, once every turn is done.
fn turned(sheet: &Sheet, bits: &[u8], turns: &[u16]) -> Assignment {
    let mut assignment = Assignment::from_bits(bits, sheet.variable_count());
    for variable in turns.iter().copied().map(u32::from) {
        if !assignment.true_variables.remove(&variable) {
            assignment.true_variables.insert(variable);
        }
    }
    assignment
}

/// For each clause, how many of its literals are true.
fn true_counts(sheet: &Sheet, assignment: &Assignment) -> Vec<usize> {
    let count = |clause: &BTreeSet<Literal>| {
        let literals = clause.iter();
        literals.filter(|l| assignment.makes_true(l)).count()
    };
    sheet.clauses().iter().map(count).collect()
}

/// The stored form of the counts.
fn in_2_bytes(counts: &[usize]) -> Vec<u8> {
    let mut bytes = Vec::new();
    for count in counts {
        append_number(&mut bytes, *count as u128, 2);
    }
    bytes
}

/// The stored form of the index: a pair for each variable, and bodies that are lists of clause numbers.
fn index(sheet: &Sheet) -> Vec<u8> {
    let variables = 1..=sheet.variable_count();
    // A set has its numbers in the order asked for.
    let mut mentions: BTreeMap<u32, BTreeSet<u64>> = variables.map(|v| (v, [].into())).collect();
    for (clause_number, clause) in (1..).zip(sheet.clauses()) {
        for literal in clause {
            let clauses = mentions.entry(literal.variable()).or_default();
            clauses.insert(clause_number);
        }
    }
    let bodies: Vec<Vec<u8>> = mentions.values().map(body).collect();
    let mut bytes = Vec::new();
    append_bodies(&mut bytes, &bodies);
    bytes
}

/// The stored form of the clauses that mention one variable.
fn body(clause_numbers: &BTreeSet<u64>) -> Vec<u8> {
    let mut bytes = Vec::new();
    for clause_number in clause_numbers {
        append_number(&mut bytes, u128::from(*clause_number), 4);
    }
    bytes
}

/// Gives each variable's bit its value. A spare bit is no variable's.
fn write_bits(assignment: &Assignment, variable_count: u32, bits: &mut [u8]) {
    for variable in 1..=variable_count {
        let (byte, bit) = ((variable - 1) / 8, (variable - 1) % 8);
        let byte = &mut bits[byte as usize];
        if assignment.true_variables.contains(&variable) {
            *byte |= 1 << bit;
        } else {
            *byte &= !(1 << bit);
        }
    }
}

/// Puts the bytes at a buffer's start.
fn write_start(bytes: &[u8], buffer: &mut [u8]) {
    buffer[..bytes.len()].copy_from_slice(bytes);
}
