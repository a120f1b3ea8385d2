//! Turning variables, and counting how many literals of each clause are true. There are two turners, which differ in how they
//! tell the sign of a turned variable in a clause that has it; both step the counts of those clauses alone. Beside them stand
//! two that do not step: one counts all clauses afresh after each turn, one after the last. All make the whole work: refusals 1
//! to 4 of the sheet, 29 where a buffer is too short, 30 for a turn of no variable, and the index.

mod lent;

use crate::read::{each, number, Codes, Fault};
use lent::Lent;
use proved::Turned;

/// A turner: the sheet, the assignment, the turns, the index and the counts.
pub type Turn = fn(&[u8], &mut [u8], &[u16], &mut [u8], &mut [u8]) -> Turned;

/// Turns by looking for the variable's literal in each clause that has it.
pub fn turn_looked(
    sheet: &[u8],
    assignment: &mut [u8],
    turns: &[u16],
    index: &mut [u8],
    counts: &mut [u8],
) -> Turned {
    answer(
        Lent::new(sheet, assignment, turns, index, counts).map(|mut lent| {
            lent.enter_all(|k, _| k as u32);
            let start = lent.count_all(&lent.truths());
            let clauses = lent.parts.by_clause(lent.parts.all_literals());
            let changes = turns.iter().map(|&turn| look(&mut lent, &clauses, turn));
            start.wrapping_add_signed(changes.sum())
        }),
    )
}

/// Turns by signs: while it turns, the index has the sign beside each clause's number, so that no clause is looked at. One pass
/// at the end takes the signs off again.
pub fn turn_signed(
    sheet: &[u8],
    assignment: &mut [u8],
    turns: &[u16],
    index: &mut [u8],
    counts: &mut [u8],
) -> Turned {
    answer(
        Lent::new(sheet, assignment, turns, index, counts).map(|mut lent| {
            lent.enter_all(|k, code| (2 * k + code % 2) as u32);
            let start = lent.count_all(&lent.truths());
            let changes: i64 = turns.iter().map(|&turn| sign(&mut lent, turn)).sum();
            for stored in lent.numbers {
                *stored = (u32::from_le_bytes(*stored) / 2).to_le_bytes();
            }
            start.wrapping_add_signed(changes)
        }),
    )
}

/// Counts all clauses after each turn: what stepping the counts spares.
pub fn turn_afresh(
    sheet: &[u8],
    assignment: &mut [u8],
    turns: &[u16],
    index: &mut [u8],
    counts: &mut [u8],
) -> Turned {
    answer(
        Lent::new(sheet, assignment, turns, index, counts).map(|mut lent| {
            lent.enter_all(|k, _| k as u32);
            let mut truths = lent.truths();
            let mut total = lent.count_all(&truths);
            for &turn in turns {
                lent.switch(turn);
                truths.switch(turn);
                total = lent.count_all(&truths);
            }
            total
        }),
    )
}

/// Counts all clauses after the last turn alone. The buffers then hold the same, but after no earlier turn are the counts and
/// the total known.
pub fn turn_last(
    sheet: &[u8],
    assignment: &mut [u8],
    turns: &[u16],
    index: &mut [u8],
    counts: &mut [u8],
) -> Turned {
    answer(
        Lent::new(sheet, assignment, turns, index, counts).map(|mut lent| {
            lent.enter_all(|k, _| k as u32);
            for &turn in turns {
                lent.switch(turn);
            }
            lent.count_all(&lent.truths())
        }),
    )
}

/// The answer with this total, or with this refusal.
fn answer(done: Result<u64, Fault>) -> Turned {
    let (number, place, total) = match done {
        Ok(total) => (0, 0, total),
        Err(Fault { number, place }) => (number, place, 0),
    };
    Turned {
        number,
        place,
        total,
    }
}

/// Does one turn, and gives by how much the total has grown.
#[inline(always)]
fn look(lent: &mut Lent, clauses: &[Codes], turn: u16) -> i64 {
    let was = lent.switch(turn);
    let positive = 2 * turn;
    let mut change = 0;
    for &stored in &lent.numbers[lent::list(lent.pairs, turn)] {
        let k = number(stored) - 1;
        let negative = u16::from(!has(clauses[k], positive));
        change += step(&mut lent.counts[k], was ^ negative);
    }
    change
}

/// The same, where the numbers have signs.
#[inline(always)]
fn sign(lent: &mut Lent, turn: u16) -> i64 {
    let was = lent.switch(turn);
    let mut change = 0;
    for &stored in &lent.numbers[lent::list(lent.pairs, turn)] {
        let signed = number(stored);
        let negative = (signed % 2) as u16;
        change += step(&mut lent.counts[signed / 2 - 1], was ^ negative);
    }
    change
}

/// Takes one off a count where the turned literal was true, else adds one, and gives by how much the total has grown. Neither
/// can be guessed, so that there is no branch.
#[inline(always)]
fn step(stored: &mut [u8; 2], was_true: u16) -> i64 {
    let before = u16::from_le_bytes(*stored);
    let after = before.wrapping_add(1).wrapping_sub(2 * was_true);
    *stored = after.to_le_bytes();
    i64::from(after == 0) - i64::from(before == 0)
}

/// Whether a clause has this code. It is compared with all of them, since where it stands cannot be guessed. For a long clause
/// a plain loop was faster than looks at eight codes at once.
#[inline(always)]
fn has(clause: Codes, wanted: u16) -> bool {
    let is_it = |code| u16::from(code == wanted);
    if clause.len() > 24 {
        let all = clause.iter().map(|&stored| u16::from_le_bytes(stored));
        return all.fold(0, |met, code| met | is_it(code)) != 0;
    }
    let mut met = 0;
    each(clause, |code| met |= is_it(code as u16));
    met != 0
}
