//! Kind 5, weighted clauses (document 001, section 5.1.2): refusal 23 and after it 24.
//!
//! Weights over a divisor are multipliers of a linear program's constraints, one for each cited clause. Document 001
//! writes the proof out as an equation; document 02 writes the same sum down as a total, and that is what is here.

use crate::cost_clause::CostClause;
use crate::layout::number;
use crate::literal::Literal;
use crate::refusal::{LINEAR_BOUND, WEIGHTS};
use crate::sheet::Sheet;
use std::collections::BTreeSet;

/// How many bytes of a tail the divisor takes.
pub(crate) const DIVISOR_SIZE: usize = 2;

/// How many bytes of a tail an entry takes.
pub(crate) const ENTRY_SIZE: usize = 6;

/// An entry of a tail: a clause of the sheet, by its number, and the clause's weight.
pub(crate) struct Entry {
    pub clause: u64,
    pub weight: u64,
}

impl Entry {
    /// The entry stored in [`ENTRY_SIZE`] bytes.
    pub fn read(stored: &[u8]) -> Entry {
        Entry {
            clause: number(&stored[0..4]),
            weight: number(&stored[4..6]),
        }
    }
}

/// A cited clause with its weight.
struct Cited<'a> {
    clause: &'a BTreeSet<Literal>,
    weight: i128,
}

/// Refusals 23 and 24 for the clauses of these numbers.
///
/// All sums are far wider than those of any sheet: not even the greatest costs, weights and divisor of the largest
/// one take 64 bits.
pub(crate) fn check(
    sheet: &Sheet,
    divisor: u64,
    entries: &[Entry],
    conclusion: &CostClause,
) -> Result<(), u32> {
    if divisor == 0 || entries.iter().any(|entry| entry.weight == 0) {
        return Err(WEIGHTS);
    }
    let cited = entries.iter().map(|entry| Cited {
        clause: sheet.clause(entry.clause),
        weight: i128::from(entry.weight),
    });
    let cited: Vec<Cited> = cited.collect();
    let divisor = i128::from(divisor);
    let total = total(sheet, divisor, &cited, &conclusion.literals);
    // The standing loss is no part of the total: the bound is the rounded quotient and the loss, which is not divided.
    let quotient = i128::from(conclusion.bound) - sheet.standing_loss() as i128;
    if !is_rounded_up(quotient, total, divisor) {
        return Err(LINEAR_BOUND);
    }
    Ok(())
}

/// What the cited clauses add, and what every variable of the sheet adds, cited or not.
fn total(sheet: &Sheet, divisor: i128, cited: &[Cited], literals: &BTreeSet<Literal>) -> i128 {
    let mut total = 0;
    for Cited { clause, weight } in cited {
        let negative_count = clause.iter().filter(|l| !l.is_positive()).count();
        total += weight * (1 - negative_count as i128);
    }
    for variable in 1..=sheet.variable_count() {
        let remainder = remainder(sheet, divisor, cited, variable);
        total += share(remainder, variable, literals);
    }
    total
}

/// What is left of a variable's cost, times the divisor, once the cited clauses have taken their weights from it or
/// added them to it. Nothing keeps it from falling below zero.
fn remainder(sheet: &Sheet, divisor: i128, cited: &[Cited], variable: u32) -> i128 {
    let mut remainder = divisor * sheet.cost(variable) as i128;
    for Cited { clause, weight } in cited {
        if clause.contains(&Literal::positive(variable)) {
            remainder -= weight;
        }
        if clause.contains(&Literal::negative(variable)) {
            remainder += weight;
        }
    }
    remainder
}

/// How much of its remainder a variable adds to the total. The step's literals are made false, so a negative one
/// makes its variable true and a positive one makes it false.
fn share(remainder: i128, variable: u32, literals: &BTreeSet<Literal>) -> i128 {
    let is_settled_true = literals.contains(&Literal::negative(variable));
    let is_settled_false = literals.contains(&Literal::positive(variable));
    if is_settled_true {
        remainder
    } else if is_settled_false {
        0
    } else {
        // Of the two values that are left, the one that adds less.
        remainder.min(0)
    }
}

/// The quotient is the least number, from 0 on, whose product with the divisor reaches the total. The product rises
/// with the quotient, so it is enough to look one below.
fn is_rounded_up(quotient: i128, total: i128, divisor: i128) -> bool {
    let reaches = |candidate: i128| total <= divisor * candidate;
    quotient >= 0 && reaches(quotient) && (quotient == 0 || !reaches(quotient - 1))
}
