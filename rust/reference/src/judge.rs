//! The judgement: the refusals in their order, which is not that of their numbers, and what is answered where none of
//! them applies.

use crate::cost_clause::CostClause;
use crate::record::{self, Record};
use crate::refusal::{refuse, Refusal, BROKEN_RULE, CLAIMED_COST, CLOSE, OVERSIZE};
use crate::sheet::{self, Sheet};
use crate::steps;
use crate::Answer;

/// The longest file, in bytes, that is not oversize.
const LONGEST_FILE: u64 = 4_294_967_295;

/// Refusal 1, by the lengths alone.
pub fn oversize(sheet_len: u64, record_len: u64) -> bool {
    sheet_len > LONGEST_FILE || record_len > LONGEST_FILE
}

/// The sheet by itself gives no cause for refusal 1, 2, 3 or 4.
pub fn sheet_is_valid(sheet: &[u8]) -> bool {
    !oversize(sheet.len() as u64, 0) && sheet::read(sheet).is_ok()
}

/// The answer to a sheet and a record of any bytes.
pub fn judge(sheet: &[u8], record: &[u8]) -> Answer {
    match unrefused(sheet, record) {
        Ok(answer) => answer,
        Err(refusal) => Answer {
            number: refusal.number,
            place: refusal.place,
            cost: 0,
            open_count: 0,
            step_count: 0,
            gap: 0,
        },
    }
}

/// The answer that is no refusal, an acceptance only if its gap is 0; or the first refusal. The order of the lines is
/// the order of the refusals.
pub(crate) fn unrefused(sheet: &[u8], record: &[u8]) -> Result<Answer, Refusal> {
    check_size(sheet, record)?;
    let sheet = sheet::read(sheet)?;
    let record = record::read(record, sheet.variable_count())?;
    if !record.claims_none() {
        check_clauses(&sheet, &record)?;
        check_claimed_cost(&sheet, &record)?;
    }
    let derived = check_steps(&sheet, &record)?;
    let gap = check_close(&record, &derived)?;
    Ok(Answer {
        number: 0,
        place: 0,
        cost: record.claim,
        open_count: record.assignment.true_variables.len() as u64,
        step_count: record.steps.count(),
        gap,
    })
}

/// Refusal 1.
pub(crate) fn check_size(sheet: &[u8], record: &[u8]) -> Result<(), Refusal> {
    if oversize(sheet.len() as u64, record.len() as u64) {
        return refuse(OVERSIZE, 0);
    }
    Ok(())
}

/// Refusal 10, over all clauses.
fn check_clauses(sheet: &Sheet, record: &Record) -> Result<(), Refusal> {
    for (index, clause) in sheet.clauses().iter().enumerate() {
        if !record.assignment.satisfies(clause) {
            return refuse(BROKEN_RULE, index as u64 + 1);
        }
    }
    Ok(())
}

/// Refusal 11.
fn check_claimed_cost(sheet: &Sheet, record: &Record) -> Result<(), Refusal> {
    if record.assignment.cost(sheet) != u128::from(record.claim) {
        return refuse(CLAIMED_COST, 0);
    }
    Ok(())
}

/// Refusals 8, 9, 12 to 18 and 20 to 24: all of one step's before the next step's.
fn check_steps(sheet: &Sheet, record: &Record) -> Result<Vec<CostClause>, Refusal> {
    let mut derived = Vec::new();
    for step_number in 1..=record.steps.count() {
        match steps::check(sheet, &derived, record.steps.body(step_number)) {
            Ok(cost_clause) => derived.push(cost_clause),
            Err(number) => return refuse(number, step_number),
        }
    }
    Ok(derived)
}

/// Refusal 19, or how far the last bound stays below the claim: 0 if it does not.
///
/// "None" is the greatest number, so plain comparison covers a bound of "none" too. Under the claim "none" there is no
/// cost from which a lesser bound could be taken.
fn check_close(record: &Record, derived: &[CostClause]) -> Result<u64, Refusal> {
    let without_literals = |last: &&CostClause| last.literals.is_empty();
    let Some(last) = derived.last().filter(without_literals) else {
        return refuse(CLOSE, record.steps.count());
    };
    if last.bound >= record.claim {
        Ok(0)
    } else if record.claims_none() {
        refuse(CLOSE, record.steps.count())
    } else {
        Ok(record.claim - last.bound)
    }
}
