//! The assignment against the sheet: refusals 10 and 11.

use crate::read::{code, fault, Fault};
use crate::record::Record;
use crate::refusal;
use crate::sheet::Sheet;
use proved::NONE;

pub(crate) fn check(sheet: &Sheet, record: &Record) -> Result<(), Fault> {
    if record.claim == NONE {
        return Ok(());
    }
    for k in 1..=sheet.clause_count() {
        let mut literals = sheet.clause(k).iter();
        if !literals.any(|&stored| record.is_true(code(stored))) {
            return fault(refusal::BROKEN_RULE, k);
        }
    }
    let positive = (1..=sheet.variable_count()).map(|variable| 2 * variable);
    let paid = positive.filter(|&code| record.is_true(code));
    let paid: u64 = paid.map(|code| sheet.cost(code)).sum();
    if sheet.loss() + paid != record.claim {
        return fault(refusal::CLAIMED_COST, 0);
    }
    Ok(())
}
