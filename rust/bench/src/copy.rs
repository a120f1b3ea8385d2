//! Kind 1: refusals 8, 9 and 12.

use crate::read::{number, rises};
use crate::refusal;
use crate::sheet::Sheet;
use crate::step::CostClause;
use proved::NONE;

/// The refusal's number where the step is not a copy of the clause that it cites.
pub(crate) fn check(sheet: &Sheet, claim: &CostClause, tail: &[u8]) -> Result<(), u64> {
    let cited = number(tail.try_into().map_err(|_| refusal::STEP_FORM)?);
    let clause = sheet.find_clause(cited);
    // The clauses of a sheet are in form, and so is a list of the same bytes.
    if clause == Some(claim.literals) && claim.bound == NONE {
        return Ok(());
    }
    let fine = rises(claim.literals, sheet.variable_count());
    Err(match clause {
        _ if !fine => refusal::STEP_FORM,
        None => refusal::CITATION,
        Some(_) => refusal::COPY,
    })
}
