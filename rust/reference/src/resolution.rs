//! Kind 4, cost resolution (document 001, definition 8): refusals 16, 17 and 18.
//!
//! By document 02's change 5 the step may state less than the resolvent does: more literals, and a lower bound. Fewer
//! assignments make more literals false, and a cost that reaches the lesser bound reaches every bound below it, so the
//! step is entailed wherever the resolvent is.

use crate::cost_clause::CostClause;
use crate::literal::Literal;
use crate::refusal::{LESSER_BOUND, PIVOT, RESOLVENT};

/// Refusals 16 to 18. The pivot is any number of 2 bytes: one that is no variable of the sheet stands in no
/// premise, so refusal 16 covers it. "None" is the greatest number, so plain comparison covers bounds of "none" too.
///
/// A resolvent that holds a variable both ways, which document 01 bans and 001 does not, needs no test of its own: the
/// conclusion was read from a list that rises, so it lacks one of the two literals.
pub(crate) fn check(
    a: &CostClause,
    b: &CostClause,
    pivot: u32,
    conclusion: &CostClause,
) -> Result<(), u32> {
    let in_a = Literal::positive(pivot);
    let in_b = Literal::negative(pivot);
    if !a.literals.contains(&in_a) || !b.literals.contains(&in_b) {
        return Err(PIVOT);
    }
    if !holds_all_but(in_a, a, conclusion) || !holds_all_but(in_b, b, conclusion) {
        return Err(RESOLVENT);
    }
    if conclusion.bound > a.bound.min(b.bound) {
        return Err(LESSER_BOUND);
    }
    Ok(())
}

/// No literal of the premise is missing from the conclusion, but perhaps the resolved one. Whatever else the conclusion
/// holds is free, the pivot's own literals included.
fn holds_all_but(resolved: Literal, premise: &CostClause, conclusion: &CostClause) -> bool {
    let mut kept = premise.literals.iter().filter(|l| **l != resolved);
    kept.all(|literal| conclusion.literals.contains(literal))
}
