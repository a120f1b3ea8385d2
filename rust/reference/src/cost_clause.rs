//! What every step states, whatever its kind.

use crate::literal::Literal;
use std::collections::BTreeSet;

/// A cost clause (document 01: statement): to satisfy the sheet with all these literals false costs at least the
/// bound, and cannot be done if the bound is [`NONE`](crate::NONE).
pub(crate) struct CostClause {
    pub literals: BTreeSet<Literal>,
    pub bound: u64,
}
