//! A step's body, taken apart.

use crate::read::{code, codes, Codes};

/// The literals and the bound that a step states.
#[derive(Clone, Copy)]
pub(crate) struct CostClause<'a> {
    pub literals: Codes<'a>,
    pub bound: u64,
}

impl<'a> CostClause<'a> {
    /// The cost clause at the start of these bytes, and what follows it.
    pub fn read(bytes: &'a [u8]) -> Option<(Self, &'a [u8])> {
        let (head, rest) = bytes.split_first_chunk::<12>()?;
        let [_, _, q0, q1, bound @ ..] = *head;
        let (list, rest) = rest.split_at_checked(2 * code([q0, q1]))?;
        let literals = codes(list);
        let bound = u64::from_le_bytes(bound);
        Some((CostClause { literals, bound }, rest))
    }
}
