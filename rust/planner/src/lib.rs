//! Plans: a least-cost assignment for a sheet, and the certificate that nothing cheaper exists; or, where a search stops
//! early, a good assignment, and a lower bound on what any assignment costs that satisfies every clause.
#![forbid(unsafe_code)]

pub mod bounds;
pub mod certificate;
pub mod format;
pub mod long;
pub mod padding;
pub mod problem;
pub mod random;
pub mod search;
pub mod tree;

pub use certificate::{Certificate, Reason, Step};
pub use problem::{Literal, Problem, MOST_CLAUSES, MOST_VARIABLES, NONE};

/// A claim with what bears it out, or, of a search that stopped early, what comes near it: then the last step's bound may be
/// below the claim. Where the claim is "none", every value is false.
#[derive(Clone, Debug, PartialEq, Eq)]
pub struct Plan {
    pub claim: u64,
    pub assignment: Vec<bool>,
    pub steps: Vec<Step>,
}

impl Plan {
    /// The bytes of the record.
    pub fn record(&self) -> Vec<u8> {
        let bodies = self.steps.iter().map(format::step_body).collect();
        format::record_from(
            self.claim,
            &format::assignment_bytes(&self.assignment),
            &bodies,
        )
    }
}
