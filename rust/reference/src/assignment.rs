//! Total assignments (document 01: arrangements).

use crate::literal::Literal;
use crate::sheet::Sheet;
use std::collections::BTreeSet;

/// A value for every variable, as the set of the true ones (document 01: the open paddles).
pub(crate) struct Assignment {
    pub true_variables: BTreeSet<u32>,
}

impl Assignment {
    /// Variables 1 to `variable_count` from their bits, eight to a byte, variable 1 in the first byte's lowest.
    pub fn from_bits(bits: &[u8], variable_count: u32) -> Assignment {
        let is_set = |variable: &u32| {
            let index = variable - 1;
            (bits[(index / 8) as usize] >> (index % 8)) & 1 == 1
        };
        Assignment {
            true_variables: (1..=variable_count).filter(is_set).collect(),
        }
    }

    /// The literal is true.
    pub fn makes_true(&self, literal: &Literal) -> bool {
        self.true_variables.contains(&literal.variable()) == literal.is_positive()
    }

    /// At least one literal of the clause is true (document 01: the arrangement keeps the rule).
    pub fn satisfies(&self, clause: &BTreeSet<Literal>) -> bool {
        clause.iter().any(|literal| self.makes_true(literal))
    }

    /// The standing loss, and the costs of the true variables.
    pub fn cost(&self, sheet: &Sheet) -> u128 {
        let costs = self.true_variables.iter().map(|v| sheet.cost(*v));
        sheet.standing_loss() + costs.sum::<u128>()
    }
}
