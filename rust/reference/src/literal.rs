//! Literals, and lists of them as both files store them.

use crate::layout::number;
use std::collections::BTreeSet;

/// A literal, held as its stored code: twice the variable, plus 1 if it is negative.
///
/// The code is wider than the 2 bytes it is stored in because a pivot of 2 bytes stands for codes up to 131,071.
#[derive(Clone, Copy, Debug, PartialEq, Eq, PartialOrd, Ord)]
pub(crate) struct Literal {
    code: u32,
}

impl Literal {
    /// "v open".
    pub fn positive(variable: u32) -> Literal {
        Literal { code: 2 * variable }
    }

    /// "v shut".
    pub fn negative(variable: u32) -> Literal {
        Literal {
            code: 2 * variable + 1,
        }
    }

    pub fn code(self) -> u32 {
        self.code
    }

    pub fn variable(self) -> u32 {
        self.code / 2
    }

    pub fn is_positive(self) -> bool {
        self.code.is_multiple_of(2)
    }
}

/// The set that a stored literal list means, or `None` if it is not such a list: an odd number of bytes, a
/// variable outside 1 to `variable_count`, or variables that do not rise strictly.
pub(crate) fn read_literals(bytes: &[u8], variable_count: u32) -> Option<BTreeSet<Literal>> {
    if !bytes.len().is_multiple_of(2) {
        return None;
    }
    let mut literals = BTreeSet::new();
    let mut previous_variable = 0;
    for stored in bytes.chunks_exact(2) {
        let literal = Literal {
            code: number(stored) as u32,
        };
        // Rising from 0 also rules out variable 0.
        let rises = literal.variable() > previous_variable;
        if !rises || literal.variable() > variable_count {
            return None;
        }
        previous_variable = literal.variable();
        literals.insert(literal);
    }
    Some(literals)
}
