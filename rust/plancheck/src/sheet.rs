//! A sheet taken apart for showing and planning.

use crate::bodies::{u16_at, u32_at, Bodies};
use planner::format::MARK;
use planner::{Literal, Problem};

/// Where the costs begin, and how many bytes one of them takes, as the loss does.
const COSTS: usize = 4;
const COST: usize = 4;

/// A sheet as far as its head can be read; the rest is looked up when asked for.
#[derive(Clone, Copy, Debug)]
pub struct Sheet<'a> {
    bytes: &'a [u8],
    /// Whether the mark is set, so that a loss follows the costs.
    pub marked: bool,
    pub variables: usize,
    pub clauses: Bodies<'a>,
}

impl<'a> Sheet<'a> {
    /// Nothing where the file is too short for the two counts.
    pub fn open(bytes: &'a [u8]) -> Option<Self> {
        let field = u16_at(bytes, 0)?;
        let count = usize::from(u16_at(bytes, 2)?);
        let marked = field & MARK != 0;
        let variables = usize::from(field & !MARK);
        let numbers = variables + usize::from(marked);
        Some(Sheet {
            bytes,
            marked,
            variables,
            clauses: Bodies::new(bytes, COSTS + COST * numbers, count),
        })
    }

    pub fn cost(&self, variable: usize) -> Option<u32> {
        if variable == 0 || variable > self.variables {
            return None;
        }
        u32_at(self.bytes, COSTS + COST * (variable - 1))
    }

    /// The loss of a marked sheet, where the file is long enough for it.
    pub fn loss(&self) -> Option<u32> {
        let place = COSTS + COST * self.variables;
        u32_at(self.bytes, place).filter(|_| self.marked)
    }

    /// What every assignment costs before any variable does.
    pub fn standing_loss(&self) -> u64 {
        self.loss().map_or(0, u64::from)
    }

    /// A clause's literals, where its body can be read as such.
    pub fn clause(&self, number: usize) -> Option<Vec<Literal>> {
        literals(self.clauses.body(number)?)
    }

    /// The problem of a valid sheet.
    pub fn problem(&self) -> Option<Problem> {
        let costs = (1..=self.variables).map(|variable| self.cost(variable));
        let clauses = (1..=self.clauses.count()).map(|number| self.clause(number));
        Some(Problem {
            loss: self.loss(),
            costs: costs.collect::<Option<_>>()?,
            clauses: clauses.collect::<Option<_>>()?,
        })
    }
}

/// Whether a file has the mark, as far as a sheet can be made out in it.
pub fn is_marked(bytes: &[u8]) -> bool {
    Sheet::open(bytes).is_some_and(|sheet| sheet.marked)
}

/// Codes as literals, in the order that they are stored. A code of variable 0 is no literal.
pub fn literals(bytes: &[u8]) -> Option<Vec<Literal>> {
    if !bytes.len().is_multiple_of(2) {
        return None;
    }
    bytes
        .chunks_exact(2)
        .map(|pair| literal(u16::from_le_bytes([pair[0], pair[1]])))
        .collect()
}

fn literal(code: u16) -> Option<Literal> {
    let variable = usize::from(code / 2);
    (variable > 0).then(|| Literal::new(variable, code.is_multiple_of(2)))
}
