//! Reading a sheet: refusals 2, 3 and 4.

use crate::layout::{self, length, number, Bodies};
use crate::literal::{read_literals, Literal};
use crate::refusal::{refuse, Refusal, RULE_FORM, SHEET_HEAD, SHEET_PAIRS};
use std::collections::BTreeSet;

/// As many variables and clauses as a sheet may have.
const MOST_VARIABLES: u64 = 1_024;
const MOST_CLAUSES: u64 = 4_096;

/// The highest bit of the n field. Where it is set, the sheet is marked: n is the rest of the field, and a standing
/// loss follows the costs.
pub(crate) const MARK: u64 = 0x8000;

/// How many bytes a standing loss takes.
pub(crate) const LOSS_SIZE: usize = 4;

/// A valid sheet. Variables and clauses are numbered from 1, so each stands at its number less 1.
pub(crate) struct Sheet<'a> {
    costs: Vec<u64>,
    standing_loss: u64,
    bodies: Bodies<'a>,
    clauses: Vec<BTreeSet<Literal>>,
}

impl<'a> Sheet<'a> {
    pub fn variable_count(&self) -> u32 {
        self.costs.len() as u32
    }

    /// The cost of a variable from 1 to n.
    pub fn cost(&self, variable: u32) -> u128 {
        u128::from(self.costs[variable as usize - 1])
    }

    /// What every assignment costs before any variable is true: 0 for an unmarked sheet. A marked one may have the loss
    /// 0 as well, and means the same by it.
    pub fn standing_loss(&self) -> u128 {
        u128::from(self.standing_loss)
    }

    pub fn clauses(&self) -> &[BTreeSet<Literal>] {
        &self.clauses
    }

    /// The clause of a number from 1 to m.
    pub fn clause(&self, clause_number: u64) -> &BTreeSet<Literal> {
        &self.clauses[clause_number as usize - 1]
    }

    /// The stored literals of the clause of a number from 1 to m, as a part of the sheet.
    pub fn body(&self, clause_number: u64) -> &'a [u8] {
        self.bodies.body(clause_number)
    }
}

/// The mark, n and m, once the costs, the loss and the pairs are known to be there.
struct Head {
    is_marked: bool,
    variable_count: u32,
    clause_count: u64,
}

impl Head {
    fn costs_end(&self) -> usize {
        4 + 4 * self.variable_count as usize
    }

    fn pairs_start(&self) -> usize {
        if self.is_marked {
            self.costs_end() + LOSS_SIZE
        } else {
            self.costs_end()
        }
    }
}

/// The sheet, or the first of refusals 2 to 4 that it meets.
pub(crate) fn read(file: &[u8]) -> Result<Sheet<'_>, Refusal> {
    let head = read_head(file)?;
    let bodies = read_bodies(file, &head)?;
    let clauses = read_clauses(&bodies, head.variable_count)?;
    let costs = file[4..head.costs_end()].chunks_exact(4).map(number);
    // An unmarked sheet has no bytes here, and the number that no bytes store is 0.
    let standing_loss = number(&file[head.costs_end()..head.pairs_start()]);
    Ok(Sheet {
        costs: costs.collect(),
        standing_loss,
        bodies,
        clauses,
    })
}

/// Refusal 2.
fn read_head(file: &[u8]) -> Result<Head, Refusal> {
    if file.len() < 4 {
        return refuse(SHEET_HEAD, 0);
    }
    let field = number(&file[0..2]);
    let is_marked = field & MARK != 0;
    let variable_count = field & !MARK;
    let clause_count = number(&file[2..4]);
    if !(1..=MOST_VARIABLES).contains(&variable_count) || clause_count > MOST_CLAUSES {
        return refuse(SHEET_HEAD, 0);
    }
    let head = Head {
        is_marked,
        variable_count: variable_count as u32,
        clause_count,
    };
    if length(file) < layout::pairs_end(head.pairs_start(), clause_count) {
        return refuse(SHEET_HEAD, 0);
    }
    Ok(head)
}

/// Refusal 3.
fn read_bodies<'a>(file: &'a [u8], head: &Head) -> Result<Bodies<'a>, Refusal> {
    match layout::read_bodies(file, head.pairs_start(), head.clause_count) {
        Ok(bodies) => Ok(bodies),
        Err(clause_number) => refuse(SHEET_PAIRS, clause_number),
    }
}

/// Refusal 4, over all clauses.
fn read_clauses(bodies: &Bodies, variable_count: u32) -> Result<Vec<BTreeSet<Literal>>, Refusal> {
    let mut clauses = Vec::new();
    for clause_number in 1..=bodies.count() {
        match read_literals(bodies.body(clause_number), variable_count) {
            Some(clause) => clauses.push(clause),
            None => return refuse(RULE_FORM, clause_number),
        }
    }
    Ok(clauses)
}
