//! One step: its form, its citations, and the numbers of its kind (refusals 8, 9, 12 to 18 and 20 to 24).

use crate::cost_clause::CostClause;
use crate::independent;
use crate::layout::number;
use crate::literal::{read_literals, Literal};
use crate::refusal::{CITATION, COPY, COST_BOUND, STEP_FORM};
use crate::resolution;
use crate::sheet::Sheet;
use crate::weighted::{self, Entry, DIVISOR_SIZE, ENTRY_SIZE};
use crate::NONE;
use std::collections::BTreeSet;

/// What a step rests on: its kind with the tail of that kind.
pub(crate) enum Inference {
    /// Kind 1: a clause of the sheet, by its number.
    Clause(u64),
    /// Kind 2: the costs, and the standing loss, without any clause.
    Cost,
    /// Kind 3: clauses of the sheet that form an independent set, by their numbers.
    IndependentSet(Vec<u64>),
    /// Kind 4: two steps, by their numbers (a holds the pivot positive, b negative), and the pivot.
    Resolution { a: u64, b: u64, pivot: u32 },
    /// Kind 5: a divisor, and clauses of the sheet with their weights.
    WeightedClauses { divisor: u64, entries: Vec<Entry> },
}

/// A step body, read. `literal_bytes` is the part of it that holds the literals.
pub(crate) struct Step<'a> {
    pub cost_clause: CostClause,
    pub literal_bytes: &'a [u8],
    pub inference: Inference,
}

/// The cost clause of the step that follows the `earlier` ones, or the number of the first refusal it meets.
pub(crate) fn check(sheet: &Sheet, earlier: &[CostClause], body: &[u8]) -> Result<CostClause, u32> {
    let Some(step) = read(body, sheet.variable_count()) else {
        return Err(STEP_FORM);
    };
    let clause_count = sheet.clauses().len() as u64;
    let step_number = earlier.len() as u64 + 1;
    if !citations_hold(&step.inference, clause_count, step_number) {
        return Err(CITATION);
    }
    check_inference(sheet, earlier, &step)?;
    Ok(step.cost_clause)
}

/// The head of a body: the kind, a zero, the number of literals in 2 bytes and the bound in 8.
pub(crate) const HEAD_SIZE: usize = 12;

/// The step, or `None` where its form is wrong (refusal 8).
pub(crate) fn read(body: &[u8], variable_count: u32) -> Option<Step<'_>> {
    let head = body.get(..HEAD_SIZE)?;
    if head[1] != 0 {
        return None;
    }
    let literals_end = HEAD_SIZE + 2 * number(&head[2..4]) as usize;
    let literal_bytes = body.get(HEAD_SIZE..literals_end)?;
    let tail = &body[literals_end..];
    Some(Step {
        cost_clause: CostClause {
            literals: read_literals(literal_bytes, variable_count)?,
            bound: number(&head[4..12]),
        },
        literal_bytes,
        inference: read_inference(head[0], tail)?,
    })
}

/// The tail as its kind has it, or `None` where the kind is unknown or the tail's length is not that kind's.
fn read_inference(kind: u8, tail: &[u8]) -> Option<Inference> {
    match (kind, tail.len()) {
        (1, 4) => Some(Inference::Clause(number(tail))),
        (2, 0) => Some(Inference::Cost),
        (3, length) if length > 0 && length.is_multiple_of(4) => {
            let clauses = tail.chunks_exact(4).map(number).collect();
            Some(Inference::IndependentSet(clauses))
        }
        (4, 10) => Some(Inference::Resolution {
            a: number(&tail[0..4]),
            b: number(&tail[4..8]),
            pivot: number(&tail[8..10]) as u32,
        }),
        (5, _) => read_weighted(tail),
        _ => None,
    }
}

/// A tail of kind 5, which has one entry at least.
fn read_weighted(tail: &[u8]) -> Option<Inference> {
    let divisor = tail.get(..DIVISOR_SIZE)?;
    let entries = &tail[DIVISOR_SIZE..];
    if entries.is_empty() || !entries.len().is_multiple_of(ENTRY_SIZE) {
        return None;
    }
    Some(Inference::WeightedClauses {
        divisor: number(divisor),
        entries: entries.chunks_exact(ENTRY_SIZE).map(Entry::read).collect(),
    })
}

/// Refusal 9 does not apply: clauses are cited from 1 to m and, in a list, rising strictly; steps from 1 to the
/// one before this.
fn citations_hold(inference: &Inference, clause_count: u64, step_number: u64) -> bool {
    let is_clause = |cited: u64| (1..=clause_count).contains(&cited);
    let is_earlier_step = |cited: u64| (1..step_number).contains(&cited);
    let is_list = |clauses: &[u64]| {
        let all_exist = clauses.iter().all(|clause| is_clause(*clause));
        all_exist && clauses.windows(2).all(|two| two[0] < two[1])
    };
    match inference {
        Inference::Clause(clause) => is_clause(*clause),
        Inference::Cost => true,
        Inference::IndependentSet(clauses) => is_list(clauses),
        Inference::Resolution { a, b, .. } => is_earlier_step(*a) && is_earlier_step(*b),
        Inference::WeightedClauses { entries, .. } => {
            let clauses: Vec<u64> = entries.iter().map(|entry| entry.clause).collect();
            is_list(&clauses)
        }
    }
}

/// Refusals 12 to 18 and 20 to 24: those of the step's own kind, in the order of the kind.
fn check_inference(sheet: &Sheet, earlier: &[CostClause], step: &Step) -> Result<(), u32> {
    let conclusion = &step.cost_clause;
    match &step.inference {
        Inference::Clause(clause) => check_copy(sheet.clause(*clause), conclusion),
        Inference::Cost => check_cost_bound(sheet, conclusion),
        Inference::IndependentSet(clauses) => independent::check(sheet, clauses, conclusion),
        Inference::Resolution { a, b, pivot } => {
            let premise = |cited: &u64| &earlier[*cited as usize - 1];
            resolution::check(premise(a), premise(b), *pivot, conclusion)
        }
        Inference::WeightedClauses { divisor, entries } => {
            weighted::check(sheet, *divisor, entries, conclusion)
        }
    }
}

/// Refusal 12.
fn check_copy(clause: &BTreeSet<Literal>, conclusion: &CostClause) -> Result<(), u32> {
    if conclusion.literals == *clause && conclusion.bound == NONE {
        Ok(())
    } else {
        Err(COPY)
    }
}

/// Refusal 13: making a negative literal false makes its variable true, and that is what has to be paid beside the
/// standing loss.
fn check_cost_bound(sheet: &Sheet, conclusion: &CostClause) -> Result<(), u32> {
    let negative = conclusion.literals.iter().filter(|l| !l.is_positive());
    let sum: u128 = negative.map(|literal| sheet.cost(literal.variable())).sum();
    if u128::from(conclusion.bound) == sheet.standing_loss() + sum {
        Ok(())
    } else {
        Err(COST_BOUND)
    }
}
