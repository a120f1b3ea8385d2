//! Random covering problems, and the reference checker's word on their records.
// Not every program needs all of it.
#![allow(dead_code)]

use planner::random::Random;
use planner::{format, Literal, Problem};

/// What problems are given in turn: no standing loss, and then those of marked sheets, 0, a small one and the largest.
pub const LOSSES: [Option<u32>; 4] = [None, Some(0), Some(7), Some(u32::MAX)];

#[derive(Clone, Copy, Debug)]
pub struct Shape {
    pub variables: usize,
    pub clauses: usize,
    /// The fewest and the most literals of a clause.
    pub lengths: [usize; 2],
    /// The share of positive literals in 100.
    pub positive: usize,
    /// Costs are from 1 to this.
    pub dearest: usize,
}

/// The clause of these literals, negative numbers for negative ones.
pub fn clause(literals: &[i32]) -> Vec<Literal> {
    let read = |literal: &i32| Literal::new(literal.unsigned_abs() as usize, *literal > 0);
    literals.iter().map(read).collect()
}

pub fn problem(shape: &Shape, random: &mut Random) -> Problem {
    let costs = (0..shape.variables)
        .map(|_| random.between(1, shape.dearest) as u32)
        .collect();
    let clauses = (0..shape.clauses).map(|_| drawn(shape, random)).collect();
    Problem {
        loss: None,
        costs,
        clauses,
    }
}

fn drawn(shape: &Shape, random: &mut Random) -> Vec<Literal> {
    let length = random.between(shape.lengths[0], shape.lengths[1]);
    let mut literals: Vec<Literal> = Vec::with_capacity(length);
    while literals.len() < length {
        let variable = random.between(1, shape.variables);
        if literals.iter().all(|held| held.variable() != variable) {
            literals.push(Literal::new(variable, random.percent(shape.positive)));
        }
    }
    literals.sort_unstable();
    literals
}

/// Least or none: a record within a gap is not accepted.
pub fn accepted(problem: &Problem, record: &[u8]) -> bool {
    reference::judge(&format::sheet(problem), record).accepts()
}
