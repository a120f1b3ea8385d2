//! Up to 10 variables and 12 clauses of up to 4 literals: so small that a search is soon made with every budget.

use super::{some_values, sorted, Shape};
use crate::random::Random;
use crate::sheets::{self, some_loss, Costs};
use crate::writing::listings::shuffle;
use planner::{Literal, Problem};

pub const MOST_VARIABLES: usize = 10;
pub const MOST_CLAUSES: usize = 12;
pub const LONGEST: usize = 4;

pub const SHAPES: &[Shape] = &[
    ("any", any),
    ("dearer and dearer", dearer),
    ("no costs", |random| with_costs(Costs::Zero, random)),
    ("equal costs", |random| with_costs(Costs::Equal, random)),
    ("few costs", |random| with_costs(Costs::Few, random)),
    ("forced", forced),
    ("forced to a false clause", forced_to_false),
    ("contradictory", contradictory),
];

/// Mostly without an empty clause and without clauses of one literal, so that something is left to be chosen.
fn shape(costs: Costs, random: &mut Random) -> sheets::Shape {
    let shortest = [0, 1, 2, 2, 2, 2][random.below(6)];
    sheets::Shape {
        variables: random.between(1, MOST_VARIABLES),
        clauses: random.between(0, MOST_CLAUSES),
        shortest,
        longest: random.between(shortest.max(2), LONGEST),
        positive: [30, 50, 70, 85, 100][random.below(5)],
        costs,
    }
}

fn with_costs(costs: Costs, random: &mut Random) -> Problem {
    let shape = shape(costs, random);
    let mut problem = sheets::problem(&shape, random);
    problem.loss = some_loss(random);
    problem
}

/// Any of the costs.
pub fn any(random: &mut Random) -> Problem {
    let costs = [Costs::Few, Costs::Small, Costs::Any, Costs::Large][random.below(4)];
    with_costs(costs, random)
}

/// Late variables are tried as true before early ones. Where they cost more, a plan is given up for a cheaper one, and that
/// again.
fn dearer(random: &mut Random) -> Problem {
    let mut shape = shape(Costs::Small, random);
    shape.variables = random.between(4, MOST_VARIABLES);
    (shape.shortest, shape.longest) = (2, 3);
    let mut problem = sheets::problem(&shape, random);
    problem.costs.sort_unstable();
    problem.loss = some_loss(random);
    problem
}

/// One plan, to which the clauses force all variables before anything is chosen.
fn forced(random: &mut Random) -> Problem {
    let variables = random.between(1, MOST_VARIABLES);
    let values = some_values(variables, random);
    let costs = (0..variables).map(|_| random.below(10) as u32).collect();
    let mut clauses = forcing(&values, random);
    shuffle(&mut clauses, random);
    Problem {
        loss: some_loss(random),
        costs,
        clauses,
    }
}

/// A clause for each variable. It holds the literal that is true, and some that are false of variables that come before it in
/// an order of its own.
fn forcing(values: &[bool], random: &mut Random) -> Vec<Vec<Literal>> {
    let mut left: Vec<usize> = (1..=values.len()).collect();
    let mut before: Vec<Literal> = Vec::new();
    let mut clauses = Vec::new();
    while !left.is_empty() {
        let variable = left.swap_remove(random.below(left.len()));
        let literal = Literal::new(variable, values[variable - 1]);
        let count = random.below(LONGEST).min(before.len());
        let last = before.iter().rev().take(count);
        let clause = last.map(|literal| literal.negated()).chain([literal]);
        clauses.push(sorted(clause.collect()));
        before.push(literal);
    }
    clauses
}

/// The same with a clause that the forced values make false.
fn forced_to_false(random: &mut Random) -> Problem {
    let variables = random.between(1, MOST_VARIABLES);
    let values = some_values(variables, random);
    let mut clauses = forcing(&values, random);
    let count = random.between(1, LONGEST.min(variables));
    let first = random.between(1, variables - count + 1);
    let is_false = |variable| Literal::new(variable, !values[variable - 1]);
    clauses.push((first..first + count).map(is_false).collect());
    shuffle(&mut clauses, random);
    Problem {
        loss: some_loss(random),
        costs: vec![1; variables],
        clauses,
    }
}

/// Every sign of up to three variables, among other clauses: no plan exists, and to see it takes choices.
fn contradictory(random: &mut Random) -> Problem {
    let mut shape = shape(Costs::Few, random);
    let count = random.between(1, 3);
    shape.variables = random.between(count, MOST_VARIABLES);
    shape.clauses = random.between(0, MOST_CLAUSES - (1 << count));
    (shape.shortest, shape.longest) = (2, 3);
    let mut problem = sheets::problem(&shape, random);
    let first = random.between(1, shape.variables - count + 1);
    for signs in 0..1 << count {
        let literal = |place: usize| Literal::new(first + place, signs >> place & 1 == 1);
        problem.clauses.push((0..count).map(literal).collect());
    }
    shuffle(&mut problem.clauses, random);
    problem.loss = some_loss(random);
    problem
}
