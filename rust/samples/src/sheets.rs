//! Random problems of many shapes, half of them with a standing loss.

use crate::random::Random;
use planner::{Literal, Problem, MOST_VARIABLES};

/// How costs are drawn.
#[derive(Clone, Copy, Debug)]
pub enum Costs {
    Zero,
    Equal,
    /// 0 to 2, so that a sum is met in many ways.
    Few,
    /// 0 to 9, so that ties and zeros are common.
    Small,
    /// The whole range, with both ends more often than chance would give them.
    Any,
    /// So large that two of them leave 32 bits.
    Large,
    /// As large as can be.
    Largest,
}

#[derive(Clone, Copy, Debug)]
pub struct Shape {
    pub variables: usize,
    pub clauses: usize,
    pub shortest: usize,
    pub longest: usize,
    /// The share of positive literals in 100.
    pub positive: usize,
    pub costs: Costs,
}

/// A problem without a loss.
pub fn problem(shape: &Shape, random: &mut Random) -> Problem {
    let costs = (0..shape.variables)
        .map(|_| cost(shape.costs, random))
        .collect();
    let clauses = (0..shape.clauses).map(|_| clause(shape, random)).collect();
    Problem {
        loss: None,
        costs,
        clauses,
    }
}

fn cost(costs: Costs, random: &mut Random) -> u32 {
    let any = random.next_u64() as u32;
    match (costs, random.below(4)) {
        (Costs::Zero, _) => 0,
        (Costs::Equal, _) => 1,
        (Costs::Few, _) => any % 3,
        (Costs::Small, _) => any % 10,
        (Costs::Any, 0) => 0,
        (Costs::Any, 1) => u32::MAX,
        (Costs::Any, _) => any,
        (Costs::Large, place) => u32::MAX - place as u32,
        (Costs::Largest, _) => u32::MAX,
    }
}

/// Draws distinct variables; a clause longer than there are variables is cut.
fn clause(shape: &Shape, random: &mut Random) -> Vec<Literal> {
    let length = random
        .between(shape.shortest, shape.longest)
        .min(shape.variables);
    let mut drawn: Vec<usize> = Vec::with_capacity(length);
    while drawn.len() < length {
        let variable = random.between(1, shape.variables);
        if !drawn.contains(&variable) {
            drawn.push(variable);
        }
    }
    drawn.sort_unstable();
    let polarity = |variable| Literal::new(variable, random.percent(shape.positive));
    drawn.into_iter().map(polarity).collect()
}

fn some_costs(random: &mut Random) -> Costs {
    [
        Costs::Small,
        Costs::Equal,
        Costs::Any,
        Costs::Large,
        Costs::Small,
    ][random.below(5)]
}

/// No loss in half of the cases; else 0, which is marked and costs nothing, a small one, any, or the largest.
pub fn some_loss(random: &mut Random) -> Option<u32> {
    let any = random.next_u64() as u32;
    match random.below(8) {
        0..=3 => None,
        4 => Some(0),
        5 => Some(1 + any % 9),
        6 => Some(any),
        _ => Some(u32::MAX),
    }
}

/// The sorts of losses that are drawn.
pub const LOSS_SORTS: [&str; 5] = ["no mark", "0", "small", "any", "largest"];

/// Which of them a loss is.
pub fn loss_sort(loss: Option<u32>) -> &'static str {
    let place = match loss {
        None => 0,
        Some(0) => 1,
        Some(1..=9) => 2,
        Some(u32::MAX) => 4,
        Some(_) => 3,
    };
    LOSS_SORTS[place]
}

/// A problem of the shape, and a loss or none. It is drawn last, so that the rest is what it would be without.
fn with_some_loss(shape: &Shape, random: &mut Random) -> Problem {
    let mut problem = problem(shape, random);
    problem.loss = some_loss(random);
    problem
}

/// 1 to 12 variables, now and then up to 16; some cannot be satisfied, some hold empty clauses.
pub fn small(random: &mut Random) -> Problem {
    let variables = if random.percent(4) {
        random.between(13, 16)
    } else {
        random.between(1, 12)
    };
    let clauses = match random.below(10) {
        0 => random.below(3),
        1 => 5 * variables + random.below(8),
        _ => random.between(1, 2 * variables + 2),
    };
    let shortest = if random.percent(3) {
        0
    } else {
        random.between(1, 3)
    };
    let longest = random.between(shortest.max(2), 5);
    let positive = [30, 50, 60, 70, 85, 100][random.below(6)];
    let costs = some_costs(random);
    let shape = Shape {
        variables,
        clauses,
        shortest,
        longest,
        positive,
        costs,
    };
    with_some_loss(&shape, random)
}

/// 17 to 40 variables with enough clauses to need a search.
pub fn middle(random: &mut Random) -> Problem {
    let shape = middle_shape(random);
    with_some_loss(&shape, random)
}

/// The shape of such a problem.
pub fn middle_shape(random: &mut Random) -> Shape {
    let variables = random.between(17, 40);
    let clauses = random.between(variables, 3 * variables);
    let positive = random.between(50, 80);
    let costs = some_costs(random);
    Shape {
        variables,
        clauses,
        shortest: 2,
        longest: 4,
        positive,
        costs,
    }
}

/// Up to as many variables as a sheet may have, and mostly that many, with few clauses. Now and then everything costs as much
/// as it may.
pub fn wide(random: &mut Random) -> Problem {
    let most = MOST_VARIABLES;
    let variables = [most, most, most - 1, random.between(41, most - 2)][random.below(4)];
    let clauses = random.between(10, 60);
    let costs = some_costs(random);
    let mut shape = Shape {
        variables,
        clauses,
        shortest: 2,
        longest: 4,
        positive: 50,
        costs,
    };
    if random.percent(20) {
        (shape.variables, shape.costs) = (most, Costs::Largest);
        let mut largest = problem(&shape, random);
        largest.loss = Some(u32::MAX);
        return largest;
    }
    with_some_loss(&shape, random)
}

/// The shape under the long records: long clauses over many variables, soon settled.
pub const ROOMY: Shape = Shape {
    variables: 200,
    clauses: 150,
    shortest: 3,
    longest: 6,
    positive: 50,
    costs: Costs::Any,
};

/// The shape under the records of long steps: clauses of 20 to 40 literals, over so many variables that several of them can be
/// independent.
pub const LENGTHY: Shape = Shape {
    variables: 1_000,
    clauses: 200,
    shortest: 20,
    longest: 40,
    positive: 80,
    costs: Costs::Any,
};
