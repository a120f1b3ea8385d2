//! As many variables, or as many clauses, as a search takes. So much is forced that few choices are needed.

use super::{some_values, sorted, Shape, MOST_SEARCHED};
use crate::random::Random;
use crate::sheets::{self, some_loss, Costs};
use crate::writing::listings::shuffle;
use planner::{Literal, Problem, MOST_CLAUSES};

pub const SHAPES: &[Shape] = &[
    ("64 variables", |random| tied(MOST_SEARCHED, random)),
    ("63 variables", |random| tied(MOST_SEARCHED - 1, random)),
    ("64 variables, as dear as can be", dearest),
    ("64 variables, hardly one forced", free),
    ("most clauses, with a plan", |random| {
        most_clauses(random, true)
    }),
    ("most clauses", |random| most_clauses(random, false)),
    ("most clauses, few of them different", few_different),
];

/// How many variables decide on the others at most.
const FREE: usize = 5;

/// A few variables, at any places, decide on all others: each of these is fixed, or goes with one of the few or against it.
/// Some further clauses are about any of them.
pub fn tied(variables: usize, random: &mut Random) -> Problem {
    let mut problem = sheets::problem(&further(variables, random), random);
    let mut places: Vec<usize> = (1..=variables).collect();
    shuffle(&mut places, random);
    let (free, others) = places.split_at(random.between(1, FREE));
    for variable in others {
        let literal = Literal::new(*variable, random.percent(50));
        if random.percent(20) {
            problem.clauses.push(vec![literal]);
        } else {
            let other = Literal::positive(free[random.below(free.len())]);
            problem.clauses.extend(tie(literal, other));
        }
    }
    shuffle(&mut problem.clauses, random);
    problem.loss = some_loss(random);
    problem
}

fn further(variables: usize, random: &mut Random) -> sheets::Shape {
    sheets::Shape {
        variables,
        clauses: random.below(10),
        shortest: 2,
        longest: 3,
        positive: 60,
        costs: [Costs::Zero, Costs::Equal, Costs::Few, Costs::Any][random.below(4)],
    }
}

/// Both literals are true, or none.
fn tie(one: Literal, other: Literal) -> [Vec<Literal>; 2] {
    [[one, other.negated()], [one.negated(), other]].map(|clause| sorted(clause.to_vec()))
}

/// Everything is true in the only plan, and costs as much as it may.
fn dearest(random: &mut Random) -> Problem {
    let first = random.between(1, MOST_SEARCHED);
    let others = (1..=MOST_SEARCHED).filter(|variable| *variable != first);
    let with_first = |other| tie(Literal::positive(first), Literal::positive(other));
    let mut clauses: Vec<Vec<Literal>> = others.flat_map(with_first).collect();
    // The last two are no unit clause: a choice is needed.
    clauses.push(
        [MOST_SEARCHED - 1, MOST_SEARCHED]
            .map(Literal::positive)
            .to_vec(),
    );
    shuffle(&mut clauses, random);
    Problem {
        loss: Some(u32::MAX),
        costs: vec![u32::MAX; MOST_SEARCHED],
        clauses,
    }
}

/// Each clause has a negative literal. So everything false is the first plan, and none is cheaper: the search goes as deep as
/// there are variables, and leaves every other branch at once.
fn free(random: &mut Random) -> Problem {
    let mut shape = further(MOST_SEARCHED, random);
    shape.clauses = random.below(20);
    let mut problem = sheets::problem(&shape, random);
    for clause in &mut problem.clauses {
        let place = random.below(clause.len());
        clause[place] = Literal::negative(clause[place].variable());
    }
    problem.loss = some_loss(random);
    problem
}

/// As many clauses as there may be, mostly different. Where there is to be a plan, what it makes false is turned round.
fn most_clauses(random: &mut Random, has_plan: bool) -> Problem {
    let shape = sheets::Shape {
        variables: random.between(8, MOST_SEARCHED),
        clauses: MOST_CLAUSES,
        shortest: 3,
        longest: 4,
        positive: 50,
        costs: Costs::Small,
    };
    let mut problem = sheets::problem(&shape, random);
    let plan = some_values(shape.variables, random);
    for clause in &mut problem.clauses {
        let is_false = clause.iter().all(|literal| !literal.is_true(&plan));
        if has_plan && is_false {
            let place = random.below(clause.len());
            clause[place] = clause[place].negated();
        }
    }
    problem.loss = some_loss(random);
    problem
}

/// A small problem whose clauses come again until there are as many as there may be.
fn few_different(random: &mut Random) -> Problem {
    let shape = sheets::Shape {
        variables: random.between(6, 10),
        clauses: random.between(6, 12),
        shortest: 2,
        longest: 3,
        positive: 80,
        costs: Costs::Few,
    };
    let mut problem = sheets::problem(&shape, random);
    while problem.clauses.len() < MOST_CLAUSES {
        let again = problem.clauses[random.below(shape.clauses)].clone();
        problem.clauses.push(again);
    }
    shuffle(&mut problem.clauses, random);
    problem.loss = some_loss(random);
    problem
}
