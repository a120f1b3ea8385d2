//! The sheets that the writers are measured on. All have as many variables as there may be; they differ in what is to be
//! sorted, and in how much of it there is.

use planner::{format, Literal, Problem, MOST_CLAUSES, MOST_VARIABLES};
use samples::random::Random;
use samples::sheets::{problem, Costs, Shape};

/// Makes so many clauses, with the costs of all variables.
pub type Make = fn(usize, &mut Random) -> Problem;

/// The sets by their names, with the number of clauses. A quarter of them shows how the time grows.
pub const SETS: [(&str, Make, usize); 21] = [
    ("random", random, MOST_CLAUSES),
    ("random-2048", random, MOST_CLAUSES / 2),
    ("random-1024", random, MOST_CLAUSES / 4),
    ("sorted", sorted, MOST_CLAUSES),
    ("sorted-1024", sorted, MOST_CLAUSES / 4),
    ("reversed", reversed, MOST_CLAUSES),
    ("reversed-1024", reversed, MOST_CLAUSES / 4),
    ("short", short, MOST_CLAUSES),
    ("short-1024", short, MOST_CLAUSES / 4),
    ("long", long, MOST_CLAUSES),
    ("long-1024", long, MOST_CLAUSES / 4),
    ("common-3", common::<3>, MOST_CLAUSES),
    ("common-3-1024", common::<3>, MOST_CLAUSES / 4),
    ("common-32", common::<32>, MOST_CLAUSES),
    ("common-32-1024", common::<32>, MOST_CLAUSES / 4),
    ("common", common::<300>, MOST_CLAUSES),
    ("common-1024", common::<300>, MOST_CLAUSES / 4),
    ("groups", groups, MOST_CLAUSES),
    ("groups-1024", groups, MOST_CLAUSES / 4),
    ("equal", equal, MOST_CLAUSES),
    ("equal-1024", equal, MOST_CLAUSES / 4),
];

const SEED: u64 = 11;

/// A sheet of a set: the same at every call, and another one for every number.
pub fn sheet(set: &str, number: u64) -> Option<Vec<u8>> {
    let (_, make, count) = SETS.into_iter().find(|(name, ..)| *name == set)?;
    let random = &mut Random::new(SEED + number);
    Some(format::sheet(&make(count, random)))
}

fn drawn(clauses: usize, shortest: usize, longest: usize, random: &mut Random) -> Problem {
    let shape = Shape {
        variables: MOST_VARIABLES,
        clauses,
        shortest,
        longest,
        positive: 50,
        costs: Costs::Any,
    };
    problem(&shape, random)
}

/// Ten literals in each clause.
fn random(count: usize, random: &mut Random) -> Problem {
    drawn(count, 10, 10, random)
}

/// The same in the order in which they are to be written.
fn sorted(count: usize, random: &mut Random) -> Problem {
    let mut problem = drawn(count, 10, 10, random);
    problem.clauses.sort();
    problem
}

/// The same from the last one to the first.
fn reversed(count: usize, random: &mut Random) -> Problem {
    let mut problem = sorted(count, random);
    problem.clauses.reverse();
    problem
}

/// Two or three literals in each clause.
fn short(count: usize, random: &mut Random) -> Problem {
    drawn(count, 2, 3, random)
}

/// A thousand literals in each clause: all variables but those that are drawn.
fn long(count: usize, random: &mut Random) -> Problem {
    let rest = MOST_VARIABLES - 1000;
    let mut problem = drawn(count, rest, rest, random);
    for clause in &mut problem.clauses {
        let missing: Vec<usize> = clause.iter().map(|drawn| drawn.variable()).collect();
        let others = (1..=MOST_VARIABLES).filter(|variable| !missing.contains(variable));
        let literal = |variable| Literal::new(variable, random.percent(50));
        *clause = others.map(literal).collect();
    }
    problem
}

/// The same literals at the beginning of each clause, so many, and up to ten behind them.
fn common<const SHARED: usize>(count: usize, random: &mut Random) -> Problem {
    let beginning: Vec<Literal> = (1..=SHARED).map(Literal::positive).collect();
    let mut problem = drawn(count, 10, 10, random);
    for clause in &mut problem.clauses {
        begin_with(&beginning, clause);
    }
    problem
}

/// One of two beginnings of three literals, which differ in the first: as many as the proved writer keeps beside a clause's
/// number, and not those of all clauses.
fn groups(count: usize, random: &mut Random) -> Problem {
    let mut problem = drawn(count, 10, 10, random);
    for clause in &mut problem.clauses {
        let first = Literal::new(1, random.percent(50));
        begin_with(&[first, Literal::positive(2), Literal::positive(3)], clause);
    }
    problem
}

/// Puts literals of the first variables in the place of those that the clause has.
fn begin_with(beginning: &[Literal], clause: &mut Vec<Literal>) {
    clause.retain(|literal| literal.variable() > beginning.len());
    clause.splice(..0, beginning.iter().copied());
}

/// One clause again and again.
fn equal(count: usize, random: &mut Random) -> Problem {
    let mut problem = drawn(1, 10, 10, random);
    problem.clauses = vec![problem.clauses.remove(0); count];
    problem
}
