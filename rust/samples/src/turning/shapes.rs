//! Sheets to turn variables of: with every number of spare bits, with clauses of no literal, of one, and of all variables, and as
//! large as they may be.

use crate::random::Random;
use crate::sheets::{self, some_loss};
use crate::writing::Listing;
use planner::{format, Problem, MOST_CLAUSES, MOST_VARIABLES};

/// How a sheet is made, by a name.
pub type Shape = (&'static str, fn(&mut Random) -> Listing);

/// Sheets that are soon turned.
pub const SHAPES: &[Shape] = &[
    ("small", |random| listed(&sheets::small(random))),
    ("middle", |random| listed(&sheets::middle(random))),
    ("one variable", |random| mixed(1, random)),
    ("no spare bit", |random| {
        mixed([8, 16, 24][random.below(3)], random)
    }),
    ("seven spare bits", |random| {
        mixed([9, 17, 25][random.below(3)], random)
    }),
    ("no clauses", |random| {
        let variables = random.between(1, 40);
        of(variables, Vec::new(), random)
    }),
    ("empty clauses alone", |random| {
        let variables = random.between(1, 20);
        let clauses = vec![Vec::new(); random.between(1, 5)];
        of(variables, clauses, random)
    }),
    ("one literal in each clause", |random| of_length(1, random)),
    ("all variables in each clause", |random| {
        of_length(usize::MAX, random)
    }),
    ("equal clauses", equal),
    ("unmentioned variables", unmentioned),
];

/// Sheets of as many variables or clauses as there may be, which take longer.
pub const LARGE: &[Shape] = &[
    ("wide", |random| listed(&sheets::wide(random))),
    ("most variables", most_variables),
    ("most clauses", most_clauses),
];

fn listed(problem: &Problem) -> Listing {
    Listing::read(&format::sheet(problem)).expect("a sheet in form")
}

fn of(variables: usize, clauses: Vec<Vec<u16>>, random: &mut Random) -> Listing {
    Listing {
        loss: some_loss(random),
        costs: (0..variables).map(|_| random.next_u64() as u32).collect(),
        clauses,
    }
}

/// A clause of so many literals, or of all variables where there are not so many.
fn clause(variables: usize, length: usize, random: &mut Random) -> Vec<u16> {
    let mut left = length.min(variables);
    let mut codes = Vec::with_capacity(left);
    for variable in 1..=variables {
        // So many variables are left to take the rest from.
        if random.below(variables - variable + 1) < left {
            codes.push((2 * variable + random.below(2)) as u16);
            left -= 1;
        }
    }
    codes
}

/// Clauses of every length.
fn mixed(variables: usize, random: &mut Random) -> Listing {
    let count = random.below(12);
    let mut clauses = Vec::new();
    for _ in 0..count {
        let length = [0, 1, 2, random.below(variables + 1), variables][random.below(5)];
        clauses.push(clause(variables, length, random));
    }
    of(variables, clauses, random)
}

fn of_length(length: usize, random: &mut Random) -> Listing {
    let (variables, count) = (random.between(1, 30), random.between(1, 12));
    let clauses = (0..count).map(|_| clause(variables, length, random));
    let clauses = clauses.collect();
    of(variables, clauses, random)
}

/// One clause over and over.
fn equal(random: &mut Random) -> Listing {
    let variables = random.between(1, 20);
    let length = random.below(variables + 1);
    let one = clause(variables, length, random);
    let clauses = vec![one; random.between(2, 300)];
    of(variables, clauses, random)
}

/// Two variables in all clauses, and the others in none.
fn unmentioned(random: &mut Random) -> Listing {
    let variables = random.between(3, 40);
    let (first, second) = (random.between(1, variables - 1), variables);
    let mut clauses = Vec::new();
    for _ in 0..random.between(1, 8) {
        clauses.push(
            [first, second]
                .map(|v| (2 * v + random.below(2)) as u16)
                .to_vec(),
        );
    }
    of(variables, clauses, random)
}

/// With clauses of all of them, of which more literals may be true than a byte can tell.
fn most_variables(random: &mut Random) -> Listing {
    let mut clauses = Vec::new();
    for _ in 0..random.between(1, 5) {
        let length = [1, 300, MOST_VARIABLES][random.below(3)];
        clauses.push(clause(MOST_VARIABLES, length, random));
    }
    // All of its literals are true, or none, with the assignments that have all bits alike.
    let sign = random.below(2);
    clauses.push(
        (1..=MOST_VARIABLES)
            .map(|v| (2 * v + sign) as u16)
            .collect(),
    );
    of(MOST_VARIABLES, clauses, random)
}

fn most_clauses(random: &mut Random) -> Listing {
    let variables = random.between(1, 100);
    let mut clauses = Vec::new();
    for _ in 0..MOST_CLAUSES {
        let length = random.below(4);
        clauses.push(clause(variables, length, random));
    }
    of(variables, clauses, random)
}
