//! Costs, losses and sets of clauses, of shapes that a sort can go wrong on.

use super::Content;
use crate::random::Random;
use crate::sheets::{self, Costs, Shape};
use planner::{MOST_CLAUSES, MOST_VARIABLES};
use std::ops::RangeInclusive;

/// A content of one of the shapes. Those of many clauses are rare: their sheets take long.
pub fn some(random: &mut Random) -> Content {
    match random.below(100) {
        0 => many(random),
        1..=5 => bare(random),
        6..=10 => single(random),
        11..=25 => beginnings(random),
        26..=35 => long_beginning(random),
        36..=45 => short_beginning(random),
        46..=60 => about_256(random),
        61..=65 => Content::of(&sheets::wide(random)),
        66..=75 => Content::of(&sheets::middle(random)),
        _ => Content::of(&sheets::small(random)),
    }
}

fn without_clauses(variables: usize, random: &mut Random) -> Content {
    let mut content = Content::of(&sheets::problem(&shape(variables, 0), random));
    content.loss = sheets::some_loss(random).unwrap_or(0);
    content
}

fn shape(variables: usize, clauses: usize) -> Shape {
    Shape {
        variables,
        clauses,
        shortest: 2,
        longest: 4,
        positive: 50,
        costs: Costs::Any,
    }
}

fn some_variables(random: &mut Random) -> usize {
    let any = random.between(1, MOST_VARIABLES);
    let few = random.between(1, 40);
    [1, few, few, any, MOST_VARIABLES][random.below(5)]
}

/// Literals of these variables, each there with so many in 100 and either way.
fn literals(variables: RangeInclusive<usize>, share: usize, random: &mut Random) -> Vec<u16> {
    let mut codes = Vec::new();
    for variable in variables {
        if random.percent(share) {
            codes.push((2 * variable + random.below(2)) as u16);
        }
    }
    codes
}

pub fn bare(random: &mut Random) -> Content {
    let variables = some_variables(random);
    without_clauses(variables, random)
}

/// One clause, often the empty one.
pub fn single(random: &mut Random) -> Content {
    let mut content = bare(random);
    let share = [0, 10, 50, 100][random.below(4)];
    let clause = literals(1..=content.variables(), share, random);
    content.clauses.insert(clause);
    content
}

/// Beginnings of one list, the empty one among them, and lists that leave it at their last literal.
pub fn beginnings(random: &mut Random) -> Content {
    let variables = random.between(1, 40);
    let mut content = without_clauses(variables, random);
    let whole = literals(1..=variables, 70, random);
    for end in 0..=whole.len() {
        if random.percent(60) {
            content.clauses.insert(whole[..end].to_vec());
        }
        let mut leaves = whole[..end].to_vec();
        if let Some(last) = leaves.last_mut().filter(|_| random.percent(30)) {
            *last ^= 1;
            content.clauses.insert(leaves);
        }
    }
    content
}

/// Hundreds of literals that all clauses begin with.
pub fn long_beginning(random: &mut Random) -> Content {
    let variables = random.between(300, MOST_VARIABLES);
    one_beginning(variables, random)
}

/// A few of them: a writer that looks at some codes at once has to stop between.
pub fn short_beginning(random: &mut Random) -> Content {
    let variables = random.between(13, 26);
    one_beginning(variables, random)
}

/// Literals that all clauses begin with, and then some of the last variables.
fn one_beginning(variables: usize, random: &mut Random) -> Content {
    let left = random.between(1, 12);
    let mut content = without_clauses(variables, random);
    let beginning = literals(1..=variables - left, 95, random);
    for _ in 0..random.between(2, 30) {
        let end = literals(variables - left + 1..=variables, 50, random);
        content.clauses.insert([beginning.clone(), end].concat());
    }
    content
}

/// Short clauses with codes on both sides of the multiples of 256, where numbers rise and low bytes fall. Variable 128 has the
/// code 256.
pub fn about_256(random: &mut Random) -> Content {
    let variables = random.between(129, MOST_VARIABLES);
    let mut content = without_clauses(variables, random);
    let mut near: Vec<usize> = (1..=variables).collect();
    near.retain(|variable| [127, 0, 1].contains(&(variable % 128)));
    for _ in 0..random.between(2, 40) {
        let mut drawn: Vec<usize> = (0..random.between(1, 3))
            .map(|_| near[random.below(near.len())])
            .collect();
        drawn.sort_unstable();
        drawn.dedup();
        let code = |variable| (2 * variable + random.below(2)) as u16;
        let clause = drawn.into_iter().map(code).collect();
        content.clauses.insert(clause);
    }
    content
}

/// As many clauses as a sheet may have, or about a power of two, where a sort by halves divides anew.
pub fn many(random: &mut Random) -> Content {
    let count = match random.below(3) {
        0 => MOST_CLAUSES - random.below(2),
        _ => (1 << random.between(7, 11)) + random.below(3) - 1,
    };
    let variables = random.between(100, MOST_VARIABLES);
    of_count(count, variables, random)
}

/// Exactly so many short clauses; there have to be variables enough for them.
pub fn of_count(count: usize, variables: usize, random: &mut Random) -> Content {
    let mut content = without_clauses(variables, random);
    while content.clauses.len() < count {
        let missing = shape(variables, count - content.clauses.len());
        let more = Content::of(&sheets::problem(&missing, random));
        content.clauses.extend(more.clauses);
    }
    content
}
