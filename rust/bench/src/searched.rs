//! The sheets that the searches are measured on. They differ in how many clauses there are to look at for a choice, and in how
//! many variables one settles.

use planner::format;
use samples::random::Random;
use samples::sheets::{problem, Costs, Shape};

/// The choices that a search is lent. Some of the sheets need fewer.
pub const BUDGET: u64 = 50_000;

/// The sets by their names: variables and clauses, where nothing else is said.
pub const SETS: [(&str, Shape); 14] = [
    ("40-60", shape(40, 60)),
    ("40-200", shape(40, 200)),
    ("40-1000", shape(40, 1000)),
    ("40-2000", shape(40, 2000)),
    ("40-4096", shape(40, 4096)),
    ("64-60", shape(64, 60)),
    ("64-200", shape(64, 200)),
    ("64-1000", shape(64, 1000)),
    ("64-2000", shape(64, 2000)),
    ("64-4096", shape(64, 4096)),
    // No clause is ever false: branches are left for their cost alone.
    ("positive-64-1000", of(shape(64, 1000), 3, 5, 100)),
    // A choice settles many variables.
    ("short-64-200", of(shape(64, 200), 3, 3, 50)),
    // A choice settles hardly another variable, and there are many literals.
    ("long-64-1000", of(shape(64, 1000), 12, 24, 85)),
    // There is no plan: branches are left at false clauses alone.
    ("none-64-1000", of(shape(64, 1000), 4, 4, 50)),
];

/// With this one, no search is so short that the processor learns its branches, and that of the sheet without a plan comes to its
/// end.
const SEED: u64 = 15;

/// Clauses of four to ten literals, most of them positive: what has to be covered, with some exceptions.
const fn shape(variables: usize, clauses: usize) -> Shape {
    Shape {
        variables,
        clauses,
        shortest: 4,
        longest: 10,
        positive: 85,
        costs: Costs::Equal,
    }
}

const fn of(shape: Shape, shortest: usize, longest: usize, positive: usize) -> Shape {
    Shape {
        shortest,
        longest,
        positive,
        ..shape
    }
}

/// The sheet of a set, the same at every call. Its variables cost 1 to 100, and there is a loss.
pub fn sheet(set: &str) -> Option<Vec<u8>> {
    let (_, shape) = SETS.into_iter().find(|(name, _)| *name == set)?;
    let random = &mut Random::new(SEED);
    let mut problem = problem(&shape, random);
    problem.costs.fill_with(|| 1 + random.below(100) as u32);
    problem.loss = Some(1_000);
    Some(format::sheet(&problem))
}
