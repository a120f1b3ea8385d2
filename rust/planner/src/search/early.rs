//! Plans of a search that stops early: the best assignment found so far, and a lower bound on the cost of every model that is
//! derived in a given number of steps.

mod branch;
mod tree;

use super::{Bounds, Search};
use crate::problem::{Problem, NONE};
use crate::Plan;
use tree::Tree;

/// How many conflicts the search for an assignment may have, beside one for each step of the record: none of them has to
/// leave a step, and in a count of conflicts a slow machine stops where a fast one does.
const CONFLICTS: u64 = 10_000;

/// A plan of so many steps at most. Where the search ends, and its certificate is as short, that is the plan. Else the last
/// bound may lie below the claim; and where there is nothing to claim, there is no plan.
///
/// More steps never give a greater gap between the claim and the last bound. What is found in a certain number of conflicts or
/// branches does not depend on how many steps there may be, so that more of them only let it go on.
pub fn plan_in(problem: &Problem, bounds: Bounds, steps: u64) -> Option<Plan> {
    let mut search = Search::new(problem, bounds);
    let ended = search.run(CONFLICTS);
    let guide = search.best;
    let ended = ended.or_else(|| search.run(CONFLICTS.saturating_add(steps)));
    let found = (search.best, search.assignment.clone());
    if let Some(last) = ended {
        let plan = search.finish(last);
        if plan.steps.len() as u64 <= steps {
            return Some(plan);
        }
    }
    let mut tree = Tree::new(problem, bounds, guide);
    let steps = tree.derivation_in(steps, found.0);
    let (claim, assignment) = tree.cheaper_than(found);
    let none_exists = steps.last().is_some_and(|last| last.bound == NONE);
    (claim != NONE || none_exists).then_some(Plan {
        claim,
        assignment,
        steps,
    })
}
