//! What the proved search has found, as lines; and a long search in parts, so that something can be told before it is over.

use crate::sheet::Sheet;
use crate::text::{amount, assigned};
use proved::Found;

/// How many choices a search may make where nobody says.
pub const BUDGET: u64 = 10_000_000;

/// So many choices are soon made: nothing has to be told of a search before that.
const SOON: u64 = 1_000_000;

/// The best plan, its cost, the floor, and what is known by them.
pub fn lines(sheet: &Sheet, found: &Found) -> Vec<String> {
    let plan = match found.plan {
        Some(plan) => vec![
            assigned(true_variables(sheet, plan)),
            format!("cost {}", cost(sheet, plan)),
        ],
        None => vec!["no plan".to_string()],
    };
    let floor = format!("floor {}", amount(found.floor));
    [plan, vec![floor, end_line(sheet, found)]].concat()
}

/// The loss with what the true variables cost.
fn cost(sheet: &Sheet, plan: u64) -> u64 {
    let costs = true_variables(sheet, plan).filter_map(|variable| sheet.cost(variable));
    sheet.standing_loss() + costs.map(u64::from).sum::<u64>()
}

fn true_variables(sheet: &Sheet, plan: u64) -> impl Iterator<Item = usize> {
    (1..=sheet.variables).filter(move |variable| plan >> (variable - 1) & 1 == 1)
}

/// Whether the search has ended, and what that says. Only the floor tells what a search that has not ended knows.
fn end_line(sheet: &Sheet, found: &Found) -> String {
    let (choices, floor) = (choices(found.choices), amount(found.floor));
    let cost = found.plan.map(|plan| cost(sheet, plan));
    let known = match (found.ended, cost) {
        (true, Some(cost)) => format!("{cost} is the least cost"),
        (true, None) => "no assignment satisfies every clause".to_string(),
        (false, Some(cost)) if cost == found.floor => {
            format!("{cost} is the least cost all the same, since it is the floor")
        }
        (false, Some(cost)) => format!("the least cost lies between {floor} and {cost}"),
        (false, None) => {
            format!("whether a plan exists is not known; none costs less than {floor}")
        }
    };
    let ended = if found.ended { "ended" } else { "not ended" };
    format!("{ended} after {choices}: {known}")
}

fn choices(count: u64) -> String {
    match count {
        1 => "1 choice".to_string(),
        count => format!("{count} choices"),
    }
}

/// Searches with smaller budgets before the whole one, and tells of each that has not sufficed.
///
/// The proved search says nothing while it runs, and begins anew each time. A budget is asked for a unit only where a choice is
/// due, so that a search that has ended never lacked one: with more of them it makes the same choices, and its answer, their
/// number included, is that of the whole budget. A refusal does not hang on the budget either.
pub fn in_parts(sheet: &[u8], budget: u64, mut tell: impl FnMut(&Found)) -> Found {
    for part in parts(budget) {
        let found = proved::search(sheet, part);
        if found.ended || found.number != 0 {
            return found;
        }
        tell(&found);
    }
    proved::search(sheet, budget)
}

/// The smaller budgets. Each is half of the next, so that with the whole one they come to less than twice as much.
fn parts(budget: u64) -> impl Iterator<Item = u64> {
    let halvings = (budget / SOON).max(1).ilog2();
    (1..=halvings).rev().map(move |times| budget >> times)
}

/// One line about a search that goes on.
pub fn progress_line(sheet: &Sheet, found: &Found, budget: u64) -> String {
    let best = match found.plan {
        Some(plan) => format!("best cost {}", cost(sheet, plan)),
        None => "no plan yet".to_string(),
    };
    let (made, floor) = (found.choices, amount(found.floor));
    format!("searching: {made} of {budget} choices, {best}, floor {floor}, not ended")
}
