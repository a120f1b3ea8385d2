//! Small changes of what a sheet says. Where one is made, the content is another than it was; nothing comes back where there
//! is nothing to change, or where it would be the same after all.

use super::Content;
use crate::random::Random;
use planner::{MOST_CLAUSES, MOST_VARIABLES};

type Change = fn(&mut Content, &mut Random) -> Option<()>;

pub const CHANGES: &[(&str, Change)] = &[
    ("a literal turned round", |content, random| {
        replace(content, random, turn_round)
    }),
    ("a literal left out", |content, random| {
        replace(content, random, leave_out)
    }),
    ("a literal added", |content, random| {
        replace(content, random, add)
    }),
    ("a literal of another variable", |content, random| {
        replace(content, random, exchange)
    }),
    ("a clause left out", clause_left_out),
    ("a clause added", clause_added),
    ("a cost changed", cost_changed),
    ("two costs exchanged", costs_exchanged),
    ("a variable more", variable_more),
    ("a variable less", variable_less),
    ("the loss changed", loss_changed),
    ("a loss of 1", loss_of_one),
    ("the loss left out", loss_left_out),
    ("the loss as a cost", loss_as_cost),
    ("the loss and a cost exchanged", loss_exchanged),
];

fn some_clause(content: &Content, random: &mut Random) -> Option<Vec<u16>> {
    let place = random.below(content.clauses.len().max(1));
    content.clauses.iter().nth(place).cloned()
}

/// Changes one of the clauses to one that is not there.
fn replace(
    content: &mut Content,
    random: &mut Random,
    change: fn(&mut Vec<u16>, usize, &mut Random) -> Option<()>,
) -> Option<()> {
    let before = some_clause(content, random)?;
    let mut after = before.clone();
    change(&mut after, content.variables(), random)?;
    if !content.clauses.insert(after) {
        return None;
    }
    content.clauses.remove(&before);
    Some(())
}

// All have one signature, so that a change can be handed on.
#[allow(clippy::ptr_arg)]
fn turn_round(clause: &mut Vec<u16>, _: usize, random: &mut Random) -> Option<()> {
    let place = random.below(clause.len().max(1));
    *clause.get_mut(place)? ^= 1;
    Some(())
}

fn leave_out(clause: &mut Vec<u16>, _: usize, random: &mut Random) -> Option<()> {
    let place = random.below(clause.len().max(1));
    (place < clause.len()).then(|| clause.remove(place))?;
    Some(())
}

fn add(clause: &mut Vec<u16>, variables: usize, random: &mut Random) -> Option<()> {
    let variable = random.between(1, variables) as u16;
    let place = clause.partition_point(|code| code / 2 < variable);
    if clause.get(place).is_some_and(|code| code / 2 == variable) {
        return None;
    }
    clause.insert(place, 2 * variable + random.below(2) as u16);
    Some(())
}

fn exchange(clause: &mut Vec<u16>, variables: usize, random: &mut Random) -> Option<()> {
    leave_out(clause, variables, random)?;
    add(clause, variables, random)
}

fn clause_left_out(content: &mut Content, random: &mut Random) -> Option<()> {
    let clause = some_clause(content, random)?;
    content.clauses.remove(&clause).then_some(())
}

/// The empty clause, or one with a literal more than some other.
fn clause_added(content: &mut Content, random: &mut Random) -> Option<()> {
    let mut clause = Vec::new();
    if random.percent(70) {
        clause = some_clause(content, random).unwrap_or_default();
        add(&mut clause, content.variables(), random)?;
    }
    let has_room = content.clauses.len() < MOST_CLAUSES;
    (has_room && content.clauses.insert(clause)).then_some(())
}

/// One bit of one cost.
fn cost_changed(content: &mut Content, random: &mut Random) -> Option<()> {
    let place = random.below(content.variables());
    content.costs[place] ^= 1 << random.below(32);
    Some(())
}

fn costs_exchanged(content: &mut Content, random: &mut Random) -> Option<()> {
    let [a, b] = [0, 1].map(|_| random.below(content.variables()));
    content.costs.swap(a, b);
    (content.costs[a] != content.costs[b]).then_some(())
}

/// It stands in no clause, and often costs nothing.
fn variable_more(content: &mut Content, random: &mut Random) -> Option<()> {
    content.costs.push([0, 0, 1, u32::MAX][random.below(4)]);
    (content.variables() <= MOST_VARIABLES).then_some(())
}

fn variable_less(content: &mut Content, _: &mut Random) -> Option<()> {
    let last = content.variables() as u16;
    content.costs.pop();
    let mut codes = content.clauses.iter().flatten();
    (last > 1 && codes.all(|code| code / 2 < last)).then_some(())
}

/// One bit of it; an unmarked sheet gets a mark by it.
fn loss_changed(content: &mut Content, random: &mut Random) -> Option<()> {
    content.loss ^= 1 << random.below(32);
    Some(())
}

/// The least that keeps its mark.
fn loss_of_one(content: &mut Content, _: &mut Random) -> Option<()> {
    let before = std::mem::replace(&mut content.loss, 1);
    (before != 1).then_some(())
}

fn loss_left_out(content: &mut Content, _: &mut Random) -> Option<()> {
    let before = std::mem::take(&mut content.loss);
    (before != 0).then_some(())
}

/// It stands where the cost of a variable more would.
fn loss_as_cost(content: &mut Content, random: &mut Random) -> Option<()> {
    let loss = std::mem::take(&mut content.loss);
    variable_more(content, random)?;
    *content.costs.last_mut()? = loss;
    Some(())
}

fn loss_exchanged(content: &mut Content, random: &mut Random) -> Option<()> {
    let place = random.below(content.variables());
    std::mem::swap(&mut content.loss, &mut content.costs[place]);
    (content.loss != content.costs[place]).then_some(())
}
