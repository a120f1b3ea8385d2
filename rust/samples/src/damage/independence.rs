//! Independent sets: each condition broken by itself, and bounds added up in wrong ways.

use super::statements::{bound_off_by_one, set_bound};
use super::{damage, places, Damage, Way};
use crate::draft::{code_bytes, Body, Draft};
use crate::random::Random;
use planner::NONE;

pub const INDEPENDENCE: &[Damage] = &[
    damage("14 true literal", Way::Step(3, true_literal)),
    damage("14 settled literal negated", Way::Step(3, settled_negated)),
    damage(
        "20 unsettled negative literal",
        Way::Step(3, unsettled_negative),
    ),
    damage("21 nothing unsettled", Way::Step(3, nothing_unsettled)),
    damage("21 empty clause", Way::Draft(empty_clause)),
    damage(
        "22 shared variable unsettled",
        Way::Step(3, shared_unsettled),
    ),
    damage(
        "22 clause that shares a variable",
        Way::Step(3, sharing_clause),
    ),
    damage("22 same clause under two numbers", Way::Draft(same_clause)),
    damage("15 bound off by one", Way::Step(3, bound_off_by_one)),
    damage(
        "15 bound none",
        Way::Step(3, |_, _, body, _| set_bound(body, NONE)),
    ),
    damage(
        "15 least over settled variables too",
        Way::Step(3, least_over_all),
    ),
    damage("15 greatest instead of least", Way::Step(3, greatest)),
    damage("15 all unsettled costs", Way::Step(3, all_unsettled)),
    damage("15 settled costs left out", Way::Step(3, without_settled)),
    damage("15 settled costs alone", Way::Step(3, settled_alone)),
    damage("15 clause left out", Way::Step(3, clause_left_out)),
];

/// What a literal is where the step's own literals are false; nothing for an unsettled variable.
fn settled(body: &Body, code: u16) -> Option<bool> {
    if body.holds(code) {
        Some(false)
    } else if body.holds(code ^ 1) {
        Some(true)
    } else {
        None
    }
}

/// The literals of one of the cited clauses.
fn some_clause(draft: &Draft, body: &Body, random: &mut Random) -> Option<Vec<u16>> {
    draft.clause(*random.pick(&body.cited())?)
}

pub fn unsettled(body: &Body, clause: &[u16]) -> Vec<u16> {
    clause
        .iter()
        .copied()
        .filter(|code| settled(body, *code).is_none())
        .collect()
}

fn true_literal(draft: &Draft, _: u32, body: &mut Body, random: &mut Random) -> Option<()> {
    let clause = some_clause(draft, body, random)?;
    let code = *random.pick(&unsettled(body, &clause))?;
    body.add(code ^ 1);
    Some(())
}

fn settled_negated(draft: &Draft, _: u32, body: &mut Body, random: &mut Random) -> Option<()> {
    let clause = some_clause(draft, body, random)?;
    let code = clause.into_iter().find(|code| body.holds(*code))?;
    body.remove(code);
    body.add(code ^ 1);
    Some(())
}

fn nothing_unsettled(draft: &Draft, _: u32, body: &mut Body, random: &mut Random) -> Option<()> {
    let clause = some_clause(draft, body, random)?;
    for code in unsettled(body, &clause) {
        body.add(code);
    }
    Some(())
}

fn unsettled_negative(draft: &Draft, _: u32, body: &mut Body, random: &mut Random) -> Option<()> {
    let clause = some_clause(draft, body, random)?;
    let code = clause
        .into_iter()
        .find(|code| code % 2 == 1 && body.holds(*code))?;
    body.remove(code);
    Some(())
}

/// Leaves out a positive literal that two cited clauses have in common.
fn shared_unsettled(draft: &Draft, _: u32, body: &mut Body, _: &mut Random) -> Option<()> {
    let clauses: Vec<Vec<u16>> = body
        .cited()
        .into_iter()
        .filter_map(|number| draft.clause(number))
        .collect();
    let holders = |code: u16| {
        clauses
            .iter()
            .filter(|clause| clause.contains(&code))
            .count()
    };
    let mut shared = body.literals.iter().copied().filter(|code| code % 2 == 0);
    let code = shared.find(|code| holders(*code) > 1)?;
    body.remove(code);
    Some(())
}

/// Cites one more clause that would do by itself, but has an unsettled variable in common.
fn sharing_clause(draft: &Draft, _: u32, body: &mut Body, random: &mut Random) -> Option<()> {
    let mut cited = body.cited();
    let mut used = Vec::new();
    for number in &cited {
        used.extend(unsettled(body, &draft.clause(*number)?));
    }
    let fits = |number: &u32| {
        let clause = draft.clause(*number).unwrap_or_default();
        let left = unsettled(body, &clause);
        let harmless = clause.iter().all(|code| settled(body, *code) != Some(true));
        let positive = left.iter().all(|code| code % 2 == 0);
        harmless && positive && left.iter().any(|code| used.contains(code))
    };
    let others = (1..=draft.clauses.len() as u32).filter(|number| !cited.contains(number));
    let found: Vec<u32> = others.filter(fits).collect();
    cited.push(*random.pick(&found)?);
    recite(body, cited);
    Some(())
}

fn recite(body: &mut Body, mut cited: Vec<u32>) {
    cited.sort_unstable();
    body.tail = cited.into_iter().flat_map(u32::to_le_bytes).collect();
}

/// Some step of kind 3, and its place.
fn some_step(draft: &Draft, random: &mut Random) -> Option<(usize, Body)> {
    let place = *places(3, draft, random).first()?;
    Some((place, Body::read(&draft.steps[place])?))
}

/// Puts a clause at the end of the sheet and has a step of kind 3 cite it too.
pub fn cite_new(draft: &mut Draft, body: &mut Body, clause: &[u16]) {
    draft.clauses.push(code_bytes(clause));
    let number = draft.clauses.len() as u32;
    body.tail.extend_from_slice(&number.to_le_bytes());
}

fn same_clause(draft: &mut Draft, random: &mut Random) -> Option<()> {
    let (place, mut body) = some_step(draft, random)?;
    let clause = some_clause(draft, &body, random)?;
    cite_new(draft, &mut body, &clause);
    draft.steps[place] = body.bytes();
    Some(())
}

/// Only under the claim "none", which no clause can break.
fn empty_clause(draft: &mut Draft, random: &mut Random) -> Option<()> {
    let (place, mut body) = some_step(draft, random)?;
    if draft.claim != NONE {
        return None;
    }
    cite_new(draft, &mut body, &[]);
    draft.steps[place] = body.bytes();
    Some(())
}

/// Cites any clause more: it may have one of the four faults, or none but that the bound is wrong.
pub fn one_more(draft: &Draft, _: u32, body: &mut Body, random: &mut Random) -> Option<()> {
    let mut cited = body.cited();
    let number = random.between(1, draft.clauses.len().max(1)) as u32;
    if cited.contains(&number) {
        return None;
    }
    cited.push(number);
    recite(body, cited);
    Some(())
}

/// A bound with the loss that takes for each cited clause what `share` makes of all and of the unsettled costs.
fn bound(draft: &Draft, body: &Body, share: fn(&[u64], &[u64]) -> u64) -> Option<u64> {
    let mut total = draft.standing_loss() + settled_cost(draft, body);
    for number in body.cited() {
        let clause = draft.clause(number)?;
        let costs = |codes: &[u16]| codes.iter().map(|code| draft.cost_of(*code)).collect();
        let (all, left): (Vec<u64>, Vec<u64>) = (costs(&clause), costs(&unsettled(body, &clause)));
        total += share(&all, &left);
    }
    Some(total)
}

/// The bound of a step whose cited clauses are independent.
pub fn right_bound(draft: &Draft, body: &Body) -> Option<u64> {
    bound(draft, body, |_, left| least(left))
}

fn settled_cost(draft: &Draft, body: &Body) -> u64 {
    let paid = body.literals.iter().filter(|code| **code % 2 == 1);
    paid.map(|code| draft.cost_of(*code)).sum()
}

fn least(costs: &[u64]) -> u64 {
    costs.iter().copied().min().unwrap_or(0)
}

fn least_over_all(draft: &Draft, _: u32, body: &mut Body, _: &mut Random) -> Option<()> {
    let bound = bound(draft, body, |all, _| least(all))?;
    set_bound(body, bound)
}

fn greatest(draft: &Draft, _: u32, body: &mut Body, _: &mut Random) -> Option<()> {
    let bound = bound(draft, body, |_, left| {
        left.iter().copied().max().unwrap_or(0)
    })?;
    set_bound(body, bound)
}

fn all_unsettled(draft: &Draft, _: u32, body: &mut Body, _: &mut Random) -> Option<()> {
    let bound = bound(draft, body, |_, left| left.iter().sum())?;
    set_bound(body, bound)
}

fn without_settled(draft: &Draft, _: u32, body: &mut Body, _: &mut Random) -> Option<()> {
    let bound = right_bound(draft, body)? - settled_cost(draft, body);
    set_bound(body, bound)
}

fn settled_alone(draft: &Draft, _: u32, body: &mut Body, _: &mut Random) -> Option<()> {
    let bound = draft.standing_loss() + settled_cost(draft, body);
    set_bound(body, bound)
}

/// The bound stays as if the clause were still cited.
fn clause_left_out(draft: &Draft, _: u32, body: &mut Body, random: &mut Random) -> Option<()> {
    let mut cited = body.cited();
    if cited.len() < 2 {
        return None;
    }
    let clause = draft.clause(cited.swap_remove(random.below(cited.len())))?;
    let added = unsettled(body, &clause)
        .iter()
        .map(|code| draft.cost_of(*code))
        .min()?;
    recite(body, cited);
    (added > 0).then_some(())
}
