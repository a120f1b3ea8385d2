//! The bound that each way of deriving a cost clause allows, and the literals of a resolvent. A bound includes the standing
//! loss, as every cost does.

use crate::problem::{Literal, Problem};

/// What the variables cost that are true wherever all these literals are false, with the standing loss.
pub fn cost_bound(problem: &Problem, literals: &[Literal]) -> u64 {
    let paid = literals.iter().filter(|literal| !literal.is_positive());
    let paid = paid.map(|literal| problem.cost_of(*literal));
    problem.standing_loss() + paid.sum::<u64>()
}

/// The bound of an independent set of clauses, numbered from 1, where all literals are false;
/// nothing when the clauses are not independent there.
pub fn independent_bound(problem: &Problem, literals: &[Literal], clauses: &[u32]) -> Option<u64> {
    let mut settled = vec![None; problem.variables()];
    for literal in literals {
        settled[literal.index()] = Some(!literal.is_positive());
    }
    let mut used = vec![false; problem.variables()];
    let mut bound = cost_bound(problem, literals);
    for number in clauses {
        let mut least = None;
        for literal in &problem.clauses[*number as usize - 1] {
            match settled[literal.index()] {
                Some(value) if value == literal.is_positive() => return None,
                Some(_) => continue,
                None if !literal.is_positive() || used[literal.index()] => return None,
                None => used[literal.index()] = true,
            }
            let cost = problem.cost_of(*literal);
            least = Some(least.map_or(cost, |other: u64| other.min(cost)));
        }
        bound += least?;
    }
    Some(bound)
}

/// What a variable has left of its cost, for each variable: the divisor times the cost, less the weights of the clauses that
/// hold it positive, and with those of the clauses that hold it negative. Clauses are numbered from 1.
pub fn remainders(problem: &Problem, divisor: u16, weights: &[(u32, u16)]) -> Vec<i64> {
    let scaled = |cost: &u32| i64::from(divisor) * i64::from(*cost);
    let mut left: Vec<i64> = problem.costs.iter().map(scaled).collect();
    for (number, weight) in weights {
        for literal in &problem.clauses[*number as usize - 1] {
            let sign = if literal.is_positive() { -1 } else { 1 };
            left[literal.index()] += sign * i64::from(*weight);
        }
    }
    left
}

/// The sum of the clauses as linear constraints, each times its weight, at its least where all literals are false. The
/// standing loss is no part of it.
///
/// Below 2^58 and not below -2^38, however large the sheet and the weights are.
pub fn linear_total(
    problem: &Problem,
    literals: &[Literal],
    divisor: u16,
    weights: &[(u32, u16)],
) -> i64 {
    let left = remainders(problem, divisor, weights);
    let mut settled = vec![None; problem.variables()];
    for literal in literals {
        settled[literal.index()] = Some(!literal.is_positive());
    }
    let constant = |(number, weight): &(u32, u16)| {
        let clause = &problem.clauses[*number as usize - 1];
        let negative = clause.iter().filter(|held| !held.is_positive()).count();
        i64::from(*weight) * (1 - negative as i64)
    };
    let least = |(left, value): (&i64, &Option<bool>)| match value {
        Some(true) => *left,
        Some(false) => 0,
        None => (*left).min(0),
    };
    weights.iter().map(constant).sum::<i64>() + left.iter().zip(&settled).map(least).sum::<i64>()
}

/// The bound of weighted clauses where all literals are false: the total over the divisor, rounded up, and never below 0; and
/// only then the standing loss, which is not rounded.
pub fn linear_bound(
    problem: &Problem,
    literals: &[Literal],
    divisor: u16,
    weights: &[(u32, u16)],
) -> u64 {
    let total = linear_total(problem, literals, divisor, weights);
    let rounded = u64::try_from(total).map_or(0, |total| total.div_ceil(u64::from(divisor)));
    problem.standing_loss() + rounded
}

/// Both premises without the pivot; nothing when a premise lacks its pivot literal or when the
/// result would hold a variable both ways.
pub fn resolvent(positive: &[Literal], negative: &[Literal], pivot: usize) -> Option<Vec<Literal>> {
    let holds = |premise: &[Literal], literal| premise.binary_search(&literal).is_ok();
    let (up, down) = (Literal::positive(pivot), Literal::negative(pivot));
    if !holds(positive, up) || !holds(negative, down) {
        return None;
    }
    let both = positive.iter().chain(negative).copied();
    let mut merged: Vec<Literal> = both.filter(|literal| literal.variable() != pivot).collect();
    merged.sort_unstable();
    merged.dedup();
    let clash = merged
        .windows(2)
        .any(|pair| pair[0].variable() == pair[1].variable());
    (!clash).then_some(merged)
}
