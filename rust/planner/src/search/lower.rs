//! Lower bounds for a partial assignment, and the short cost clauses that explain them.

use super::trail::Trail;
use super::weights::Weighted;
use crate::problem::{Literal, Problem};

/// A clause that could join an independent set.
struct Candidate {
    number: u32,
    least: u64,
    unset: Vec<Literal>,
}

/// Why the search may stop here: literals, all false, and what bounds the cost from below where they are.
pub enum Explanation {
    /// The true variables and the standing loss, without clauses.
    Cost {
        literals: Vec<Literal>,
    },
    /// With independent clauses.
    Independent {
        literals: Vec<Literal>,
        clauses: Vec<u32>,
    },
    Linear(Weighted),
}

/// What one look at the clauses of the sheet tells.
pub enum Outlook {
    /// Every clause has a true literal, so the unset variables may stay false.
    Satisfied,
    /// Nothing that extends the partial assignment costs less than the target.
    Hopeless(Explanation),
    /// The unset literals of the clauses that still need a true one; some may stand here twice.
    Undecided(Vec<Literal>),
}

/// Looks for a reason why no extension of the trail costs less than `target`.
pub fn outlook(problem: &Problem, trail: &Trail, target: u64) -> Outlook {
    let paid = paid(problem, trail);
    if paid >= target {
        let literals = shortened(problem, trail, Vec::new(), paid - target);
        return Outlook::Hopeless(Explanation::Cost { literals });
    }
    let (candidates, unset) = candidates(problem, trail);
    if unset.is_empty() {
        return Outlook::Satisfied;
    }
    let chosen = independent(problem.variables(), candidates);
    let bound = paid + chosen.iter().map(|candidate| candidate.least).sum::<u64>();
    if bound < target {
        return Outlook::Undecided(unset);
    }
    let kept = kept_literals(problem, trail, &chosen);
    let literals = shortened(problem, trail, kept, bound - target);
    let clauses = chosen.iter().map(|candidate| candidate.number).collect();
    Outlook::Hopeless(Explanation::Independent { literals, clauses })
}

/// Independent clauses where the trail is, as many as the greedy choice finds, and the bound that they give.
pub fn independent_clauses(problem: &Problem, trail: &Trail) -> (Vec<u32>, u64) {
    let (candidates, _) = candidates(problem, trail);
    let chosen = independent(problem.variables(), candidates);
    let bound = paid(problem, trail) + chosen.iter().map(|candidate| candidate.least).sum::<u64>();
    let clauses = chosen.iter().map(|candidate| candidate.number).collect();
    (clauses, bound)
}

/// What the true variables cost, with the standing loss.
pub fn paid(problem: &Problem, trail: &Trail) -> u64 {
    let paid = true_variables(trail).map(|literal| problem.cost_of(literal));
    problem.standing_loss() + paid.sum::<u64>()
}

fn true_variables(trail: &Trail) -> impl Iterator<Item = Literal> + '_ {
    trail
        .order()
        .iter()
        .copied()
        .filter(|literal| literal.is_positive())
}

/// The clauses whose unset literals are all positive and cost something, and the unset literals of
/// all clauses without a true one. After propagation each of these has at least two.
fn candidates(problem: &Problem, trail: &Trail) -> (Vec<Candidate>, Vec<Literal>) {
    let mut found = Vec::new();
    let mut all_unset = Vec::new();
    for (place, clause) in problem.clauses.iter().enumerate() {
        if clause
            .iter()
            .any(|literal| trail.value(*literal) == Some(true))
        {
            continue;
        }
        let literals = clause.iter().copied();
        let unset: Vec<Literal> = literals
            .filter(|literal| trail.value(*literal).is_none())
            .collect();
        all_unset.extend_from_slice(&unset);
        let least = unset
            .iter()
            .map(|literal| problem.cost_of(*literal))
            .min()
            .unwrap_or(0);
        if least > 0 && unset.iter().all(|literal| literal.is_positive()) {
            found.push(Candidate {
                number: place as u32 + 1,
                least,
                unset,
            });
        }
    }
    (found, all_unset)
}

/// Greedy: first the clauses that add most for each variable that they use up.
fn independent(variables: usize, mut candidates: Vec<Candidate>) -> Vec<Candidate> {
    candidates.sort_by(|a, b| {
        let (left, right) = (
            a.least * b.unset.len() as u64,
            b.least * a.unset.len() as u64,
        );
        right.cmp(&left).then(a.number.cmp(&b.number))
    });
    let mut used = vec![false; variables];
    let mut chosen = Vec::new();
    for candidate in candidates {
        if candidate.unset.iter().any(|literal| used[literal.index()]) {
            continue;
        }
        for literal in &candidate.unset {
            used[literal.index()] = true;
        }
        chosen.push(candidate);
    }
    chosen
}

/// The false literals without which the clauses would not be independent or would add less:
/// negative ones, those cheaper than the least unset one, and those that two clauses share.
fn kept_literals(problem: &Problem, trail: &Trail, chosen: &[Candidate]) -> Vec<Literal> {
    let mut seen = vec![0_u8; problem.variables()];
    let clause_of = |candidate: &Candidate| &problem.clauses[candidate.number as usize - 1];
    for literal in chosen.iter().flat_map(clause_of) {
        seen[literal.index()] = seen[literal.index()].saturating_add(1);
    }
    let mut kept = Vec::new();
    for candidate in chosen {
        for literal in clause_of(candidate).iter().copied() {
            let cheaper = problem.cost_of(literal) < candidate.least;
            let needed = !literal.is_positive() || cheaper || seen[literal.index()] > 1;
            if trail.is_false(literal) && needed {
                kept.push(literal);
            }
        }
    }
    kept.sort_unstable();
    kept.dedup();
    kept
}

/// Adds the true variables that cost something, but leaves out the youngest as long as the bound
/// has that much to spare: older literals let the search jump further back.
fn shortened(
    problem: &Problem,
    trail: &Trail,
    mut kept: Vec<Literal>,
    mut spare: u64,
) -> Vec<Literal> {
    let fixed = kept.len();
    let paid: Vec<Literal> = true_variables(trail).collect();
    for literal in paid.into_iter().rev() {
        let cost = problem.cost_of(literal);
        if kept[..fixed].binary_search(&literal.negated()).is_ok() {
            continue;
        }
        if cost <= spare {
            spare -= cost;
        } else {
            kept.push(literal.negated());
        }
    }
    kept
}
