//! Kind 3, independent sets (document 001, section 5.1.1): refusals 14, 20, 21 and 22, and after them 15.

use crate::cost_clause::CostClause;
use crate::literal::Literal;
use crate::refusal::{ALL_SETTLED, DEPENDENCE, INDEPENDENT_BOUND, SHARED_PADDLE, UNSETTLED_SHUT};
use crate::sheet::Sheet;
use std::collections::BTreeSet;

/// The partial assignment under which every literal of a cost clause is false. Its variables are document 01's
/// settled paddles.
struct Falsifier {
    true_variables: BTreeSet<u32>,
    false_variables: BTreeSet<u32>,
}

impl Falsifier {
    fn of(literals: &BTreeSet<Literal>) -> Falsifier {
        let (positive, negative): (Vec<Literal>, Vec<Literal>) =
            literals.iter().partition(|literal| literal.is_positive());
        Falsifier {
            true_variables: negative.iter().map(|literal| literal.variable()).collect(),
            false_variables: positive.iter().map(|literal| literal.variable()).collect(),
        }
    }

    fn settles(&self, variable: u32) -> bool {
        self.true_variables.contains(&variable) || self.false_variables.contains(&variable)
    }

    fn makes_true(&self, literal: Literal) -> bool {
        if literal.is_positive() {
            self.true_variables.contains(&literal.variable())
        } else {
            self.false_variables.contains(&literal.variable())
        }
    }

    /// The literals of a clause that are neither true nor false here.
    fn unsettled(&self, clause: &BTreeSet<Literal>) -> Vec<Literal> {
        let is_unsettled = |literal: &Literal| !self.settles(literal.variable());
        clause.iter().copied().filter(is_unsettled).collect()
    }
}

/// Refusals 14, 20, 21 and 22 for the clauses of these numbers, one clause after the other; then 15.
pub(crate) fn check(
    sheet: &Sheet,
    clause_numbers: &[u64],
    conclusion: &CostClause,
) -> Result<(), u32> {
    let cited = clause_numbers.iter().map(|number| sheet.clause(*number));
    let cited: Vec<&BTreeSet<Literal>> = cited.collect();
    let falsifier = Falsifier::of(&conclusion.literals);
    let mut earlier_variables = BTreeSet::new();
    for clause in &cited {
        check_clause(&falsifier, clause, &earlier_variables)?;
        earlier_variables.extend(clause.iter().map(|literal| literal.variable()));
    }
    if u128::from(conclusion.bound) != independent_bound(sheet, &falsifier, &cited) {
        return Err(INDEPENDENT_BOUND);
    }
    Ok(())
}

/// Refusals 14, 20, 21 and 22 of one cited clause, given the variables of the clauses cited before it. Each is
/// tried over the whole clause before the next one is.
///
/// Looking back alone is enough: of two clauses that share an unsettled variable, the later one tells it.
fn check_clause(
    falsifier: &Falsifier,
    clause: &BTreeSet<Literal>,
    earlier_variables: &BTreeSet<u32>,
) -> Result<(), u32> {
    let unsettled = falsifier.unsettled(clause);
    if clause.iter().any(|literal| falsifier.makes_true(*literal)) {
        return Err(DEPENDENCE);
    }
    if unsettled.iter().any(|literal| !literal.is_positive()) {
        return Err(UNSETTLED_SHUT);
    }
    if unsettled.is_empty() {
        return Err(ALL_SETTLED);
    }
    let is_shared = |literal: &Literal| earlier_variables.contains(&literal.variable());
    if unsettled.iter().any(is_shared) {
        return Err(SHARED_PADDLE);
    }
    Ok(())
}

/// The standing loss, the costs that the falsifier forces, and for each cited clause the cheapest way left to satisfy
/// it. Settled variables of a clause are no way to satisfy it, so they do not count for its least cost.
fn independent_bound(sheet: &Sheet, falsifier: &Falsifier, cited: &[&BTreeSet<Literal>]) -> u128 {
    let forced = falsifier.true_variables.iter();
    let forced_costs = forced.map(|variable| sheet.cost(*variable));
    let mut bound = sheet.standing_loss() + forced_costs.sum::<u128>();
    for clause in cited {
        let unsettled = falsifier.unsettled(clause);
        let costs = unsettled
            .iter()
            .map(|literal| sheet.cost(literal.variable()));
        // No clause without unsettled literals gets here; its least cost would be nothing.
        bound += costs.min().unwrap_or(0);
    }
    bound
}
