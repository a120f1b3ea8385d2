//! A certificate by the full decision tree over all variables: slow and plain, for few variables.

use crate::certificate::Certificate;
use crate::problem::{Literal, Problem, NONE};
use crate::Plan;

struct Tree<'a> {
    problem: &'a Problem,
    certificate: Certificate<'a>,
    assignment: Vec<bool>,
    /// The step that copies each clause, once one does.
    copies: Vec<Option<u32>>,
    best: Option<(u64, Vec<bool>)>,
}

/// Plans by trying every assignment.
pub fn plan(problem: &Problem) -> Plan {
    let mut tree = Tree {
        problem,
        certificate: Certificate::new(problem),
        assignment: vec![false; problem.variables()],
        copies: vec![None; problem.clauses.len()],
        best: None,
    };
    let root = tree.node(1);
    let nowhere = (NONE, vec![false; problem.variables()]);
    let (claim, assignment) = tree.best.unwrap_or(nowhere);
    let steps = tree.certificate.needed_by(root);
    Plan {
        claim,
        assignment,
        steps,
    }
}

impl Tree<'_> {
    /// A step whose literals are all false under the values chosen for the variables before this one.
    fn node(&mut self, variable: usize) -> u32 {
        if variable > self.problem.variables() {
            return self.leaf();
        }
        self.assignment[variable - 1] = false;
        let first = self.node(variable + 1);
        self.assignment[variable - 1] = true;
        let second = self.node(variable + 1);
        self.assignment[variable - 1] = false;
        for (child, pivot) in [
            (first, Literal::positive(variable)),
            (second, Literal::negative(variable)),
        ] {
            if self
                .certificate
                .step(child)
                .literals
                .binary_search(&pivot)
                .is_err()
            {
                return child;
            }
        }
        let both = self.certificate.resolve(first, second, variable);
        both.expect("literals that are all false under one assignment never clash")
    }

    fn leaf(&mut self) -> u32 {
        if let Some(place) = self.problem.broken(&self.assignment) {
            let certificate = &mut self.certificate;
            return *self.copies[place].get_or_insert_with(|| certificate.copy(place as u32 + 1));
        }
        let cost = self.problem.cost(&self.assignment);
        if self.best.as_ref().is_none_or(|(best, _)| cost < *best) {
            self.best = Some((cost, self.assignment.clone()));
        }
        let chosen = (1..=self.problem.variables()).filter(|v| self.assignment[*v - 1]);
        let literals = chosen.map(Literal::negative).collect();
        self.certificate.cost(literals)
    }
}
