//! The greatest cost that a sheet can tell: as many variables as it may have, each of which has to be true, and every cost and
//! the loss as large as can be. Bounds of kinds 2, 3 and 5 reach it.

use crate::draft::{code_bytes, Body, Draft};
use crate::outcome::Outcome;
use crate::weights::branch::{copy, resolution};
use crate::weights::Weights;
use crate::Sample;
use planner::MOST_VARIABLES;

/// All costs and the loss.
pub const COST: u64 = (MOST_VARIABLES as u64 + 1) * LARGEST as u64;

const LARGEST: u32 = u32::MAX;

/// Records of that sheet, with what is to be told of them: for each of the three kinds one that is accepted, and those whose
/// claim or first bound is off by one or by the loss.
pub fn samples() -> Vec<(Sample, Outcome)> {
    let sheet = sheet();
    let records = [
        (resolved(&sheet, every_cost(&sheet)), 13, "13 greatest cost"),
        (alone(&sheet, every_clause(&sheet)), 15, "15 greatest cost"),
        (
            resolved(&sheet, every_weight(&sheet)),
            24,
            "24 greatest cost",
        ),
    ];
    let mut samples = Vec::new();
    for (draft, number, aimed) in records {
        for off in [1, -1, i64::from(LARGEST), -i64::from(LARGEST)] {
            samples.push((with_other_claim(&draft, off), Outcome::Refused(11)));
            let other = with_other_bound(&draft, off);
            let sample = Sample::new(other.files(), aimed);
            samples.push((sample, Outcome::Refused(number)));
        }
        let good = Sample::new(draft.files(), "accepted greatest cost");
        samples.push((good, Outcome::Least));
    }
    samples
}

/// A clause for each variable, and the claim that all of them are true.
fn sheet() -> Draft {
    let clauses = (1..=MOST_VARIABLES as u16).map(|variable| code_bytes(&[2 * variable]));
    Draft {
        loss: Some(LARGEST),
        costs: vec![LARGEST; MOST_VARIABLES],
        clauses: clauses.collect(),
        claim: COST,
        assignment: vec![u8::MAX; MOST_VARIABLES / 8],
        steps: Vec::new(),
    }
}

/// The negative literals from this variable on.
fn negative(from: usize) -> Vec<u16> {
    let variables = from as u16..=MOST_VARIABLES as u16;
    variables.map(|variable| 2 * variable + 1).collect()
}

/// Kind 2: every variable is made true.
fn every_cost(sheet: &Draft) -> Body {
    Body::cost(sheet, negative(1))
}

/// Kind 3: nothing is made true, and each clause has to be paid for.
fn every_clause(sheet: &Draft) -> Body {
    let all = 1..=sheet.clauses.len() as u32;
    Body {
        kind: 3,
        spare: 0,
        literals: Vec::new(),
        bound: COST,
        tail: all.flat_map(u32::to_le_bytes).collect(),
    }
}

/// Kind 5: every variable is made true, and the clauses take away what they bring. The total is the largest that a divisor
/// can make of these costs.
fn every_weight(sheet: &Draft) -> Body {
    let all = 1..=sheet.clauses.len() as u32;
    let weights = Weights {
        divisor: u16::MAX,
        entries: all.map(|number| (number, u16::MAX)).collect(),
    };
    let step = weights.step(sheet, negative(1));
    step.expect("the clauses are the sheet's")
}

/// The record of this step, which has no literals.
fn alone(sheet: &Draft, step: Body) -> Draft {
    Draft {
        steps: vec![step.bytes()],
        ..sheet.clone()
    }
}

/// The record that begins with this step, of all negative literals, and takes them out of it with one copy after the other.
fn resolved(sheet: &Draft, step: Body) -> Draft {
    let (mut steps, mut left) = (vec![step.bytes()], step);
    for variable in 1..=MOST_VARIABLES {
        let copied = copy(sheet, variable - 1);
        steps.push(copied.bytes());
        // The step before the copy is what is left so far.
        let premises = [(&copied, steps.len()), (&left, steps.len() - 1)];
        left = resolution(premises, variable as u16, negative(variable + 1));
        steps.push(left.bytes());
    }
    Draft {
        steps,
        ..sheet.clone()
    }
}

fn with_other_claim(draft: &Draft, off: i64) -> Sample {
    let other = Draft {
        claim: COST.strict_add_signed(off),
        ..draft.clone()
    };
    Sample::new(other.files(), "11 greatest cost")
}

/// With more or less in the bound of the first step.
fn with_other_bound(draft: &Draft, off: i64) -> Draft {
    let mut other = draft.clone();
    let mut step = Body::read(&other.steps[0]).expect("a step");
    step.bound = step.bound.strict_add_signed(off);
    other.steps[0] = step.bytes();
    other
}
