//! Steps of kind 5 at the ends of many ranges at once: as many variables and clauses as a sheet may have, all or none of the
//! variables settled, all of the clauses cited, the largest weights and divisor.

use super::Weights;
use crate::draft::{code_bytes, Draft};
use crate::Sample;
use planner::{MOST_CLAUSES, MOST_VARIABLES};

/// Accepted records, with totals far below 0 and far above, without a loss and with the largest. The clauses are of so many
/// literals: with the most that there may be, the sheets have 8 MB.
pub fn samples(literals: usize) -> [Sample; 4] {
    let [plain, marked] = [None, Some(u32::MAX)];
    [
        below_zero(plain, literals),
        above_zero(plain, literals),
        below_zero(marked, literals),
        above_zero(marked, literals),
    ]
}

/// Positive clauses over variables that cost nothing. One true variable is a plan.
fn below_zero(loss: Option<u32>, literals: usize) -> Sample {
    let mut draft = sheet(loss, 0, 0, literals);
    draft.flip(1);
    add(&mut draft, &every(1, MOST_VARIABLES), 1);
    add(&mut draft, &[], u16::MAX);
    Sample::new(
        draft.files(),
        "accepted largest weights of positive literals",
    )
}

/// Negative clauses over the dearest variables. The plan has none of them.
fn above_zero(loss: Option<u32>, literals: usize) -> Sample {
    let mut draft = sheet(loss, u32::MAX, 1, literals);
    add(&mut draft, &every(1, MOST_VARIABLES), u16::MAX);
    add(&mut draft, &[], 1);
    Sample::new(
        draft.files(),
        "accepted largest weights of negative literals",
    )
}

/// The literals of the first variables: positive for 0, negative for 1.
fn every(polarity: u16, count: usize) -> Vec<u16> {
    let variables = 1..=count as u16;
    variables.map(|variable| 2 * variable + polarity).collect()
}

/// No variable has to be paid for, so that the claim is the loss.
fn sheet(loss: Option<u32>, cost: u32, polarity: u16, literals: usize) -> Draft {
    Draft {
        loss,
        costs: vec![cost; MOST_VARIABLES],
        clauses: vec![code_bytes(&every(polarity, literals)); MOST_CLAUSES],
        claim: loss.map_or(0, u64::from),
        assignment: vec![0; MOST_VARIABLES / 8],
        steps: Vec::new(),
    }
}

/// Adds the step of these literals in which every clause has the largest weight.
fn add(draft: &mut Draft, literals: &[u16], divisor: u16) {
    let all = 1..=draft.clauses.len() as u32;
    let entries = all.map(|number| (number, u16::MAX)).collect();
    let step = Weights { divisor, entries }.step(draft, literals.to_vec());
    let step = step.expect("the clauses are the sheet's");
    draft.steps.push(step.bytes());
}
