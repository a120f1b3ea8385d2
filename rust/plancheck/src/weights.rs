//! Which divisor or weight of a weighted step is 0, which bound is due, and what would mend it: refusals 23 and 24.
//!
//! Nothing is decided here: the number is the proved checker's, and where another fault is found, nothing is said.

use crate::places::{clause_line, MOST};
use crate::record::Record;
use crate::refusals::ANEW;
use crate::sheet::Sheet;
use crate::steps;
use crate::text::amount;
use crate::weighted::{wrapped, Sum};
use planner::{Literal, Reason};
use proved::Answer;

/// A weighted step beside its sheet.
struct Weighted<'a> {
    sheet: &'a Sheet<'a>,
    literals: &'a [Literal],
    divisor: u16,
    weights: &'a [(u32, u16)],
}

/// The lines that follow the step's own; nothing where the answer is about something else.
pub fn lines(sheet: &Sheet, record: &Record, answer: &Answer) -> Option<Vec<String>> {
    let body = record.steps.body(answer.place as usize)?;
    let step = steps::read(body)?;
    let Reason::Linear { divisor, weights } = &step.reason else {
        return None;
    };
    let weighted = Weighted {
        sheet,
        literals: &step.literals,
        divisor: *divisor,
        weights,
    };
    let mut lines = match answer.number {
        23 => weighted.zero_lines()?,
        24 => weighted.bound_lines(step.bound)?,
        _ => return None,
    };
    lines.push(ANEW.to_string());
    Some(lines)
}

impl Weighted<'_> {
    /// What is 0, and the mends.
    fn zero_lines(&self) -> Option<Vec<String>> {
        let zeros = self.zeros();
        let mut lines = Vec::new();
        if self.divisor == 0 {
            lines.push("the divisor is 0".to_string());
        }
        for clause in zeros.iter().take(MOST) {
            lines.extend(wrapped(&clause_line(self.sheet, *clause as usize)));
            lines.push("  its weight is 0".to_string());
        }
        if zeros.len() > MOST {
            let count = zeros.len() - MOST;
            lines.push(format!("and {count} clauses of weight 0 more"));
        }
        if lines.is_empty() {
            return None;
        }
        lines.extend(self.zero_mends(&zeros)?);
        Some(lines)
    }

    /// The clauses of weight 0.
    fn zeros(&self) -> Vec<u32> {
        let zeros = self.weights.iter().filter(|(_, weight)| *weight == 0);
        zeros.map(|(clause, _)| *clause).collect()
    }

    /// What can be done, a line each. Whichever is done, nothing is 0 any more, and the step passes with that bound.
    fn zero_mends(&self, zeros: &[u32]) -> Option<Vec<String>> {
        let clauses = match zeros {
            [] => {
                let bound = self.bound_with(self.weights)?;
                return Some(vec![format!("mend: divide by 1; bound {bound} then")]);
            }
            [clause] => format!("clause {clause}"),
            _ => format!("the {} clauses of weight 0", zeros.len()),
        };
        let divided = match self.divisor {
            0 => "divide by 1 and ",
            _ => "",
        };
        let others = self.weights.iter().filter(|(_, weight)| *weight > 0);
        let others: Vec<_> = others.copied().collect();
        let bound = self.bound_with(&others)?;
        let without = match others.is_empty() {
            // Without clauses the costs made true and the loss are left, whatever the divisor.
            true => format!("mend: make it a cost step, which cites nothing; bound {bound} then"),
            false => format!("mend: {divided}do not cite {clauses}; bound {bound} then"),
        };
        let weighed = self
            .weights
            .iter()
            .map(|(clause, y)| (*clause, (*y).max(1)));
        let bound = self.bound_with(&weighed.collect::<Vec<_>>())?;
        let weighed = format!("mend: {divided}give {clauses} the weight 1; bound {bound} then");
        Some(vec![without, weighed])
    }

    /// The bound with these weights, and with a divisor of 1 where it is 0.
    fn bound_with(&self, weights: &[(u32, u16)]) -> Option<i128> {
        let divisor = self.divisor.max(1);
        Sum::of(self.sheet, self.literals, divisor, weights).map(|sum| sum.bound())
    }

    /// How the bound comes about, and the mend, where it is another than this.
    fn bound_lines(&self, bound: u64) -> Option<Vec<String>> {
        let sum = Sum::of(self.sheet, self.literals, self.divisor, self.weights)?;
        if !self.zeros().is_empty() || sum.bound() == i128::from(bound) {
            return None;
        }
        let mut lines = sum.lines(self.sheet);
        let (due, bound) = (sum.bound(), amount(bound));
        lines.push(format!("mend: write bound {due} instead of {bound}"));
        Some(lines)
    }
}
