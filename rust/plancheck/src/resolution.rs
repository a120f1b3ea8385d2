//! What a resolution lacks, or by how much its bound is too high, and what would mend it: refusals 16, 17 and 18.
//!
//! Nothing is decided here: the number is the proved checker's, and where another fault is found, nothing is said.

use crate::dependence::{joined, variable};
use crate::places::{cost, step_line};
use crate::record::Record;
use crate::refusals::ANEW;
use crate::sheet::Sheet;
use crate::steps;
use crate::text::{amount, listed};
use planner::{Literal, Reason, Step, NONE};
use proved::Answer;

/// The places of the two premises: one has to hold the pivot as a positive literal, the other as a negative one.
const SIDES: [usize; 2] = [0, 1];

/// A resolution beside the two steps that it cites.
struct Resolution {
    number: usize,
    step: Step,
    pivot: usize,
    cited: [u32; 2],
    premises: [Step; 2],
}

/// The lines that follow the step's own; nothing where the answer is about something else.
pub fn lines(sheet: &Sheet, record: &Record, answer: &Answer) -> Option<Vec<String>> {
    // Of other answers the lists may be out of form, and long.
    if !(16..=18).contains(&answer.number) {
        return None;
    }
    let resolution = Resolution::read(record, answer.place as usize)?;
    if resolution.fault() != Some(answer.number) {
        return None;
    }
    let mut lines = Vec::new();
    for side in SIDES {
        lines.push(step_line(record, resolution.cited[side] as usize));
        lines.extend(resolution.lack_line(side));
    }
    lines.extend(resolution.number_line(sheet));
    lines.extend(resolution.mend_lines());
    Some(lines)
}

impl Resolution {
    fn read(record: &Record, number: usize) -> Option<Resolution> {
        let read = |number: usize| steps::read(record.steps.body(number)?);
        let step = read(number)?;
        let Reason::Resolution {
            positive,
            negative,
            pivot,
        } = step.reason
        else {
            return None;
        };
        Some(Resolution {
            number,
            step,
            pivot: usize::from(pivot),
            cited: [positive, negative],
            premises: [read(positive as usize)?, read(negative as usize)?],
        })
    }

    /// The number of the first test that fails.
    fn fault(&self) -> Option<u64> {
        if SIDES.iter().any(|side| self.lacks_pivot(*side)) {
            Some(16)
        } else if !self.missing(self.pivot).is_empty() {
            Some(17)
        } else {
            (self.step.bound > self.lesser()).then_some(18)
        }
    }

    fn lacks_pivot(&self, side: usize) -> bool {
        let positive = side == 0;
        let mut literals = self.premises[side].literals.iter();
        !literals.any(|l| l.variable() == self.pivot && l.is_positive() == positive)
    }

    fn holds(&self, literal: &Literal) -> bool {
        self.step.literals.binary_search(literal).is_ok()
    }

    /// What a premise leaves, resolved on this variable, and the step does not hold.
    fn missing_of(&self, side: usize, pivot: usize) -> Vec<Literal> {
        let left = self.premises[side].literals.iter();
        let left = left.filter(|literal| literal.variable() != pivot);
        left.filter(|literal| !self.holds(literal))
            .copied()
            .collect()
    }

    /// The same of both premises.
    fn missing(&self, pivot: usize) -> Vec<Literal> {
        let mut missing = SIDES.map(|side| self.missing_of(side, pivot)).concat();
        missing.sort_unstable();
        missing.dedup();
        missing
    }

    fn lesser(&self) -> u64 {
        let [first, second] = &self.premises;
        first.bound.min(second.bound)
    }

    /// The literals of the first premise that the second holds the other way.
    fn both_ways(&self) -> Vec<Literal> {
        let [first, second] = &self.premises;
        let turned = |literal: &&Literal| second.literals.contains(&literal.negated());
        first.literals.iter().filter(turned).copied().collect()
    }

    /// What a premise lacks, or the step of it.
    fn lack_line(&self, side: usize) -> Option<String> {
        let pivot = self.pivot;
        match self.fault()? {
            16 if self.lacks_pivot(side) => {
                let sign = ["", "-"][side];
                Some(format!("  lacks the pivot's literal {sign}{pivot}"))
            }
            17 => {
                let (number, missing) = (self.number, self.missing_of(side, pivot));
                let line = format!("  step {number} lacks{}", listed(&missing));
                (!missing.is_empty()).then_some(line)
            }
            _ => None,
        }
    }

    /// A pivot that is no variable, or the bounds.
    fn number_line(&self, sheet: &Sheet) -> Option<String> {
        match self.fault()? {
            16 if sheet.cost(self.pivot).is_none() => Some(cost(sheet, self.pivot)),
            18 => Some(self.bound_line()),
            _ => None,
        }
    }

    fn bound_line(&self) -> String {
        let [first, second] = &self.premises;
        let (first, second) = (amount(first.bound), amount(second.bound));
        let lesser = self.lesser();
        let above = match self.step.bound {
            NONE => "none is above every cost".to_string(),
            bound => format!("{bound} is {} above it", bound - lesser),
        };
        format!("the lesser of {first} and {second} is {lesser}: {above}")
    }

    /// A mend that leaves nothing at fault in the step; or why these two steps have none.
    fn mend_lines(&self) -> Vec<String> {
        let held = self.both_ways();
        let why = match &held[..] {
            [literal] => return vec![self.mend(*literal), ANEW.to_string()],
            [] => "no variable, so that they do not resolve".to_string(),
            _ => {
                let left = "a pivot takes one away, and no list holds another both ways";
                format!("{}; {left}", joined(&held, variable))
            }
        };
        vec![format!(
            "both ways in the two steps: {why}; cite other steps"
        )]
    }

    /// `held` is the one literal of the first premise that the second holds the other way.
    fn mend(&self, held: Literal) -> String {
        let mut parts = Vec::new();
        if self.fault() == Some(16) {
            let [mut first, mut second] = self.cited;
            if !held.is_positive() {
                (first, second) = (second, first);
            }
            parts.push(format!("resolve {first} {second} on {}", held.variable()));
        }
        parts.extend(self.relisted(&self.missing(held.variable())));
        if self.step.bound > self.lesser() {
            let (lesser, bound) = (self.lesser(), amount(self.step.bound));
            parts.push(format!("write bound {lesser} instead of {bound}"));
        }
        format!("mend: {}", parts.join(", "))
    }

    /// How these literals come into the step: what it holds the other way has to go, since no list holds both.
    fn relisted(&self, missing: &[Literal]) -> Vec<String> {
        let turned = missing.iter().map(|literal| literal.negated());
        let out: Vec<Literal> = turned.filter(|literal| self.holds(literal)).collect();
        let mut parts = Vec::new();
        if !out.is_empty() {
            let list = listed(&out);
            parts.push(format!("take{list} out of the step's literals"));
        }
        if !missing.is_empty() {
            let list = listed(missing);
            parts.push(format!("add{list} to the step's literals"));
        }
        parts
    }
}
