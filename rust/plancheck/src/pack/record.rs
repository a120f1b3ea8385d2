//! The text of a record: its head, then a line for each step.

use super::{counted, Lines};
use crate::record::{width, Record};
use crate::text;
use crate::words::{Fault, Words};
use planner::format::{self, Bodies};
use planner::{Reason, Step};

pub(super) fn record(lines: &mut Lines) -> Result<Vec<u8>, Fault> {
    let mut words = lines.due("variables")?;
    let variables = words.number("the number of variables", u64::MAX)?;
    counted(&words, variables)?;
    let variables = variables as usize;
    words.end()?;
    let mut words = lines.due("claim")?;
    let claim = words.amount("the claim")?;
    words.end()?;
    let assignment = assignment(&mut lines.due("assign")?, variables)?;
    let mut steps = Bodies::default();
    while let Some(mut words) = lines.next() {
        steps.push(&body(&mut words)?);
    }
    Ok(format::record_from(claim, &assignment, &steps))
}

/// The variables that are true, or `raw` and the bytes.
fn assignment(words: &mut Words, variables: usize) -> Result<Vec<u8>, Fault> {
    if words.peek() == Some("raw") {
        words.take();
        return raw_assignment(words, variables);
    }
    let mut values = vec![false; variables];
    let mut before = 0;
    while words.peek().is_some() {
        let variable = words.number("a variable", variables as u64)? as usize;
        if variable <= before {
            return Err(words.fault(format!("variable {variable} is due before {before}")));
        }
        values[variable - 1] = true;
        before = variable;
    }
    Ok(format::assignment_bytes(&values))
}

fn raw_assignment(words: &mut Words, variables: usize) -> Result<Vec<u8>, Fault> {
    let bits = words.hex()?;
    if bits.len() != width(variables) {
        let due = width(variables);
        return Err(words.fault(format!("the assignment takes {due} bytes")));
    }
    let file = format::record_from(0, &bits, &Bodies::default());
    let record = Record::open(&file, variables).filter(|record| !record.has_spare_bits(variables));
    if let Some(record) = record {
        let plain = text::assignment_line(&record, variables);
        return Err(words.fault(format!("write these bytes as '{plain}'")));
    }
    Ok(bits)
}

fn body(words: &mut Words) -> Result<Vec<u8>, Fault> {
    let reason = match words.take() {
        Some("raw") => return raw_body(words),
        Some("copy") => Reason::Copy {
            clause: cited(words, "the clause")?,
        },
        Some("cost") => Reason::Cost,
        Some("independent") => independent(words)?,
        Some("resolve") => resolution(words)?,
        Some("weighted") => weighted(words)?,
        _ => {
            return Err(words.fault(
                "a step is 'copy', 'cost', 'independent', 'resolve', 'weighted' or 'raw' bytes",
            ))
        }
    };
    words.expect(":")?;
    let mut literals = Vec::new();
    while words.peek().is_some_and(|word| word != "bound") {
        literals.push(words.literal()?);
    }
    if literals.len() > usize::from(u16::MAX) {
        return Err(words.fault(format!("a step has {} literals at most", u16::MAX)));
    }
    words.expect("bound")?;
    let bound = words.amount("the bound")?;
    words.end()?;
    Ok(format::step_body(&Step {
        literals,
        bound,
        reason,
    }))
}

/// Bytes that are no step; a step has its own line, so that each file has one text.
fn raw_body(words: &mut Words) -> Result<Vec<u8>, Fault> {
    let bytes = words.hex()?;
    let plain = text::body_line(&bytes);
    if !plain.starts_with("raw") {
        return Err(words.fault(format!("write these bytes as '{plain}'")));
    }
    Ok(bytes)
}

fn cited(words: &mut Words, what: &str) -> Result<u32, Fault> {
    Ok(words.number(what, u64::from(u32::MAX))? as u32)
}

fn independent(words: &mut Words) -> Result<Reason, Fault> {
    let mut clauses = Vec::new();
    while words.peek().is_some_and(|word| word != ":") {
        clauses.push(cited(words, "a clause")?);
    }
    Ok(Reason::Independent { clauses })
}

fn resolution(words: &mut Words) -> Result<Reason, Fault> {
    let positive = cited(words, "the first step")?;
    let negative = cited(words, "the second step")?;
    words.expect("on")?;
    let pivot = words.number("the pivot", u64::from(u16::MAX))? as u16;
    Ok(Reason::Resolution {
        positive,
        negative,
        pivot,
    })
}

/// Without any clause the bytes are no step of this kind, and a raw line has them.
fn weighted(words: &mut Words) -> Result<Reason, Fault> {
    let mut weights = Vec::new();
    while words
        .peek()
        .is_some_and(|word| word != "over" && word != ":")
    {
        weights.push(words.weighted()?);
    }
    if weights.is_empty() {
        return Err(words.fault("a weighted step cites one clause at least: write CLAUSE*WEIGHT"));
    }
    words.expect("over")?;
    let divisor = words.number("the divisor", u64::from(u16::MAX))? as u16;
    Ok(Reason::Linear { divisor, weights })
}
