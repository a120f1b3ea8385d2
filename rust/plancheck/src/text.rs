//! Sheets and records as lines that a person can read and edit. `pack` is the way back.

use crate::record::Record;
use crate::sheet::Sheet;
use crate::steps;
use planner::{Literal, Reason, Step, NONE};
use std::fmt::Write as _;
use std::io::{self, Write};

/// Writes a valid sheet.
pub fn write_sheet(sheet: &Sheet, out: &mut dyn Write) -> io::Result<()> {
    writeln!(out, "sheet")?;
    for variable in 1..=sheet.variables {
        let cost = sheet.cost(variable).unwrap_or(0);
        writeln!(out, "cost {variable} {cost}")?;
    }
    if let Some(loss) = sheet.loss() {
        writeln!(out, "loss {loss}")?;
    }
    for number in 1..=sheet.clauses.count() {
        let literals = sheet.clause(number).unwrap_or_default();
        writeln!(out, "clause{}  # clause {number}", listed(&literals))?;
    }
    Ok(())
}

/// Writes a record whose pairs keep the rule, accepted or not.
pub fn write_record(record: &Record, variables: usize, out: &mut dyn Write) -> io::Result<()> {
    writeln!(out, "record")?;
    writeln!(out, "variables {variables}")?;
    writeln!(out, "claim {}", amount(record.claim))?;
    writeln!(out, "{}", assignment_line(record, variables))?;
    for number in 1..=record.steps.count() {
        let body = record.steps.body(number).unwrap_or_default();
        writeln!(out, "{}  # step {number}", body_line(body))?;
    }
    Ok(())
}

/// The variables that are true; the bytes themselves where bits are set that belong to no variable.
pub fn assignment_line(record: &Record, variables: usize) -> String {
    if record.has_spare_bits(variables) {
        return format!("assign raw{}", hex(record.bits));
    }
    assigned(record.true_variables(variables))
}

/// A line of the variables that are true.
pub fn assigned(variables: impl IntoIterator<Item = usize>) -> String {
    let mut line = "assign".to_string();
    for variable in variables {
        let _ = write!(line, " {variable}");
    }
    line
}

/// A step, or its bytes where they are no step.
pub fn body_line(body: &[u8]) -> String {
    match steps::read(body) {
        Some(step) => step_line(&step),
        None => format!("raw{}", hex(body)),
    }
}

pub fn step_line(step: &Step) -> String {
    let reason = match &step.reason {
        Reason::Copy { clause } => format!("copy {clause}"),
        Reason::Cost => "cost".to_string(),
        Reason::Independent { clauses } => {
            let cited = clauses.iter().map(|clause| format!(" {clause}"));
            format!("independent{}", cited.collect::<String>())
        }
        Reason::Resolution {
            positive,
            negative,
            pivot,
        } => format!("resolve {positive} {negative} on {pivot}"),
        Reason::Linear { divisor, weights } => {
            let cited = weights.iter().map(|(clause, y)| format!(" {clause}*{y}"));
            format!("weighted{} over {divisor}", cited.collect::<String>())
        }
    };
    let literals = listed(&step.literals);
    format!("{reason} :{literals} bound {}", amount(step.bound))
}

/// Each literal after a space: the variable's number, negative for a negative literal.
pub fn listed(literals: &[Literal]) -> String {
    let mut list = String::new();
    for literal in literals {
        let sign = if literal.is_positive() { "" } else { "-" };
        let _ = write!(list, " {sign}{}", literal.variable());
    }
    list
}

/// A claim or a bound.
pub fn amount(number: u64) -> String {
    match number {
        NONE => "none".to_string(),
        number => number.to_string(),
    }
}

/// Each byte after a space.
pub fn hex(bytes: &[u8]) -> String {
    let mut list = String::with_capacity(3 * bytes.len());
    for byte in bytes {
        let _ = write!(list, " {byte:02X}");
    }
    list
}
