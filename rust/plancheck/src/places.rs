//! A clause or a step as one line that says where it stands.

use crate::bodies::Bodies;
use crate::record::Record;
use crate::sheet::Sheet;
use crate::{steps, text, weighted};
use planner::bounds::{cost_bound, independent_bound};
use planner::{Literal, Reason, Step};

/// A citation of more clauses than this is cut when shown.
pub const MOST: usize = 24;
/// How many bytes are shown of a body that cannot be read.
const MOST_BYTES: usize = 64;

/// `clause 2 (sheet, byte 32): 1 -2`
pub fn clause_line(sheet: &Sheet, number: usize) -> String {
    let Some((start, _)) = sheet.clauses.pair(number) else {
        return format!("clause {number} (sheet): there is no such clause");
    };
    let content = match (sheet.clause(number), sheet.clauses.body(number)) {
        (Some(literals), _) if literals.is_empty() => " no literals".to_string(),
        (Some(literals), _) => text::listed(&literals),
        (None, Some(body)) => format!(" raw{}", cut(body)),
        (None, None) => " outside of the file".to_string(),
    };
    format!("clause {number} (sheet, byte {start}):{content}")
}

/// `step 3 (record, byte 93): resolve 1 2 on 2 : 1 bound none`
pub fn step_line(record: &Record, number: usize) -> String {
    let Some((start, _)) = record.steps.pair(number) else {
        return format!("step {number} (record): there is no such step");
    };
    let content = match record.steps.body(number) {
        Some(body) => match steps::read(body) {
            Some(step) => text::step_line(&step),
            None => format!("raw{}", cut(body)),
        },
        None => "outside of the file".to_string(),
    };
    format!("step {number} (record, byte {start}): {content}")
}

/// The pair of a body, and what the rule asks of it.
pub fn pair_line(bodies: &Bodies, what: &str, file: &str, number: usize, size: usize) -> String {
    let place = bodies.pair_place(number);
    let Some((offset, length)) = bodies.pair(number) else {
        return format!("{what} {number} ({file}, pair at byte {place}): outside of the file");
    };
    let due = bodies.due_offset(number).unwrap_or(0);
    let mut line = format!(
        "{what} {number} ({file}, pair at byte {place}): offset {offset}, length {length}; the offset due is {due}"
    );
    if number == bodies.count() {
        line += &format!(
            ", and the end due is {size}, where it is {}",
            offset + length
        );
    }
    line
}

/// The lines of what a step cites: clauses, steps, or what it adds up.
pub fn cited_lines(sheet: &Sheet, record: &Record, number: usize) -> Vec<String> {
    let body = record.steps.body(number);
    let Some(step) = body.and_then(steps::read) else {
        return Vec::new();
    };
    match &step.reason {
        Reason::Copy { clause } => vec![clause_line(sheet, *clause as usize)],
        Reason::Cost => paid_lines(sheet, &step),
        Reason::Independent { clauses } => {
            let mut lines = added_lines(sheet, &step, clauses);
            lines.extend(sum_line(sheet, &step, clauses));
            lines
        }
        Reason::Resolution {
            positive, negative, ..
        } => [*positive, *negative]
            .map(|cited| step_line(record, cited as usize))
            .to_vec(),
        Reason::Linear { divisor, weights } => {
            weighted::lines(sheet, &step.literals, *divisor, weights)
        }
    }
}

/// What a cost step adds up. With a loss in it the sum is told: a bound that is the costs alone looks right beside them.
fn paid_lines(sheet: &Sheet, step: &Step) -> Vec<String> {
    let lines = cost_lines(sheet, step);
    if !sheet.marked {
        return lines;
    }
    let negative = step.literals.iter().filter(|l| !l.is_positive());
    let paid = negative.filter_map(|l| sheet.cost(l.variable()));
    let sum = sheet.standing_loss() + paid.map(u64::from).sum::<u64>();
    let lines = lines.into_iter();
    lines
        .map(|line| format!("{line}; together {sum}"))
        .collect()
}

/// What an independent set adds up: the costs made true, the loss, and the costs of the clauses that it cites.
pub fn added_lines(sheet: &Sheet, step: &Step, clauses: &[u32]) -> Vec<String> {
    let mut lines = cost_lines(sheet, step);
    for clause in clauses.iter().take(MOST) {
        lines.push(clause_line(sheet, *clause as usize));
        lines.extend(clause_costs(sheet, *clause as usize));
    }
    if clauses.len() > MOST {
        lines.push(format!("and {} clauses more", clauses.len() - MOST));
    }
    lines
}

/// What an independent set comes to, told of a marked sheet as a cost step's sum is. Nothing where the step is no such set.
fn sum_line(sheet: &Sheet, step: &Step, clauses: &[u32]) -> Option<String> {
    if !sheet.marked || clauses.is_empty() || !are_in_form(sheet, &step.literals, clauses) {
        return None;
    }
    let problem = sheet.problem()?;
    let sum = independent_bound(&problem, &step.literals, clauses)?;
    let added = sum - cost_bound(&problem, &step.literals);
    Some(format!("clauses add {added}; together {sum}"))
}

/// Whether literals and cited clauses rise and are the sheet's.
pub fn are_in_form(sheet: &Sheet, literals: &[Literal], cited: &[u32]) -> bool {
    let rising = literals.is_sorted_by(|a, b| a.variable() < b.variable());
    let known = literals
        .last()
        .is_none_or(|l| l.variable() <= sheet.variables);
    let clauses = 1..=sheet.clauses.count() as u32;
    let cited_rise = cited.is_sorted_by(|a, b| a < b);
    rising && known && cited_rise && cited.iter().all(|number| clauses.contains(number))
}

/// What the variables cost that making the step's literals false makes true, and the loss.
fn cost_lines(sheet: &Sheet, step: &Step) -> Vec<String> {
    let negative = step.literals.iter().filter(|l| !l.is_positive());
    let costs: Vec<_> = negative.map(|l| cost(sheet, l.variable())).collect();
    let line = match costs.as_slice() {
        [] if !sheet.marked => return Vec::new(),
        [] => "nothing is made true".to_string(),
        _ => format!("costs made true: {}", costs.join(", ")),
    };
    vec![with_loss(sheet, line)]
}

/// A list of costs, and behind it the loss where the sheet has the mark.
pub fn with_loss(sheet: &Sheet, costs: String) -> String {
    match sheet.loss() {
        Some(loss) => format!("{costs}; loss {loss}"),
        None => costs,
    }
}

/// Nothing for a clause without literals.
pub fn clause_costs(sheet: &Sheet, number: usize) -> Option<String> {
    let literals = sheet.clause(number)?;
    let costs: Vec<_> = literals.iter().map(|l| cost(sheet, l.variable())).collect();
    (!costs.is_empty()).then(|| format!("  costs there: {}", costs.join(", ")))
}

/// `variable 3 costs 7`
pub fn cost(sheet: &Sheet, variable: usize) -> String {
    match sheet.cost(variable) {
        Some(cost) => format!("variable {variable} costs {cost}"),
        None => format!("variable {variable} is not in the sheet"),
    }
}

fn cut(bytes: &[u8]) -> String {
    match bytes.get(..MOST_BYTES) {
        Some(first) if bytes.len() > MOST_BYTES => {
            format!(
                "{} and {} bytes more",
                text::hex(first),
                bytes.len() - MOST_BYTES
            )
        }
        _ => text::hex(bytes),
    }
}
