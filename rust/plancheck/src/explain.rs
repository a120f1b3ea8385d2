//! An answer with the place that it names: the proved checker's line, a sentence, and what stands there.

use crate::places::{cited_lines, clause_line, cost, pair_line, step_line, with_loss};
use crate::record::{Record, ASSIGNMENT};
use crate::refusals::sentence;
use crate::sheet::{is_marked, Sheet};
use crate::{dependence, resolution, text, weights};
use proved::{Answer, Verdict, NONE};

/// The lines for the answer that the proved checker gave to these files.
pub fn explain(sheet: &[u8], record: &[u8], answer: &Answer) -> Vec<String> {
    let mut lines = vec![answer.line(), sentence(answer, is_marked(sheet))];
    lines.extend(shown(sheet, record, answer));
    lines
}

/// What a sheet has at the place of its own refusal, where there is no record beside it.
pub fn sheet_alone(bytes: &[u8], answer: &Answer) -> Vec<String> {
    match Sheet::open(bytes).filter(|_| answer.number != 1) {
        Some(sheet) => in_sheet(&sheet, bytes.len(), answer),
        None => vec![format!("sheet: {} bytes", bytes.len())],
    }
}

fn shown(sheet_bytes: &[u8], record_bytes: &[u8], answer: &Answer) -> Vec<String> {
    let sizes = || {
        let (sheet, record) = (sheet_bytes.len(), record_bytes.len());
        vec![format!("sheet: {sheet} bytes; record: {record} bytes")]
    };
    if answer.number == 1 {
        return sizes();
    }
    let Some(sheet) = Sheet::open(sheet_bytes) else {
        return sizes();
    };
    if (2..=4).contains(&answer.number) {
        return in_sheet(&sheet, sheet_bytes.len(), answer);
    }
    match Record::open(record_bytes, sheet.variables) {
        Some(record) if answer.verdict() != Verdict::Refused => unrefused(&sheet, &record, answer),
        Some(record) if answer.number < 8 => {
            in_record_head(&sheet, &record, record_bytes.len(), answer)
        }
        Some(record) => in_claim_or_step(&sheet, &record, answer),
        None => sizes(),
    }
}

/// The claim and the last step: of an acceptance, and of a record within a gap, where the two do not meet.
fn unrefused(sheet: &Sheet, record: &Record, answer: &Answer) -> Vec<String> {
    let mut lines = Vec::new();
    if answer.cost != NONE {
        lines.push(true_line(sheet, record));
    }
    let last = answer.step_count as usize;
    if answer.verdict() == Verdict::Within {
        let (cost, gap) = (answer.cost, answer.gap);
        lines.push(format!(
            "the last step's bound is {}: {gap} below the claim, {cost}",
            cost - gap
        ));
    }
    lines.push(step_line(record, last));
    lines.extend(cited_lines(sheet, record, last));
    lines
}

fn in_sheet(sheet: &Sheet, size: usize, answer: &Answer) -> Vec<String> {
    let place = answer.place as usize;
    let end = sheet.clauses.table_end();
    if answer.number == 4 {
        return vec![clause_line(sheet, place)];
    }
    if answer.number == 3 && place > 0 {
        return vec![pair_line(&sheet.clauses, "clause", "sheet", place, size)];
    }
    let (mark, parts) = match sheet.marked {
        true => ("marked, ", "costs, loss and pairs"),
        false => ("", "costs and pairs"),
    };
    vec![format!(
        "sheet (byte 0): {mark}{} variables, {} clauses; {parts} end at byte {end}, the file has {size} bytes",
        sheet.variables,
        sheet.clauses.count()
    )]
}

fn in_record_head(sheet: &Sheet, record: &Record, size: usize, answer: &Answer) -> Vec<String> {
    let claim = text::amount(record.claim);
    match answer.number {
        7 => vec![pair_line(
            &record.steps,
            "step",
            "record",
            answer.place as usize,
            size,
        )],
        6 => vec![format!(
            "assignment (record, byte {ASSIGNMENT}), {} variables:{}; claim {claim}",
            sheet.variables,
            text::hex(record.bits)
        )],
        _ => vec![format!(
            "record (byte 0): claim {claim}, {} steps; assignment and pairs end at byte {}, the file has {size} bytes",
            record.steps.count(),
            record.steps.table_end()
        )],
    }
}

fn in_claim_or_step(sheet: &Sheet, record: &Record, answer: &Answer) -> Vec<String> {
    let place = answer.place as usize;
    let claim = format!("claim (record, byte 0): {}", text::amount(record.claim));
    match answer.number {
        10 => vec![clause_line(sheet, place), value_line(sheet, record, place)],
        11 => vec![claim, true_line(sheet, record)],
        number => {
            let mut lines = vec![step_line(record, place)];
            if number == 9 {
                lines.push(format!("the sheet has {} clauses", sheet.clauses.count()));
            }
            if number == 19 {
                lines.push(claim);
            }
            let mended = dependence::lines(sheet, record, answer);
            let mended = mended.or_else(|| weights::lines(sheet, record, answer));
            let mended = mended.or_else(|| resolution::lines(sheet, record, answer));
            lines.extend(mended.unwrap_or_else(|| cited_lines(sheet, record, place)));
            lines
        }
    }
}

/// The values of a clause's variables.
fn value_line(sheet: &Sheet, record: &Record, clause: usize) -> String {
    let literals = sheet.clause(clause).unwrap_or_default();
    let values = literals.iter().map(|literal| {
        let variable = literal.variable();
        format!("variable {variable} is {}", record.is_true(variable))
    });
    let values: Vec<_> = values.collect();
    if values.is_empty() {
        return "nothing satisfies a clause without literals".to_string();
    }
    format!(
        "assignment (record, byte {ASSIGNMENT}): {}",
        values.join(", ")
    )
}

/// The true variables and their costs, with the loss of a marked sheet.
fn true_line(sheet: &Sheet, record: &Record) -> String {
    let variables = record.true_variables(sheet.variables);
    let costs: Vec<_> = variables.iter().map(|v| cost(sheet, *v)).collect();
    let paid = variables.iter().filter_map(|v| sheet.cost(*v));
    let sum = sheet.standing_loss() + paid.map(u64::from).sum::<u64>();
    let line = match costs.as_slice() {
        [] => "nothing is true".to_string(),
        _ => format!("true are: {}", costs.join(", ")),
    };
    let line = with_loss(sheet, line);
    let together = match (costs.is_empty(), sheet.marked) {
        (true, false) => String::new(),
        _ => format!("; together {sum}"),
    };
    format!("assignment (record, byte {ASSIGNMENT}): {line}{together}")
}
