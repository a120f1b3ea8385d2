//! The commands that judge a record and say what is in it.

use super::{both, code, print, Outcome};
use crate::args::Args;
use crate::sheet::Sheet;
use crate::{explain, files, stats};
use std::io::Write;

pub(super) fn judge(args: &Args, out: &mut dyn Write) -> Outcome {
    let (sheet, record) = both(args)?;
    let answer = proved::judge(&sheet, &record);
    print(out, &format!("{}\n", answer.line()))?;
    Ok(code(&answer))
}

pub(super) fn explained(args: &Args, out: &mut dyn Write) -> Outcome {
    let (sheet, record) = both(args)?;
    let answer = proved::judge(&sheet, &record);
    for line in explain::explain(&sheet, &record, &answer) {
        print(out, &format!("{line}\n"))?;
    }
    Ok(code(&answer))
}

pub(super) fn counted(args: &Args, out: &mut dyn Write) -> Outcome {
    let (sheet, record) = both(args)?;
    let [sheet_path, record_path] = args.files()?;
    let read = files::valid_sheet(sheet_path, &sheet)?;
    let laid_out = files::laid_out(record_path, &sheet, &record)?;
    let answer = proved::judge(&sheet, &record);
    let stats = stats::stats(&laid_out);
    let [copies, costs, independent, resolutions, weighted, unreadable] = stats.kinds;
    let mut lines = vec![
        answer.line(),
        sheet_line(&read, sheet.len()),
        format!("record: {} bytes", record.len()),
        format!("steps: {} (copy {copies}, cost {costs}, independent {independent}, resolve {resolutions}, weighted {weighted})", laid_out.steps.count()),
        format!("literals in steps: {}", stats.literals),
        format!("depth of the last step: {}", stats.depth),
        format!("steps that the last one rests on: {}", stats.needed),
    ];
    // A refused record is not trimmed.
    if answer.number == 0 && stats.idle > 0 {
        let idle = stats.idle;
        lines.push(format!(
            "idle steps: {idle}; plancheck trim leaves them out"
        ));
    }
    if weighted > 0 {
        lines.push(format!("clauses with weights: {}", stats.entries));
    }
    if unreadable > 0 {
        lines.push(format!("bodies that are no step: {unreadable}"));
    }
    print(out, &(lines.join("\n") + "\n"))
}

fn sheet_line(sheet: &Sheet, bytes: usize) -> String {
    let (variables, clauses) = (sheet.variables, sheet.clauses.count());
    let loss = sheet.loss().map(|loss| format!(", loss {loss}"));
    let loss = loss.unwrap_or_default();
    format!("sheet: {variables} variables, {clauses} clauses{loss}, {bytes} bytes")
}
