//! A weighted step taken apart: what it adds up for each variable and for each cited clause, as a table.
//!
//! Nothing is decided here: the table shows how the bound comes about that the proved checker compares.

use crate::places::{are_in_form, clause_line, MOST};
use crate::sheet::Sheet;
use planner::Literal;
use std::collections::BTreeMap;

/// No line is wider than this, so that a terminal shows the table as it is meant.
const WIDTH: usize = 100;

/// A variable that a cited clause holds, or that the step settles true.
#[derive(Clone, Debug)]
struct Row {
    variable: usize,
    /// The divisor times the cost.
    scaled: i128,
    /// The weights of the cited clauses that hold the variable positive, and of those that hold it negative.
    positive: i128,
    negative: i128,
    /// The value that making the step's literals false gives it; nothing for an unsettled variable.
    settled: Option<bool>,
}

impl Row {
    fn remainder(&self) -> i128 {
        self.scaled - self.positive + self.negative
    }

    /// What an unsettled variable adds holds for both of its values, so that a positive remainder does not count.
    fn adds(&self) -> i128 {
        match self.settled {
            Some(true) => self.remainder(),
            Some(false) => 0,
            None => self.remainder().min(0),
        }
    }

    fn cells(&self) -> [String; 7] {
        let settled = match self.settled {
            Some(value) => value.to_string(),
            None => "unsettled".to_string(),
        };
        [
            self.variable.to_string(),
            self.scaled.to_string(),
            self.positive.to_string(),
            self.negative.to_string(),
            self.remainder().to_string(),
            settled,
            self.adds().to_string(),
        ]
    }
}

/// A cited clause.
#[derive(Clone, Copy, Debug)]
struct Entry {
    clause: u32,
    weight: u16,
    /// How many of its literals are negative.
    negatives: usize,
}

impl Entry {
    fn adds(&self) -> i128 {
        i128::from(self.weight) * (1 - self.negatives as i128)
    }

    fn lines(&self, sheet: &Sheet) -> Vec<String> {
        let mut lines = wrapped(&clause_line(sheet, self.clause as usize));
        let (weight, negatives, adds) = (self.weight, self.negatives, self.adds());
        lines.push(format!("  adds {weight} x (1 - {negatives}) = {adds}"));
        lines
    }
}

/// What a weighted step adds up. No file is so long that a sum here leaves 128 bits.
#[derive(Clone, Debug)]
pub struct Sum {
    divisor: u16,
    rows: Vec<Row>,
    entries: Vec<Entry>,
    /// How many variables have no row; they add nothing.
    left_out: usize,
    /// What a marked sheet has on top of the quotient.
    loss: Option<u32>,
}

impl Sum {
    /// Nothing where there is nothing to add up: the divisor is 0, literals or clauses do not rise or are not the sheet's.
    pub fn of(
        sheet: &Sheet,
        literals: &[Literal],
        divisor: u16,
        weights: &[(u32, u16)],
    ) -> Option<Sum> {
        let cited: Vec<u32> = weights.iter().map(|(clause, _)| *clause).collect();
        if divisor == 0 || !are_in_form(sheet, literals, &cited) {
            return None;
        }
        let (entries, held) = held(sheet, literals, weights)?;
        let row = |(variable, [positive, negative]): (usize, [i128; 2])| {
            let settled = literals.binary_search_by_key(&variable, |l| l.variable());
            Some(Row {
                variable,
                scaled: i128::from(divisor) * i128::from(sheet.cost(variable)?),
                positive,
                negative,
                settled: settled.ok().map(|place| !literals[place].is_positive()),
            })
        };
        let rows: Vec<Row> = held.into_iter().map(row).collect::<Option<_>>()?;
        let left_out = sheet.variables - rows.len();
        Some(Sum {
            divisor,
            rows,
            entries,
            left_out,
            loss: sheet.loss(),
        })
    }

    fn total(&self) -> i128 {
        added(&self.rows, Row::adds) + added(&self.entries, Entry::adds)
    }

    /// The bound that the step has to have. The loss comes last, so that it is neither divided nor rounded.
    pub fn bound(&self) -> i128 {
        let divisor = i128::from(self.divisor);
        let rounded = (self.total().max(0) + divisor - 1) / divisor;
        rounded + self.loss.map_or(0, i128::from)
    }

    /// The table, the cited clauses, the total and the bound, with the loss where there is one.
    pub fn lines(&self, sheet: &Sheet) -> Vec<String> {
        let mut lines = self.table();
        let entries = self.entries.iter().take(MOST);
        lines.extend(entries.flat_map(|entry| entry.lines(sheet)));
        lines.extend(more(&self.entries, "clauses", Entry::adds));
        let (rows, total) = (added(&self.rows, Row::adds), self.total());
        let clauses = total - rows;
        lines.push(format!(
            "variables add {rows}, clauses add {clauses}: total {total}"
        ));
        lines.push(self.bound_line(total));
        lines
    }

    /// How the bound comes from the total.
    fn bound_line(&self, total: i128) -> String {
        let (bound, divisor) = (self.bound(), self.divisor);
        match (total, self.loss) {
            (..=0, None) => "bound 0, since the total is not positive".to_string(),
            (..=0, Some(loss)) => {
                format!("bound {bound}: 0, since the total is not positive, plus the loss {loss}")
            }
            (_, None) => format!("bound {bound}: {total} / {divisor}, rounded up"),
            (_, Some(loss)) => {
                format!("bound {bound}: {total} / {divisor}, rounded up, plus the loss {loss}")
            }
        }
    }

    fn table(&self) -> Vec<String> {
        let mut lines = Vec::new();
        if !self.rows.is_empty() {
            let cost = format!("{} x cost", self.divisor);
            let head = [
                "variable",
                &cost,
                "- positive",
                "+ negative",
                "remainder",
                "settled",
                "adds",
            ];
            let mut cells = vec![head.map(String::from)];
            cells.extend(self.rows.iter().take(MOST).map(Row::cells));
            lines.extend(aligned(&cells));
        }
        lines.extend(more(&self.rows, "variables", Row::adds));
        if self.left_out > 0 {
            let count = self.left_out;
            lines.push(format!("not shown: {count} variables in no cited clause and not settled true, which add nothing"));
        }
        lines
    }
}

/// The weights of a variable's clauses, those that hold it positive and those that hold it negative.
type Held = BTreeMap<usize, [i128; 2]>;

/// The cited clauses, and the weights of each variable that has a row.
fn held(sheet: &Sheet, literals: &[Literal], weights: &[(u32, u16)]) -> Option<(Vec<Entry>, Held)> {
    let made_true = literals.iter().filter(|l| !l.is_positive());
    let mut held: Held = made_true.map(|l| (l.variable(), [0, 0])).collect();
    let mut entries = Vec::new();
    for (clause, weight) in weights.iter().copied() {
        let literals = sheet.clause(clause as usize)?;
        for literal in &literals {
            let sums = held.entry(literal.variable()).or_default();
            sums[usize::from(!literal.is_positive())] += i128::from(weight);
        }
        let negatives = literals.iter().filter(|l| !l.is_positive()).count();
        entries.push(Entry {
            clause,
            weight,
            negatives,
        });
    }
    Some((entries, held))
}

/// The lines of what a weighted step cites: the sum, or, where there is none, the clauses alone.
pub fn lines(
    sheet: &Sheet,
    literals: &[Literal],
    divisor: u16,
    weights: &[(u32, u16)],
) -> Vec<String> {
    if let Some(sum) = Sum::of(sheet, literals, divisor, weights) {
        return sum.lines(sheet);
    }
    let cited = weights.iter().take(MOST);
    let lines = cited.map(|(clause, _)| clause_line(sheet, *clause as usize));
    let mut lines: Vec<String> = lines.flat_map(|line| wrapped(&line)).collect();
    if weights.len() > MOST {
        lines.push(format!("and {} clauses more", weights.len() - MOST));
    }
    lines
}

fn added<T>(items: &[T], adds: impl Fn(&T) -> i128) -> i128 {
    items.iter().map(adds).sum()
}

/// The line for what is cut, with what it adds, so that the total can be followed.
fn more<T>(items: &[T], what: &str, adds: impl Fn(&T) -> i128) -> Option<String> {
    let cut = items.get(MOST..).filter(|cut| !cut.is_empty())?;
    let (count, adds) = (cut.len(), added(cut, adds));
    Some(format!("and {count} {what} more, which add {adds}"))
}

/// Columns as wide as their widest cell.
fn aligned(rows: &[[String; 7]]) -> Vec<String> {
    let width = |column: usize| rows.iter().map(|row| row[column].len()).max();
    let widths: [usize; 7] = std::array::from_fn(|column| width(column).unwrap_or(0));
    let line = |row: &[String; 7]| {
        let cells = row.iter().zip(widths);
        let cells = cells.map(|(cell, width)| format!("{cell:>width$}"));
        cells.collect::<Vec<_>>().join("  ")
    };
    rows.iter().map(line).collect()
}

/// A line broken at spaces where it is too wide; the rest of it is indented.
pub fn wrapped(line: &str) -> Vec<String> {
    let mut lines: Vec<String> = Vec::new();
    for word in line.split(' ') {
        match lines.last_mut() {
            None => lines.push(word.to_string()),
            Some(last) if last.len() + 1 + word.len() <= WIDTH => {
                last.push(' ');
                last.push_str(word);
            }
            Some(_) => lines.push(format!("    {word}")),
        }
    }
    lines
}
