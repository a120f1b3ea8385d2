//! From text to bytes. Whatever the fields of a file can hold is written, right or wrong: judging comes later.

mod record;

use crate::words::{Fault, Words};
use planner::format::{self, MARK};
use planner::{Literal, Problem};

/// The greatest n that a field without a mark can tell: one more would be read as the mark.
const MOST_COUNTED: u64 = MARK as u64 - 1;

/// What a text turned out to be.
#[derive(Clone, Copy, Debug, PartialEq, Eq)]
pub enum Packed {
    Sheet,
    Record,
}

impl Packed {
    pub fn name(self) -> &'static str {
        match self {
            Packed::Sheet => "sheet",
            Packed::Record => "record",
        }
    }
}

/// The lines that hold something, and at the end the number of the last line.
struct Lines<'a> {
    lines: std::iter::Enumerate<std::str::Lines<'a>>,
    last: usize,
}

impl<'a> Lines<'a> {
    fn new(text: &'a str) -> Self {
        let lines = text.lines().enumerate();
        Lines { lines, last: 0 }
    }

    fn next(&mut self) -> Option<Words<'a>> {
        for (place, line) in self.lines.by_ref() {
            self.last = place + 1;
            let words = Words::new(place + 1, line);
            if words.peek().is_some() {
                return Some(words);
            }
        }
        None
    }

    /// The next line, which has to begin with this word.
    fn due(&mut self, word: &str) -> Result<Words<'a>, Fault> {
        let last = self.last;
        let mut words = self.next().ok_or(Fault {
            line: last.max(1),
            reason: format!("a line '{word}' is due after this one"),
        })?;
        words.expect(word)?;
        Ok(words)
    }
}

/// The file that the text describes.
pub fn pack(text: &str) -> Result<(Packed, Vec<u8>), Fault> {
    let mut lines = Lines::new(text);
    let Some(mut first) = lines.next() else {
        let reason = "the text is empty: begin with a line 'sheet' or 'record'".into();
        return Err(Fault { line: 1, reason });
    };
    let (packed, bytes) = match first.take() {
        Some("sheet") => (Packed::Sheet, first.end().and_then(|()| sheet(&mut lines))?),
        Some("record") => (
            Packed::Record,
            first.end().and_then(|()| record::record(&mut lines))?,
        ),
        _ => return Err(first.fault("begin with a line 'sheet' or 'record'")),
    };
    match u32::try_from(bytes.len()) {
        Ok(_) => Ok((packed, bytes)),
        Err(_) => Err(Fault {
            line: lines.last,
            reason: format!("the file grows above {} bytes", u32::MAX),
        }),
    }
}

fn sheet(lines: &mut Lines) -> Result<Vec<u8>, Fault> {
    let mut problem = Problem {
        loss: None,
        costs: Vec::new(),
        clauses: Vec::new(),
    };
    while let Some(mut words) = lines.next() {
        match words.take() {
            Some("cost") => problem.costs.push(cost(&mut words, &problem)?),
            Some("loss") => problem.loss = Some(loss(&mut words, &problem)?),
            Some("clause") => problem.clauses.push(clause(&mut words)?),
            _ => return Err(words.fault("a sheet has lines 'cost', 'loss' and 'clause'")),
        }
        if problem.clauses.len() > usize::from(u16::MAX) {
            return Err(words.fault(format!("a sheet counts to {} clauses at most", u16::MAX)));
        }
    }
    Ok(format::sheet(&problem))
}

/// `cost VARIABLE COST`, the variables in order without a gap.
fn cost(words: &mut Words, before: &Problem) -> Result<u32, Fault> {
    if !before.clauses.is_empty() {
        return Err(words.fault("costs stand before the clauses"));
    }
    if before.loss.is_some() {
        return Err(words.fault("costs stand before the loss"));
    }
    let due = before.variables() + 1;
    counted(words, due as u64)?;
    let variable = words.number("the variable", u64::from(u16::MAX))?;
    if variable != due as u64 {
        return Err(words.fault(format!("the cost of variable {due} is due")));
    }
    let cost = words.number("the cost", u64::from(u32::MAX))?;
    words.end()?;
    Ok(cost as u32)
}

/// A fault where no sheet can count to so many variables. A record has as many as its sheet.
fn counted(words: &Words, variables: u64) -> Result<(), Fault> {
    if variables > MOST_COUNTED {
        let most = format!("a sheet counts to {MOST_COUNTED} variables at most: n has 15 bits, and the highest bit of its field is the mark");
        return Err(words.fault(most));
    }
    Ok(())
}

/// `loss LOSS`, which makes it a marked sheet. It stands where the file has it.
fn loss(words: &mut Words, before: &Problem) -> Result<u32, Fault> {
    if before.loss.is_some() {
        return Err(words.fault("a sheet has one loss, and this is the second"));
    }
    if !before.clauses.is_empty() {
        return Err(words.fault("the loss stands before the clauses"));
    }
    let loss = words.number("the loss", u64::from(u32::MAX))?;
    words.end()?;
    Ok(loss as u32)
}

/// A clause of a text, with the line that it stands in.
#[derive(Clone, Debug, PartialEq, Eq)]
pub struct Clause {
    pub line: usize,
    pub literals: Vec<Literal>,
}

/// The clauses of a text that has nothing else, one at least: a text without any is hardly the one that was meant.
pub fn clauses(text: &str) -> Result<Vec<Clause>, Fault> {
    let mut lines = Lines::new(text);
    let mut clauses = Vec::new();
    while let Some(mut words) = lines.next() {
        let word = words.take().unwrap_or_default();
        if word != "clause" {
            let others = format!("'clause' is due here, not '{word}': nothing else can be added");
            return Err(words.fault(others));
        }
        let (line, literals) = (words.line, clause(&mut words)?);
        clauses.push(Clause { line, literals });
    }
    if clauses.is_empty() {
        let reason = "there is nothing to add: write lines 'clause'".into();
        return Err(Fault { line: 1, reason });
    }
    Ok(clauses)
}

fn clause(words: &mut Words) -> Result<Vec<Literal>, Fault> {
    let mut literals = Vec::new();
    while words.peek().is_some() {
        literals.push(words.literal()?);
    }
    Ok(literals)
}
