//! From the weighted DIMACS form to a problem. What a sheet cannot hold is refused, never bent.

use crate::words::Fault;
use planner::{Literal, Problem, MOST_CLAUSES, MOST_VARIABLES};

/// What is asked of a soft clause.
const SOFT: &str = "a soft clause has to have one negative literal, or no literal";

/// The `p` line of the older form.
#[derive(Clone, Copy, Debug)]
struct Head {
    variables: usize,
    clauses: usize,
    top: u64,
}

#[derive(Debug, Default)]
struct Import {
    head: Option<Head>,
    /// Clauses read so far, soft ones included.
    read: usize,
    /// What the soft clauses without literals come to.
    loss: u32,
    costs: Vec<u32>,
    clauses: Vec<Vec<Literal>>,
}

/// The problem of a file with a `p wcnf` line, or of the newer form with `h` in front of hard clauses.
pub fn import(text: &str) -> Result<Problem, Fault> {
    let mut import = Import::default();
    let mut last = 1;
    for (place, line) in text.lines().enumerate() {
        last = place + 1;
        let fault = |reason| Fault { line: last, reason };
        let words: Vec<&str> = line.split_whitespace().collect();
        match words.as_slice() {
            [] => {}
            [first, ..] if first.starts_with('c') => {}
            ["p", rest @ ..] => import.head(rest).map_err(fault)?,
            [weight, rest @ ..] => import.clause(weight, rest).map_err(fault)?,
        }
    }
    let fault = |reason| Fault { line: last, reason };
    import.finish().map_err(fault)
}

impl Import {
    fn head(&mut self, words: &[&str]) -> Result<(), String> {
        if self.head.is_some() || self.read > 0 {
            return Err("a 'p' line stands once, before the clauses".into());
        }
        let ["wcnf", variables, clauses, top] = words else {
            return Err("the 'p' line is 'p wcnf VARIABLES CLAUSES TOP'".into());
        };
        let variables = number("the number of variables", variables)? as usize;
        let clauses = number("the number of clauses", clauses)? as usize;
        let top = number("the top weight", top)?;
        if !(1..=MOST_VARIABLES).contains(&variables) {
            return Err(format!(
                "a sheet has 1 to {MOST_VARIABLES} variables, not {variables}"
            ));
        }
        self.costs = vec![0; variables];
        self.head = Some(Head {
            variables,
            clauses,
            top,
        });
        Ok(())
    }

    fn clause(&mut self, weight: &str, words: &[&str]) -> Result<(), String> {
        self.read += 1;
        let literals = self.literals(words)?;
        match self.soft_weight(weight)? {
            Some(weight) => self.soft(weight, &literals),
            None if self.clauses.len() == MOST_CLAUSES => {
                Err(format!("a sheet has {MOST_CLAUSES} hard clauses at most"))
            }
            None => {
                self.clauses.push(sorted(literals)?);
                Ok(())
            }
        }
    }

    /// Nothing for a hard clause.
    fn soft_weight(&self, weight: &str) -> Result<Option<u64>, String> {
        if self.head.is_none() && weight == "h" {
            return Ok(None);
        }
        let weight = number("the weight", weight)?;
        match self.head {
            Some(head) if weight > head.top => {
                Err(format!("the weight {weight} is above the top weight"))
            }
            Some(head) if weight == head.top => Ok(None),
            _ => Ok(Some(weight)),
        }
    }

    /// Only the cost of making one variable true fits a sheet, and what is lost in any case; several of either add up.
    fn soft(&mut self, weight: u64, literals: &[Literal]) -> Result<(), String> {
        let (sum, what) = match literals {
            [] => (
                &mut self.loss,
                "soft clauses without literals come to".to_string(),
            ),
            [literal] if literal.is_positive() => {
                return Err(format!("{SOFT}; this one is positive: a sheet cannot make a false variable cost something"));
            }
            [literal] => {
                let variable = literal.variable();
                let cost = &mut self.costs[literal.index()];
                (cost, format!("variable {variable} costs"))
            }
            _ => {
                let count = literals.len();
                return Err(format!("{SOFT}; this one has {count} literals"));
            }
        };
        let more = u64::from(*sum).checked_add(weight);
        let more = more.and_then(|more| u32::try_from(more).ok());
        *sum = more.ok_or_else(|| format!("{what} more than {}", u32::MAX))?;
        Ok(())
    }

    /// Literals end with 0. In the newer form a new variable makes the sheet larger.
    fn literals(&mut self, words: &[&str]) -> Result<Vec<Literal>, String> {
        let Some(("0", words)) = words.split_last().map(|(last, rest)| (*last, rest)) else {
            return Err("a clause stands in one line and ends with 0".into());
        };
        let most = self.head.map_or(MOST_VARIABLES, |head| head.variables);
        let mut literals = Vec::with_capacity(words.len());
        for word in words {
            let literal = literal(word)?;
            let variable = literal.variable();
            if variable > most {
                return Err(format!("variable {variable} is above {most}"));
            }
            if variable > self.costs.len() {
                self.costs.resize(variable, 0);
            }
            literals.push(literal);
        }
        Ok(literals)
    }

    fn finish(self) -> Result<Problem, String> {
        if let Some(head) = self.head.filter(|head| head.clauses != self.read) {
            let (due, read) = (head.clauses, self.read);
            return Err(format!(
                "the 'p' line tells {due} clauses, the file has {read}"
            ));
        }
        if self.costs.is_empty() {
            return Err("the file has no variables; a sheet has one at least".into());
        }
        Ok(Problem {
            // Without anything lost the sheet is one that an older checker reads too.
            loss: (self.loss > 0).then_some(self.loss),
            costs: self.costs,
            clauses: self.clauses,
        })
    }
}

fn number(what: &str, word: &str) -> Result<u64, String> {
    let digits = word.bytes().all(|byte| byte.is_ascii_digit());
    match word.parse() {
        Ok(number) if digits => Ok(number),
        _ => Err(format!("{what} is no number that fits: '{word}'")),
    }
}

fn literal(word: &str) -> Result<Literal, String> {
    match word.parse::<i32>() {
        Ok(0) => Err("0 stands at the end of a clause only".into()),
        Ok(number) => match number.unsigned_abs() as usize {
            variable if variable <= Literal::LAST_VARIABLE => {
                Ok(Literal::new(variable, number > 0))
            }
            variable => Err(format!("variable {variable} is above {MOST_VARIABLES}")),
        },
        Err(_) => Err(format!("'{word}' is no literal")),
    }
}

fn sorted(mut literals: Vec<Literal>) -> Result<Vec<Literal>, String> {
    literals.sort_unstable();
    for pair in literals.windows(2) {
        let variable = pair[0].variable();
        if pair[0] == pair[1] {
            return Err(format!(
                "the literal of variable {variable} stands there twice"
            ));
        }
        if variable == pair[1].variable() {
            return Err(format!("variable {variable} stands there both ways"));
        }
    }
    Ok(literals)
}
