//! The words of one line of text, and the faults that they can have.

use planner::{Literal, NONE};

/// What is wrong with a text, and in which line, counted from 1.
#[derive(Clone, Debug, PartialEq, Eq)]
pub struct Fault {
    pub line: usize,
    pub reason: String,
}

/// A line without its comment, as words that are taken from the front.
#[derive(Clone, Debug)]
pub struct Words<'a> {
    pub line: usize,
    words: std::str::SplitWhitespace<'a>,
}

impl<'a> Words<'a> {
    /// Comments begin with `#` and end with the line.
    pub fn new(line: usize, text: &'a str) -> Self {
        let content = text.split('#').next().unwrap_or("");
        Words {
            line,
            words: content.split_whitespace(),
        }
    }

    pub fn fault(&self, reason: impl Into<String>) -> Fault {
        Fault {
            line: self.line,
            reason: reason.into(),
        }
    }

    pub fn take(&mut self) -> Option<&'a str> {
        self.words.next()
    }

    /// The next word, without taking it.
    pub fn peek(&self) -> Option<&'a str> {
        self.words.clone().next()
    }

    /// Takes this very word.
    pub fn expect(&mut self, wanted: &str) -> Result<(), Fault> {
        match self.take() {
            Some(word) if word == wanted => Ok(()),
            Some(word) => Err(self.fault(format!("'{wanted}' is due here, not '{word}'"))),
            None => Err(self.fault(format!("'{wanted}' is missing"))),
        }
    }

    /// Nothing more may stand in the line.
    pub fn end(&mut self) -> Result<(), Fault> {
        match self.take() {
            Some(word) => Err(self.fault(format!("'{word}' is too much in this line"))),
            None => Ok(()),
        }
    }

    /// A number from 0 to `most`. One spelling only, so that text and bytes stay inverse.
    pub fn number(&mut self, what: &str, most: u64) -> Result<u64, Fault> {
        let Some(word) = self.take() else {
            return Err(self.fault(format!("{what} is missing")));
        };
        self.plain(what, word, most)
    }

    fn plain(&self, what: &str, word: &str, most: u64) -> Result<u64, Fault> {
        match word.parse::<u64>() {
            Ok(number) if number > most => {
                Err(self.fault(format!("{what} is {word}, above {most}")))
            }
            Ok(number) if number.to_string() == word => Ok(number),
            _ => Err(self.fault(format!("{what} is no plain number: '{word}'"))),
        }
    }

    /// A clause with its weight, `CLAUSE*WEIGHT`.
    pub fn weighted(&mut self) -> Result<(u32, u16), Fault> {
        let word = self.take().unwrap_or("");
        let Some((clause, weight)) = word.split_once('*') else {
            let reason = format!("'{word}' is no clause with a weight: write CLAUSE*WEIGHT");
            return Err(self.fault(reason));
        };
        let clause = self.plain("a clause", clause, u64::from(u32::MAX))?;
        let what = format!("the weight of clause {clause}");
        let weight = self.plain(&what, weight, u64::from(u16::MAX))?;
        Ok((clause as u32, weight as u16))
    }

    /// A claim or a bound: a number or `none`.
    pub fn amount(&mut self, what: &str) -> Result<u64, Fault> {
        if self.peek() == Some("none") {
            self.take();
            return Ok(NONE);
        }
        self.number(what, NONE - 1)
    }

    /// A literal: a variable's number, negative for a negative literal.
    pub fn literal(&mut self) -> Result<Literal, Fault> {
        let word = self.take().unwrap_or("");
        let (digits, value) = match word.strip_prefix('-') {
            Some(digits) => (digits, false),
            None => (word, true),
        };
        match digits.parse::<usize>() {
            Ok(variable)
                if (1..=Literal::LAST_VARIABLE).contains(&variable)
                    && variable.to_string() == digits =>
            {
                Ok(Literal::new(variable, value))
            }
            _ => Err(self.fault(format!(
                "'{word}' is no literal: write a variable from 1 to {}, with - in front for a negative literal",
                Literal::LAST_VARIABLE
            ))),
        }
    }

    /// The one number of a line, nothing where the line has no words. Whether it is a variable of the sheet is not looked at.
    pub fn turn(&mut self, variables: usize) -> Result<Option<u16>, Fault> {
        let Some(word) = self.take() else {
            return Ok(None);
        };
        if let Err(fault) = self.end() {
            return Err(self.fault(fault.reason + ": one variable is due"));
        }
        match self.plain("a turn", word, u64::from(u16::MAX)) {
            Ok(number) => Ok(Some(number as u16)),
            Err(_) => Err(self.fault(no_variable(&format!("'{word}'"), variables))),
        }
    }

    /// The bytes that the rest of the line spells.
    pub fn hex(&mut self) -> Result<Vec<u8>, Fault> {
        let mut bytes = Vec::new();
        while let Some(word) = self.take() {
            let byte = u8::from_str_radix(word, 16).ok();
            match byte.filter(|byte| format!("{byte:02X}") == word) {
                Some(byte) => bytes.push(byte),
                None => {
                    return Err(self.fault(format!("'{word}' is no byte: write two digits 0 to F")))
                }
            }
        }
        Ok(bytes)
    }
}

/// What is said of a turn that is of no variable, with those that it could be of.
pub fn no_variable(word: &str, variables: usize) -> String {
    format!("{word} is not a variable from 1 to {variables}")
}
