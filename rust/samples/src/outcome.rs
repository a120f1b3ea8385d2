//! What answers are counted by. A number alone would not do: three answers have the number 0, and two of them accept.

use crate::NUMBERS;
use reference::{Answer, Verdict};
use std::collections::BTreeMap;
use std::fmt;

#[derive(Clone, Copy, Debug, PartialEq, Eq, PartialOrd, Ord)]
pub enum Outcome {
    Least,
    NoneExists,
    Within,
    /// With the refusal's number.
    Refused(u32),
}

impl Outcome {
    pub fn of(answer: &Answer) -> Outcome {
        match answer.verdict() {
            Verdict::Least => Outcome::Least,
            Verdict::NoneExists => Outcome::NoneExists,
            Verdict::Within => Outcome::Within,
            Verdict::Refused => Outcome::Refused(answer.number),
        }
    }

    /// Whether this is one of the two acceptances.
    pub fn accepts(self) -> bool {
        matches!(self, Outcome::Least | Outcome::NoneExists)
    }

    /// All that short files can meet: refusal 1 needs a file of 4 GB.
    pub fn of_short_files() -> impl Iterator<Item = Outcome> {
        let refusals = (2..NUMBERS as u32).map(Outcome::Refused);
        let others = [Outcome::Least, Outcome::NoneExists, Outcome::Within];
        others.into_iter().chain(refusals)
    }
}

impl fmt::Display for Outcome {
    fn fmt(&self, f: &mut fmt::Formatter) -> fmt::Result {
        match self {
            Outcome::Least => f.write_str("least"),
            Outcome::NoneExists => f.write_str("none"),
            Outcome::Within => f.write_str("within"),
            Outcome::Refused(number) => write!(f, "{number}"),
        }
    }
}

/// How often each outcome was met.
#[derive(Clone, Debug, Default, PartialEq, Eq)]
pub struct Tally(BTreeMap<Outcome, usize>);

impl Tally {
    pub fn add(&mut self, outcome: Outcome) {
        *self.0.entry(outcome).or_default() += 1;
    }

    /// Adds all that another has met.
    pub fn join(&mut self, other: &Tally) {
        for (outcome, count) in &other.0 {
            *self.0.entry(*outcome).or_default() += count;
        }
    }

    pub fn of(&self, outcome: Outcome) -> usize {
        self.0.get(&outcome).copied().unwrap_or(0)
    }

    pub fn sum(&self) -> usize {
        self.0.values().sum()
    }
}

impl fmt::Display for Tally {
    fn fmt(&self, f: &mut fmt::Formatter) -> fmt::Result {
        let counts = self.0.iter();
        let counts: Vec<String> = counts
            .map(|(met, count)| format!("{met}: {count}"))
            .collect();
        f.write_str(&counts.join(", "))
    }
}
