//! The partial assignment of the search, in the order in which it grew.

use crate::problem::Literal;

/// What is known of one variable that has a value.
#[derive(Clone, Copy)]
struct Entry {
    value: bool,
    level: usize,
    place: usize,
    /// The clause that forced the value; nothing for a decision.
    reason: Option<usize>,
}

pub struct Trail {
    entries: Vec<Option<Entry>>,
    order: Vec<Literal>,
    /// Where each decision level after level 0 starts in the order.
    starts: Vec<usize>,
    /// How much of the order has been propagated.
    pub propagated: usize,
}

impl Trail {
    pub fn new(variables: usize) -> Self {
        let (order, starts) = (Vec::with_capacity(variables), Vec::new());
        Trail {
            entries: vec![None; variables],
            order,
            starts,
            propagated: 0,
        }
    }

    pub fn level(&self) -> usize {
        self.starts.len()
    }

    /// The literals that are true, oldest first.
    pub fn order(&self) -> &[Literal] {
        &self.order
    }

    /// The value of the literal, where its variable has one.
    pub fn value(&self, literal: Literal) -> Option<bool> {
        self.entries[literal.index()].map(|entry| entry.value == literal.is_positive())
    }

    pub fn is_false(&self, literal: Literal) -> bool {
        self.value(literal) == Some(false)
    }

    fn entry(&self, literal: Literal) -> Entry {
        self.entries[literal.index()].expect("asked only of variables that have a value")
    }

    pub fn level_of(&self, literal: Literal) -> usize {
        self.entry(literal).level
    }

    pub fn place_of(&self, literal: Literal) -> usize {
        self.entry(literal).place
    }

    pub fn reason_of(&self, literal: Literal) -> Option<usize> {
        self.entry(literal).reason
    }

    /// Opens a level with a literal that nothing forces.
    pub fn decide(&mut self, literal: Literal) {
        self.starts.push(self.order.len());
        self.assign(literal, None);
    }

    pub fn assign(&mut self, literal: Literal, reason: Option<usize>) {
        let (value, level, place) = (literal.is_positive(), self.level(), self.order.len());
        self.entries[literal.index()] = Some(Entry {
            value,
            level,
            place,
            reason,
        });
        self.order.push(literal);
    }

    /// Takes back every level after this one.
    pub fn return_to(&mut self, level: usize) {
        if level >= self.level() {
            return;
        }
        let start = self.starts[level];
        for literal in self.order.drain(start..) {
            self.entries[literal.index()] = None;
        }
        self.starts.truncate(level);
        self.propagated = start;
    }

    /// The true variables as values; a variable without a value counts as false.
    pub fn assignment(&self) -> Vec<bool> {
        self.entries
            .iter()
            .map(|entry| entry.is_some_and(|entry| entry.value))
            .collect()
    }
}
