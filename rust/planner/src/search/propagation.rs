//! Unit propagation. Each clause watches two of its literals, so that only a clause one of whose
//! watched literals turns false is looked at.

use super::trail::Trail;
use crate::problem::Literal;

/// A clause of the sheet or a learned one; the first two literals are the watched ones.
pub struct Held {
    pub literals: Vec<Literal>,
    /// The step that derives the clause; clauses of the sheet get theirs when first needed.
    pub step: Option<u32>,
}

pub struct Store {
    pub clauses: Vec<Held>,
    /// The clauses that watch each literal, by its code.
    watchers: Vec<Vec<usize>>,
}

impl Store {
    pub fn new(variables: usize) -> Self {
        let watchers = vec![Vec::new(); 2 * variables + 2];
        Store {
            clauses: Vec::new(),
            watchers,
        }
    }

    /// Adds a clause that watches its first two literals; a shorter one never gets watched.
    pub fn add(&mut self, literals: Vec<Literal>, step: Option<u32>) -> usize {
        let number = self.clauses.len();
        if literals.len() >= 2 {
            for literal in &literals[..2] {
                self.watchers[usize::from(literal.code())].push(number);
            }
        }
        self.clauses.push(Held { literals, step });
        number
    }

    /// Sets every literal that is forced, until none is or a clause has all its literals false.
    pub fn propagate(&mut self, trail: &mut Trail) -> Option<usize> {
        while let Some(literal) = trail.order().get(trail.propagated).copied() {
            trail.propagated += 1;
            let broken = self.visit(literal.negated(), trail);
            if broken.is_some() {
                return broken;
            }
        }
        None
    }

    /// Looks at every clause that watches a literal which has just become false.
    fn visit(&mut self, fallen: Literal, trail: &mut Trail) -> Option<usize> {
        let code = usize::from(fallen.code());
        let mut watching = std::mem::take(&mut self.watchers[code]);
        let mut broken = None;
        watching.retain(|number| {
            if broken.is_some() || self.rewatched(*number, fallen, trail) {
                return broken.is_some();
            }
            let other = self.clauses[*number].literals[0];
            match trail.value(other) {
                Some(false) => broken = Some(*number),
                Some(true) => {}
                None => trail.assign(other, Some(*number)),
            }
            true
        });
        self.watchers[code].append(&mut watching);
        broken
    }

    /// Moves the watch to a literal that is not false, if there is one and the clause needs it.
    fn rewatched(&mut self, number: usize, fallen: Literal, trail: &Trail) -> bool {
        let literals = &mut self.clauses[number].literals;
        if literals[0] == fallen {
            literals.swap(0, 1);
        }
        if trail.value(literals[0]) == Some(true) {
            return false;
        }
        let free = (2..literals.len()).find(|place| !trail.is_false(literals[*place]));
        let Some(place) = free else { return false };
        literals.swap(1, place);
        self.watchers[usize::from(literals[1].code())].push(number);
        true
    }
}
