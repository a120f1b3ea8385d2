//! A sheet of at most 64 variables as numbers of 64 bits, in which variable v is bit v - 1.

use crate::read::{code, fault, Codes, Fault};
use crate::refusal;
use crate::sheet::Parts;

/// As many variables as a sheet may have to be searched.
pub(crate) const SEARCHED: usize = 64;

/// A clause: the variables of its positive literals, and those of its negative ones.
pub(crate) type Masks = [u64; 2];

/// Which variables are settled, and what the loss and the true ones cost.
#[derive(Clone, Copy, Default)]
pub(crate) struct State {
    pub trues: u64,
    pub falses: u64,
    pub cost: u64,
}

impl State {
    pub fn settled(&self) -> u64 {
        self.trues | self.falses
    }

    /// The variables of the clause's literals that are not false.
    pub fn rest(&self, [positive, negative]: Masks) -> u64 {
        (positive & !self.falses) | (negative & !self.trues)
    }

    pub fn satisfies(&self, [positive, negative]: Masks) -> bool {
        (positive & self.trues) | (negative & self.falses) != 0
    }
}

/// What leaves a branch for its cost.
pub(crate) struct Limits {
    costs: [u64; SEARCHED],
    /// The best plan's cost, the largest number while there is none.
    pub best: u64,
}

impl Limits {
    /// Makes a variable true; whether that is still cheaper than the best plan. Where it is not, the branch is left whatever
    /// else is forced in it.
    #[inline(always)]
    pub fn pay(&self, state: &mut State, variable: u64) -> bool {
        state.trues |= variable;
        state.cost += self.costs[variable.trailing_zeros() as usize % SEARCHED];
        state.cost < self.best
    }

    /// Makes the literal true that a clause forces; as above.
    #[inline(always)]
    pub fn settle(&self, state: &mut State, [positive, _]: Masks, variable: u64) -> bool {
        if positive & variable != 0 {
            return self.pay(state, variable);
        }
        state.falses |= variable;
        true
    }

    /// Settles what a clause forces, if it does, and adds it to `new`; false where the branch is to be left.
    #[inline(always)]
    pub fn look(&self, state: &mut State, clause: Masks, new: &mut u64) -> bool {
        let rest = state.rest(clause);
        if rest & rest.wrapping_sub(1) != 0 || rest & state.settled() != 0 {
            return true;
        }
        *new |= rest;
        rest != 0 && self.settle(state, clause, rest)
    }
}

/// A sheet, with what is forced before the first choice done.
pub(crate) struct Problem {
    /// The variables of the sheet.
    pub all: u64,
    pub limits: Limits,
    pub start: State,
    /// What is left of the clauses that are not satisfied: their unsettled literals, two at least.
    pub clauses: Vec<Masks>,
}

impl Problem {
    /// Refusals 1 to 4 and 26; nothing where a clause is false before the first choice.
    pub fn read(sheet: &[u8]) -> Result<Option<Self>, Fault> {
        let parts = Parts::alone(sheet)?;
        let n = parts.costs.len();
        if n > SEARCHED {
            return fault(refusal::MANY_PADDLES, 0);
        }
        let mut limits = Limits {
            costs: [0; SEARCHED],
            best: u64::MAX,
        };
        for (place, &cost) in limits.costs.iter_mut().zip(parts.costs) {
            *place = u32::from_le_bytes(cost).into();
        }
        let lists = parts.by_clause(parts.all_literals());
        let mut problem = Problem {
            all: u64::MAX >> (SEARCHED - n),
            limits,
            start: State {
                cost: parts.loss.into(),
                ..State::default()
            },
            clauses: lists.into_iter().map(masks).collect(),
        };
        Ok(problem.begin().then_some(problem))
    }

    /// Settles what is forced, sweep by sweep, and leaves out what is settled; false at a false clause.
    fn begin(&mut self) -> bool {
        let mut new = u64::MAX;
        while new != 0 {
            new = 0;
            for &clause in &self.clauses {
                if !self.limits.look(&mut self.start, clause, &mut new) {
                    return false;
                }
            }
        }
        let (start, left) = (self.start, !self.start.settled());
        self.clauses.retain(|&clause| !start.satisfies(clause));
        for clause in &mut self.clauses {
            *clause = clause.map(|variables| variables & left);
        }
        true
    }
}

fn masks(list: Codes) -> Masks {
    let mut masks = [0, 0];
    for &stored in list {
        let code = code(stored);
        masks[code % 2] |= 1 << ((code / 2 - 1) % SEARCHED);
    }
    masks
}

/// The variables of a mask, from 0.
pub(crate) fn variables(mut mask: u64) -> impl Iterator<Item = usize> {
    std::iter::from_fn(move || {
        let variable = mask.trailing_zeros() as usize;
        let found = mask != 0;
        mask &= mask.wrapping_sub(1);
        found.then_some(variable % SEARCHED)
    })
}

/// An array of which all is zero or empty, on the heap.
pub(crate) fn boxed<T: Clone, const N: usize>(item: T) -> Box<[T; N]> {
    match vec![item; N].into_boxed_slice().try_into() {
        Ok(array) => array,
        Err(_) => unreachable!("it has N items"),
    }
}
