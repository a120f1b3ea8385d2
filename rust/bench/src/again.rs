//! What is forced, looked for from the first clause on whenever something was settled.

use crate::masks::{Limits, Masks, Problem, State};
use crate::search::{answer, search, Choice, Force};
use proved::Found;

/// Searches a sheet, and begins with the first clause again after each literal that is forced.
pub fn search_again(sheet: &[u8], budget: u64) -> Found {
    answer(sheet, |problem| search::<Again>(problem, budget))
}

struct Again(Vec<Masks>);

impl Force for Again {
    fn new(problem: &Problem) -> Self {
        Again(problem.clauses.clone())
    }

    fn force(&mut self, limits: &Limits, state: &mut State, _: Choice) -> bool {
        loop {
            let mut new = 0;
            for &clause in &self.0 {
                if !limits.look(state, clause, &mut new) {
                    return false;
                }
                if new != 0 {
                    break;
                }
            }
            if new == 0 {
                return true;
            }
        }
    }
}
