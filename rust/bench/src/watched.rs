//! What is forced, found by two literals of each clause that are not false: as long as there are two, it forces nothing.

use crate::masks::{boxed, variables, Limits, Masks, Problem, State, SEARCHED};
use crate::search::{answer, search, Choice, Force};
use proved::Found;

/// Searches a sheet, and looks at a clause only where one of two literals becomes false, which it then watches no more.
pub fn search_watched(sheet: &[u8], budget: u64) -> Found {
    answer(sheet, |problem| match problem.clauses.len().div_ceil(64) {
        0..=1 => search::<Watched<1>>(problem, budget),
        2 => search::<Watched<2>>(problem, budget),
        3..=4 => search::<Watched<4>>(problem, budget),
        5..=8 => search::<Watched<8>>(problem, budget),
        9..=16 => search::<Watched<16>>(problem, budget),
        17..=32 => search::<Watched<32>>(problem, budget),
        _ => search::<Watched<64>>(problem, budget),
    })
}

/// W times 64 clauses; clause 64 k + i is bit i of word k.
///
/// A watched literal may be false where another one of the clause is true. It then became false in the same branch as that one
/// became true or in one below, so that it is unsettled again no later: nothing is taken back when a branch is left.
struct Watched<const W: usize> {
    clauses: Box<[[Masks; 64]; W]>,
    /// The two variables of each clause.
    watches: Box<[[u64; 64]; W]>,
    /// For each variable the clauses that watch it as a positive literal, and as a negative one.
    rows: Box<[[[u64; W]; 2]; SEARCHED]>,
}

impl<const W: usize> Force for Watched<W> {
    fn new(problem: &Problem) -> Self {
        let mut watched = Watched {
            clauses: boxed([[0; 2]; 64]),
            watches: boxed([0; 64]),
            rows: boxed([[0; W]; 2]),
        };
        for (number, &clause) in problem.clauses.iter().enumerate() {
            let (word, bit) = (number / 64, number % 64);
            let both = clause[0] | clause[1];
            let one = highest(both);
            let two = one | highest(both & !one);
            watched.clauses[word][bit] = clause;
            watched.watches[word][bit] = two;
            for variable in variables(two) {
                watched.rows[variable][sign(clause, variable)][word] |= 1 << bit;
            }
        }
        watched
    }

    #[inline(always)]
    fn force(&mut self, limits: &Limits, state: &mut State, choice: Choice) -> bool {
        let mut new: u64 = 1 << choice.variable;
        while new != 0 {
            let variable = new.trailing_zeros() as usize % SEARCHED;
            new &= new - 1;
            for word in 0..W {
                if !self.visit(limits, state, variable, word, &mut new) {
                    return false;
                }
            }
        }
        true
    }
}

impl<const W: usize> Watched<W> {
    /// Looks at the clauses of a word that watch the variable's false literal.
    #[inline(always)]
    fn visit(
        &mut self,
        limits: &Limits,
        state: &mut State,
        variable: usize,
        word: usize,
        new: &mut u64,
    ) -> bool {
        let is_true = (state.trues >> variable & 1) as usize;
        let mut look = self.rows[variable][is_true][word];
        while look != 0 {
            let bit = look.trailing_zeros() as usize % 64;
            look &= look - 1;
            let clause = self.clauses[word][bit];
            if state.satisfies(clause) {
                continue;
            }
            let rest = state.rest(clause);
            let other = self.watches[word][bit] & !(1 << variable);
            let free = rest & !other;
            if free != 0 {
                // The variables are chosen from the lowest on, so that the highest stays unsettled for longest.
                let next = highest(free);
                let place = next.trailing_zeros() as usize % SEARCHED;
                self.watches[word][bit] = other | next;
                self.rows[place][sign(clause, place)][word] |= 1 << bit;
                self.rows[variable][is_true][word] &= !(1 << bit);
            } else {
                *new |= rest;
                if rest == 0 || !limits.settle(state, clause, rest) {
                    return false;
                }
            }
        }
        true
    }
}

/// The highest bit alone, of a number that is not 0.
fn highest(mask: u64) -> u64 {
    1 << (63 - mask.leading_zeros() % 64)
}

/// 0 where the clause has the variable's positive literal, 1 where it has the negative one.
fn sign([_, negative]: Masks, variable: usize) -> usize {
    (negative >> variable & 1) as usize
}
