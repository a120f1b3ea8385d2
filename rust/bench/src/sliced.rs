//! What is forced, found by counts of all clauses at once: for each clause, how many of its literals are not false, as binary
//! digits, of which one number holds the same digit for 64 clauses.

use crate::masks::{boxed, variables, Limits, Masks, Problem, State, SEARCHED};
use crate::search::{answer, search, Choice, Force, LEVELS};
use proved::Found;

/// Searches a sheet, and takes a settled variable off the counts of all clauses; those alone are looked at that come to 1 or
/// to 0.
pub fn search_sliced(sheet: &[u8], budget: u64) -> Found {
    answer(sheet, |problem| match blocks(&problem) {
        0..=1 => search::<Sliced<1>>(problem, budget),
        2..=4 => search::<Sliced<4>>(problem, budget),
        _ => search::<Sliced<16>>(problem, budget),
    })
}

/// The clauses stand in blocks of four words, for each of which there is one test whether a clause of it is to be looked at.
/// The compiler makes one instruction of two words.
const WORDS: usize = 4;

type Words = [u64; WORDS];

/// How many blocks the clauses take.
fn blocks(problem: &Problem) -> usize {
    problem.clauses.len().div_ceil(64 * WORDS)
}

/// The digits of a count. It is kept modulo 8, so that a clause is looked at in vain where it comes to 8 or 9, 16 or 17 and so
/// on: that takes less than a fourth digit does.
const DIGITS: usize = 3;

/// Which clauses of a block have a true literal, and the digits of the others' counts, the lowest first.
#[derive(Clone, Copy)]
struct Counts {
    satisfied: Words,
    digits: [Words; DIGITS],
}

impl Counts {
    const ZERO: Self = Counts {
        satisfied: [0; WORDS],
        digits: [[0; WORDS]; DIGITS],
    };

    /// Satisfies the clauses of `good`, and takes 1 off the counts of those of `bad`; gives the clauses of `bad` that have come
    /// to 1 or to 0 and are not known to be satisfied, and whether there is one.
    #[inline(always)]
    fn take(&mut self, good: &Words, bad: &Words) -> (Words, bool) {
        let mut low = [0; WORDS];
        let mut any = 0;
        for word in 0..WORDS {
            self.satisfied[word] |= good[word];
            low[word] = bad[word] & !self.satisfied[word];
            let mut borrow = bad[word];
            for (place, digit) in self.digits.iter_mut().enumerate() {
                let before = digit[word];
                digit[word] ^= borrow;
                borrow &= !before;
                if place > 0 {
                    low[word] &= !digit[word];
                }
            }
            any |= low[word];
        }
        (low, any != 0)
    }
}

/// N blocks.
struct Sliced<const N: usize> {
    /// How many of the blocks have clauses.
    blocks: usize,
    clauses: Box<[[[Masks; 64]; WORDS]; N]>,
    /// For each variable the clauses that have it as a positive literal, and as a negative one.
    rows: Box<[[[Words; N]; 2]; SEARCHED]>,
    levels: Box<[[Counts; N]; LEVELS]>,
}

impl<const N: usize> Force for Sliced<N> {
    fn new(problem: &Problem) -> Self {
        let mut sliced = Sliced {
            blocks: blocks(problem),
            clauses: boxed([[[0; 2]; 64]; WORDS]),
            rows: boxed([[[0; WORDS]; N]; 2]),
            levels: boxed([Counts::ZERO; N]),
        };
        for (number, &clause) in problem.clauses.iter().enumerate() {
            let (block, word, bit) = (number / 64 / WORDS, number / 64 % WORDS, number % 64);
            sliced.clauses[block][word][bit] = clause;
            for (sign, mask) in clause.into_iter().enumerate() {
                for variable in variables(mask) {
                    sliced.rows[variable][sign][block][word] |= 1 << bit;
                }
            }
            let count = u64::from((clause[0] | clause[1]).count_ones());
            let digits = &mut sliced.levels[0][block].digits;
            for (place, digit) in digits.iter_mut().enumerate() {
                digit[word] |= (count >> place & 1) << bit;
            }
        }
        sliced
    }

    #[inline(always)]
    fn force(&mut self, limits: &Limits, state: &mut State, choice: Choice) -> bool {
        let Choice { variable, from, to } = choice;
        let mut new = 0;
        if !self.pass(limits, state, variable, [from, to], &mut new) {
            return false;
        }
        while new != 0 {
            let variable = new.trailing_zeros() as usize % SEARCHED;
            new &= new - 1;
            if !self.pass(limits, state, variable, [to, to], &mut new) {
                return false;
            }
        }
        true
    }
}

impl<const N: usize> Sliced<N> {
    /// Takes a settled variable off the counts of one level, which gives those of another, and looks at the clauses that may
    /// force something then.
    #[inline(always)]
    fn pass(
        &mut self,
        limits: &Limits,
        state: &mut State,
        variable: usize,
        [from, to]: [usize; 2],
        new: &mut u64,
    ) -> bool {
        let is_true = (state.trues >> variable & 1) as usize;
        let [bad, good] = [is_true, 1 - is_true].map(|sign| &self.rows[variable][sign]);
        for block in 0..self.blocks.min(N) {
            let mut counts = self.levels[from][block];
            let (low, any) = counts.take(&good[block], &bad[block]);
            self.levels[to][block] = counts;
            if any && !visit(limits, state, &self.clauses[block], low, new) {
                return false;
            }
        }
        true
    }
}

/// Looks at some clauses of a block.
#[inline(always)]
fn visit(
    limits: &Limits,
    state: &mut State,
    clauses: &[[Masks; 64]; WORDS],
    low: Words,
    new: &mut u64,
) -> bool {
    for (mut low, clauses) in low.into_iter().zip(clauses) {
        while low != 0 {
            let clause = clauses[low.trailing_zeros() as usize % 64];
            low &= low - 1;
            if !limits.look(state, clause, new) {
                return false;
            }
        }
    }
    true
}
