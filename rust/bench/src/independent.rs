//! Kind 3: refusals 8, 9, 14, 15 and 20 to 22. One look at each literal of a clause settles whether its four conditions hold,
//! and gives the least cost as well. Which of them fails is asked only of a clause that fails.

use crate::read::{code, number, rises, Codes, CODES};
use crate::refusal;
use crate::sheet::Sheet;
use crate::step::CostClause;
use proved::NONE;

/// A mark for each code: step k's is 2 k for a literal of the step, which is false, and 1 more for one that is true or that a
/// cited clause uses. So no mark has to be taken away after a step.
pub(crate) struct Stamps([u32; CODES]);

impl Stamps {
    pub fn new() -> Self {
        Stamps([0; CODES])
    }

    /// The least cost of an unsettled variable of the clause, which is then used; nothing where a condition fails. There is no
    /// branch: whether a literal is settled cannot be guessed.
    fn least(&mut self, sheet: &Sheet, clause: Codes, settled: i64) -> Option<u64> {
        let mut least = NONE;
        let mut worst = 0;
        for &stored in clause {
            let code = code(stored);
            let mark = &mut self.0[code % CODES];
            // 0 for a false literal, 1 for one that may not stand here, negative for an unsettled one
            let state = i64::from(*mark) - settled;
            worst = worst.max(state);
            let free = state >> 63;
            *mark = (settled - free) as u32;
            least = least.min(sheet.free_cost(code) | !free as u64);
        }
        let fits = worst == 0 && least != 0;
        (fits && least != NONE).then(|| least - 1)
    }
}

/// The refusal's number where step k is not what its cited clauses give.
pub(crate) fn check(
    stamps: &mut Stamps,
    sheet: &Sheet,
    claim: &CostClause,
    tail: &[u8],
    k: usize,
) -> Result<(), u64> {
    let (cited, []) = tail.as_chunks() else {
        return Err(refusal::STEP_FORM);
    };
    if cited.is_empty() || !rises(claim.literals, sheet.variable_count()) {
        return Err(refusal::STEP_FORM);
    }
    if !are_clauses(cited, sheet.clause_count()) {
        return Err(refusal::CITATION);
    }
    // A record of k steps has 8 k bytes at least, so that twice the number fits.
    let settled = 2 * k as u32;
    let mut sum = sheet.loss();
    for &stored in claim.literals {
        let code = code(stored);
        stamps.0[code % CODES] = settled;
        stamps.0[(code ^ 1) % CODES] = settled + 1;
        sum += sheet.price(code);
    }
    for &stored in cited {
        let clause = sheet.clause(number(stored));
        sum += stamps
            .least(sheet, clause, settled.into())
            .ok_or_else(|| first_fault(claim.literals, clause))?;
    }
    if claim.bound != sum {
        return Err(refusal::INDEPENDENT_BOUND);
    }
    Ok(())
}

/// The first fault of a clause that fails. Its own marks now look like those of the clauses before it, so that the step's list
/// is asked; sharing is what is left where nothing else is wrong.
#[cold]
fn first_fault(settled: Codes, clause: Codes) -> u64 {
    let is_false = |stored: &[u8; 2]| settled.contains(stored);
    let is_true = |&[low, high]: &[u8; 2]| settled.contains(&[low ^ 1, high]);
    let is_negative = |stored: &[u8; 2]| code(*stored) % 2 == 1;
    if clause.iter().any(is_true) {
        refusal::DEPENDENCE
    } else if clause.iter().any(|it| is_negative(it) && !is_false(it)) {
        refusal::UNSETTLED_SHUT
    } else if clause.iter().all(is_false) {
        refusal::ALL_SETTLED
    } else {
        refusal::SHARED_PADDLE
    }
}

/// The numbers rise from 1 to m at most.
fn are_clauses(cited: &[[u8; 4]], m: usize) -> bool {
    let mut before = 0;
    cited.iter().all(|&stored| {
        let rises = number(stored) > before;
        before = number(stored);
        rises
    }) && before <= m
}
