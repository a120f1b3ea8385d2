//! Kind 5: refusals 8, 9, 23 and 24.
//!
//! Let p be the sum of the weights of the cited clauses that hold a variable positive, and n that of those that hold it
//! negative. Its remainder is d times its cost, less p and plus n; and its negative literals take n off the total once more.
//! So it adds, all in all, d times its cost less p where it is settled as true, -n where it is settled as false, and the
//! lesser of the two where it is unsettled. The cited clauses are gone through twice: first their weights are added to their
//! literals, and then, after the step's own variables, those that are left are counted. No literal's sign is asked, and
//! nothing is marked.

use crate::read::{code, number, rises, Codes, CODES};
use crate::refusal;
use crate::sheet::Sheet;
use crate::step::CostClause;

/// The weight of the cited clauses that hold the literal with each code; 4,096 of them weigh less than 2^28. Between steps all
/// are 0: what a variable has is taken out when it is counted, so that it counts once however often it is met.
pub(crate) struct Weights([u32; CODES]);

impl Weights {
    pub fn new() -> Self {
        Weights([0; CODES])
    }

    /// Adds the weights of the cited clauses to their literals. Gives the sum of the weights and the least.
    fn add_all(&mut self, sheet: &Sheet, cited: &[[u8; 6]]) -> Result<(i64, u32), u64> {
        let (mut before, mut sum, mut least) = (0, 0, u32::MAX);
        for &[a, b, c, d, y, z] in cited {
            let (k, weight) = (number([a, b, c, d]), code([y, z]) as u32);
            if k <= before || k > sheet.clause_count() {
                return Err(refusal::CITATION);
            }
            self.add(sheet, k, weight);
            before = k;
            sum += i64::from(weight);
            least = least.min(weight);
        }
        Ok((sum, least))
    }

    /// Adds the weight of clause k to its literals; to those after it in the last eight, 0.
    fn add(&mut self, sheet: &Sheet, k: usize, weight: u32) {
        let mut add = |stored, weight| self.0[code(stored) % CODES] += weight;
        let (clause, eights) = sheet.clause_in_eights(k);
        let Some([before @ .., last]) = eights else {
            return clause.iter().for_each(|&stored| add(stored, weight));
        };
        for eight in before {
            eight.iter().for_each(|&stored| add(stored, weight));
        }
        let left = clause.len() - 8 * before.len();
        for (lane, &stored) in last.iter().enumerate() {
            add(stored, if lane < left { weight } else { 0 });
        }
    }

    /// What stands under the two codes of a variable, the positive one first.
    fn take(&mut self, code: usize) -> [i64; 2] {
        let both = &mut self.0.as_chunks_mut::<2>().0[code / 2 % (CODES / 2)];
        std::mem::take(both).map(i64::from)
    }

    /// What the variables add that the step settles.
    fn settled(&mut self, sheet: &Sheet, literals: Codes, divisor: i64) -> i64 {
        let (mut paid, mut lost) = (0, 0);
        for &stored in literals {
            let code = code(stored);
            paid += sheet.price(code) as i64;
            lost += i64::from(self.0[(code ^ 1) % CODES]);
            self.take(code);
        }
        divisor * paid - lost
    }

    /// What the variables of a clause add, but for those that were counted before. Some of the clauses after it are counted
    /// too, which changes nothing: one that no cited clause holds adds 0, and another would be counted later. There is no
    /// branch: which of the two is the lesser cannot be guessed.
    fn unsettled(&mut self, sheet: &Sheet, k: usize, divisor: i64) -> i64 {
        let mut sum = 0;
        let mut look = |stored| {
            let code = code(stored);
            let [positive, negative] = self.take(code);
            sum -= negative.max(positive - divisor * sheet.cost(code) as i64);
        };
        match sheet.clause_in_eights(k) {
            (_, Some(eights)) => {
                for eight in eights {
                    eight.iter().for_each(|&stored| look(stored));
                }
            }
            (clause, None) => clause.iter().for_each(|&stored| look(stored)),
        }
        sum
    }
}

/// The refusal's number where the step is not what the weights of its cited clauses give.
pub(crate) fn check(
    weights: &mut Weights,
    sheet: &Sheet,
    claim: &CostClause,
    tail: &[u8],
) -> Result<(), u64> {
    let (&divisor, cited) = tail.split_first_chunk().ok_or(refusal::STEP_FORM)?;
    let (cited, []) = cited.as_chunks() else {
        return Err(refusal::STEP_FORM);
    };
    if cited.is_empty() || !rises(claim.literals, sheet.variable_count()) {
        return Err(refusal::STEP_FORM);
    }
    let (mut total, least) = weights.add_all(sheet, cited)?;
    let divisor = code(divisor) as i64;
    if divisor == 0 || least == 0 {
        return Err(refusal::WEIGHTS);
    }
    total += weights.settled(sheet, claim.literals, divisor);
    for &[a, b, c, d, ..] in cited {
        total += weights.unsettled(sheet, number([a, b, c, d]), divisor);
    }
    // The loss is not divided. A bound below it becomes one that is far too great.
    if !is_bound(claim.bound.wrapping_sub(sheet.loss()), total, divisor) {
        return Err(refusal::LINEAR_BOUND);
    }
    Ok(())
}

/// Whether a bound, which the loss was taken off, is the least whose product with the divisor is not below the total. This
/// takes no division. A total is below 2^43 times the divisor: a bound from there on is too great, and its product may not fit.
fn is_bound(bound: u64, total: i64, divisor: i64) -> bool {
    let above = divisor.wrapping_mul(bound as i64).wrapping_sub(total);
    bound < 1 << 43 && above >= 0 && (above < divisor || bound == 0)
}
