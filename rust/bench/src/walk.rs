//! The steps: refusals 7, 8, 9, 12 to 18 and 20 to 24, in one pass over the pairs.

use crate::copy;
use crate::independent::{self, Stamps};
use crate::linear::{self, Weights};
use crate::read::{code, fault, number, pair, rises, Fault};
use crate::record::Record;
use crate::refusal;
use crate::resolve::{has_pivot, Resolve};
use crate::sheet::Sheet;
use crate::step::CostClause;

pub(crate) struct Walk<'a, R> {
    sheet: &'a Sheet<'a>,
    record: &'a Record<'a>,
    resolve: R,
    stamps: Stamps,
    weights: Weights,
}

impl<'a, R: Resolve> Walk<'a, R> {
    pub fn new(sheet: &'a Sheet<'a>, record: &'a Record<'a>) -> Self {
        Walk {
            sheet,
            record,
            resolve: R::new(),
            stamps: Stamps::new(),
            weights: Weights::new(),
        }
    }

    /// The cost clause of the last step. `found` is what was found before the steps: it is told after a fault of the pairs
    /// and before any of a step.
    pub fn run(mut self, mut found: Result<(), Fault>) -> Result<CostClause<'a>, Fault> {
        let record = self.record;
        let mut next = record.table_end();
        for (index, &stored) in record.pairs.iter().enumerate() {
            let (offset, length) = pair(stored);
            if offset != next {
                return fault(refusal::RECORD_PAIRS, index + 1);
            }
            next = offset + length;
            if found.is_ok() {
                // A body that reaches past the end makes the pairs faulty, here or later: then nothing else is told.
                let body = record.bytes.get(offset..next).unwrap_or(&[]);
                found = self
                    .step(body, index + 1)
                    .or_else(|number| fault(number, index + 1));
            }
        }
        if next != record.bytes.len() {
            return fault(refusal::RECORD_PAIRS, record.pairs.len());
        }
        found.map(|()| self.earlier(record.pairs.len()))
    }

    /// The refusal's number where the step is not what its kind gives.
    fn step(&mut self, body: &'a [u8], k: usize) -> Result<(), u64> {
        let (claim, tail) = CostClause::read(body).ok_or(refusal::STEP_FORM)?;
        match *body {
            [1, 0, ..] => copy::check(self.sheet, &claim, tail),
            [2, 0, ..] => self.cost(&claim, tail),
            [3, 0, ..] => independent::check(&mut self.stamps, self.sheet, &claim, tail, k),
            [4, 0, ..] => self.resolution(&claim, tail, k),
            [5, 0, ..] => linear::check(&mut self.weights, self.sheet, &claim, tail),
            _ => Err(refusal::STEP_FORM),
        }
    }

    fn cost(&self, claim: &CostClause, tail: &[u8]) -> Result<(), u64> {
        if !tail.is_empty() || !rises(claim.literals, self.sheet.variable_count()) {
            return Err(refusal::STEP_FORM);
        }
        let literals = claim.literals.iter();
        let prices = literals.map(|&stored| self.sheet.price(code(stored)));
        if claim.bound != self.sheet.loss() + prices.sum::<u64>() {
            return Err(refusal::COST_BOUND);
        }
        Ok(())
    }

    fn resolution(&mut self, d: &CostClause, tail: &[u8], k: usize) -> Result<(), u64> {
        let (&[a, b], &[p, q]) = tail.as_chunks() else {
            return Err(refusal::STEP_FORM);
        };
        if !rises(d.literals, self.sheet.variable_count()) {
            return Err(refusal::STEP_FORM);
        }
        let (a, b) = (number(a), number(b));
        if !(1..k).contains(&a) || !(1..k).contains(&b) {
            return Err(refusal::CITATION);
        }
        let pivot = code([p, q]);
        let (a, b) = (self.earlier(a), self.earlier(b));
        if !self
            .resolve
            .resolves(a.literals, b.literals, pivot, d.literals)
        {
            let pivot_is_there = has_pivot(a.literals, b.literals, pivot);
            return Err(if pivot_is_there {
                refusal::RESOLVENT
            } else {
                refusal::PIVOT
            });
        }
        if d.bound > a.bound.min(b.bound) {
            return Err(refusal::LESSER_BOUND);
        }
        Ok(())
    }

    /// The cost clause of a step that was found good. Its length is in its body, so that the pair's is not needed. Put into
    /// the callers, since a resolution has two of it.
    #[inline(always)]
    fn earlier(&self, k: usize) -> CostClause<'a> {
        let (offset, _) = pair(self.record.pairs[k - 1]);
        let bytes = &self.record.bytes[offset..];
        CostClause::read(bytes).expect("a step in form").0
    }
}
