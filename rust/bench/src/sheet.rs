//! The sheet: refusals 2, 3 and 4.

use crate::judge::LONGEST;
use crate::read::{code, codes, fault, pair, rises, Codes, Fault, Pairs, CODES};
use crate::refusal;

/// The parts of a valid sheet.
pub(crate) struct Parts<'a> {
    bytes: &'a [u8],
    pub costs: &'a [[u8; 4]],
    /// The standing loss, 0 where the sheet has no mark.
    pub loss: u32,
    pairs: Pairs<'a>,
    /// Where the clauses begin.
    bodies_start: usize,
}

/// As many variables and clauses as a sheet may have.
pub(crate) const VARIABLES: usize = 1024;
const CLAUSES: usize = 4096;

/// The bit of the first number that tells of a loss; the rest of it is the number of variables.
pub(crate) const MARK: usize = 0x8000;

impl<'a> Parts<'a> {
    /// Refusals 1 to 4, where there is no record beside the sheet.
    pub fn alone(bytes: &'a [u8]) -> Result<Self, Fault> {
        if bytes.len() as u64 > LONGEST {
            return fault(refusal::OVERSIZE, 0);
        }
        Self::read(bytes)
    }

    pub fn read(bytes: &'a [u8]) -> Result<Self, Fault> {
        let Some(parts) = Self::head(bytes) else {
            return fault(refusal::SHEET_HEAD, 0);
        };
        parts.check_pairs()?;
        for (index, &stored) in parts.pairs.iter().enumerate() {
            let (offset, length) = pair(stored);
            let clause = &bytes[offset..offset + length];
            let is_even = clause.len().is_multiple_of(2);
            if !is_even || !rises(codes(clause), parts.costs.len()) {
                return fault(refusal::RULE_FORM, index + 1);
            }
        }
        Ok(parts)
    }

    fn head(bytes: &'a [u8]) -> Option<Self> {
        let ([a, b, c, d], rest) = bytes.split_first_chunk::<4>()?;
        let (field, m) = (code([*a, *b]), code([*c, *d]));
        let n = field % MARK;
        if !(1..=VARIABLES).contains(&n) || m > CLAUSES {
            return None;
        }
        let (costs, rest) = rest.split_at_checked(4 * n)?;
        let (loss, rest) = match field & MARK {
            0 => (&[0; 4], rest),
            _ => rest.split_first_chunk()?,
        };
        let (table, bodies) = rest.split_at_checked(8 * m)?;
        Some(Parts {
            bytes,
            costs: costs.as_chunks().0,
            loss: u32::from_le_bytes(*loss),
            pairs: table.as_chunks().0,
            bodies_start: bytes.len() - bodies.len(),
        })
    }

    fn check_pairs(&self) -> Result<(), Fault> {
        let mut next = self.bodies_start;
        for (index, &stored) in self.pairs.iter().enumerate() {
            let (offset, length) = pair(stored);
            if offset != next {
                return fault(refusal::SHEET_PAIRS, index + 1);
            }
            next = offset + length;
        }
        if next != self.bytes.len() {
            return fault(refusal::SHEET_PAIRS, self.pairs.len());
        }
        Ok(())
    }

    pub fn clause_count(&self) -> usize {
        self.pairs.len()
    }

    /// How many literals each clause has.
    pub fn clause_lengths(&self) -> impl Iterator<Item = usize> + 'a {
        self.pairs.iter().map(|&stored| pair(stored).1 / 2)
    }

    /// The literals of all clauses, one clause after the other.
    pub fn all_literals(&self) -> Codes<'a> {
        codes(&self.bytes[self.bodies_start..])
    }

    /// What there is for each literal of all clauses, taken apart by clauses.
    pub fn by_clause<'b, T>(&self, mut all: &'b [T]) -> Vec<&'b [T]> {
        let next = |&stored: &[u8; 8]| {
            let (clause, rest) = all.split_at(pair(stored).1 / 2);
            all = rest;
            clause
        };
        self.pairs.iter().map(next).collect()
    }
}

/// A valid sheet.
pub(crate) struct Sheet<'a> {
    bytes: &'a [u8],
    variable_count: usize,
    loss: u64,
    /// What falsifying the literal with each code costs.
    prices: [u64; CODES],
    /// What each costs as an unsettled literal.
    free_costs: [u64; CODES],
    pairs: Pairs<'a>,
}

impl<'a> Sheet<'a> {
    pub fn read(bytes: &'a [u8]) -> Result<Self, Fault> {
        let Parts {
            costs, loss, pairs, ..
        } = Parts::read(bytes)?;
        let mut sheet = Sheet {
            bytes,
            variable_count: costs.len(),
            loss: loss.into(),
            prices: [0; CODES],
            free_costs: [0; CODES],
            pairs,
        };
        for (index, &cost) in costs.iter().enumerate() {
            let (cost, positive) = (u64::from(u32::from_le_bytes(cost)), 2 * index + 2);
            sheet.free_costs[positive % CODES] = cost + 1;
            sheet.prices[(positive + 1) % CODES] = cost;
        }
        Ok(sheet)
    }

    pub fn variable_count(&self) -> usize {
        self.variable_count
    }

    /// What every assignment costs, whatever is true in it.
    pub fn loss(&self) -> u64 {
        self.loss
    }

    pub fn clause_count(&self) -> usize {
        self.pairs.len()
    }

    /// The literals of clause k, from 1.
    pub fn clause(&self, k: usize) -> Codes<'a> {
        let (offset, length) = pair(self.pairs[k - 1]);
        codes(&self.bytes[offset..offset + length])
    }

    /// The literals of clause k, and whole eights of literals that begin with them, or nothing where the file ends before the
    /// last eight does. The last may go on into the clauses that follow: so the length of a short clause need not be guessed.
    #[inline]
    pub fn clause_in_eights(&self, k: usize) -> (Codes<'a>, Option<&'a [[[u8; 2]; 8]]>) {
        let (offset, length) = pair(self.pairs[k - 1]);
        let onward = codes(&self.bytes[offset..]);
        let clause = &onward[..length / 2];
        let eights = onward.as_chunks().0;
        (clause, eights.get(..clause.len().div_ceil(8)))
    }

    /// The literals of clause k, if there is one.
    pub fn find_clause(&self, k: usize) -> Option<Codes<'a>> {
        (1..=self.clause_count())
            .contains(&k)
            .then(|| self.clause(k))
    }

    /// What falsifying a literal costs: its variable's cost where it is negative, and so becomes true, else nothing. Which of
    /// both cannot be guessed, so that there is no branch.
    pub fn price(&self, code: usize) -> u64 {
        self.prices[code % CODES]
    }

    /// What a literal costs where it stands unsettled in a cited clause, plus 1; 0 for a negative one, which may not.
    pub fn free_cost(&self, code: usize) -> u64 {
        self.free_costs[code % CODES]
    }

    /// What the variable of a code costs.
    pub fn cost(&self, code: usize) -> u64 {
        self.price(code | 1)
    }
}
