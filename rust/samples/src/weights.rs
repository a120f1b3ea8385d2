//! Steps of kind 5, whose bounds rest on weights of clauses: their tails taken apart, and the bound that changes 2 and 7 of
//! document 02 give them. It is computed in numbers so wide that no sheet's sums come near their ends.

pub mod ascent;
pub mod branch;
pub mod largest;
pub mod steps;

use crate::draft::{Body, Draft};

/// The kind as a step stores it.
pub const KIND: u8 = 5;

/// How many bytes of a tail the divisor takes, and each clause with its weight.
pub const DIVISOR: usize = 2;
pub const ENTRY: usize = 6;

/// The tail of a step of kind 5.
#[derive(Clone, Debug, PartialEq, Eq)]
pub struct Weights {
    pub divisor: u16,
    /// Clauses by their numbers, each with its weight.
    pub entries: Vec<(u32, u16)>,
}

impl Weights {
    /// Nothing for a tail of a length that no step of this kind may have.
    pub fn read(tail: &[u8]) -> Option<Weights> {
        let (divisor, rest) = tail.split_first_chunk::<DIVISOR>()?;
        if rest.is_empty() || !rest.len().is_multiple_of(ENTRY) {
            return None;
        }
        let entry = |part: &[u8]| {
            let clause = u32::from_le_bytes([part[0], part[1], part[2], part[3]]);
            (clause, u16::from_le_bytes([part[4], part[5]]))
        };
        Some(Weights {
            divisor: u16::from_le_bytes(*divisor),
            entries: rest.chunks_exact(ENTRY).map(entry).collect(),
        })
    }

    pub fn tail(&self) -> Vec<u8> {
        let mut tail = self.divisor.to_le_bytes().to_vec();
        for (clause, weight) in &self.entries {
            tail.extend_from_slice(&clause.to_le_bytes());
            tail.extend_from_slice(&weight.to_le_bytes());
        }
        tail
    }

    /// The clauses are among the sheet's, which has so many, and they rise.
    pub fn cite_well(&self, clauses: usize) -> bool {
        let rising = self.entries.windows(2).all(|pair| pair[0].0 < pair[1].0);
        let known = |clause: u32| clause >= 1 && clause as usize <= clauses;
        rising && self.entries.iter().all(|(clause, _)| known(*clause))
    }

    /// Neither the divisor nor a weight is 0.
    pub fn all_positive(&self) -> bool {
        self.divisor > 0 && self.entries.iter().all(|(_, weight)| *weight > 0)
    }

    /// The step with these weights and literals, which need not be sorted, and the bound that follows from both.
    pub fn step(&self, draft: &Draft, mut literals: Vec<u16>) -> Option<Body> {
        literals.sort_unstable();
        let bound = Sums::of(draft, &literals, self)?.bound();
        Some(Body {
            kind: KIND,
            spare: 0,
            literals,
            bound,
            tail: self.tail(),
        })
    }
}

/// What the total of a step of kind 5 is made of.
pub fn sums(draft: &Draft, body: &Body) -> Option<Sums> {
    Sums::of(draft, &body.literals, &Weights::read(&body.tail)?)
}

/// The bound that such a step has to have.
pub fn bound(draft: &Draft, body: &Body) -> Option<u64> {
    Some(sums(draft, body)?.bound())
}

/// What one variable brings to a total.
#[derive(Clone, Copy, Debug, Default, PartialEq, Eq)]
pub struct Share {
    /// The divisor times its cost.
    pub priced: i128,
    /// The weights of the cited clauses that hold it as a positive literal, and as a negative one.
    pub positive: i128,
    pub negative: i128,
    /// Its value where the step's literals are false.
    pub settled: Option<bool>,
}

impl Share {
    /// A clause that holds this literal of the variable comes in with this weight.
    pub fn weigh(&mut self, code: u16, weight: i128) {
        if code.is_multiple_of(2) {
            self.positive += weight;
        } else {
            self.negative += weight;
        }
    }

    pub fn remainder(&self) -> i128 {
        self.priced - self.positive + self.negative
    }

    /// What the variable adds to the total.
    pub fn added(&self) -> i128 {
        self.added_of(self.remainder())
    }

    /// The same if this were its remainder.
    pub fn added_of(&self, remainder: i128) -> i128 {
        match self.settled {
            Some(true) => remainder,
            Some(false) => 0,
            None => remainder.min(0),
        }
    }
}

/// What a total is made of, and what comes to its bound.
#[derive(Clone, Debug)]
pub struct Sums {
    /// The standing loss, which is no part of the total.
    pub loss: u64,
    /// Not 0.
    pub divisor: i128,
    /// The weights, and the weights times how many negative literals their clauses have.
    pub weights: i128,
    pub negatives: i128,
    /// From variable 1 on.
    pub shares: Vec<Share>,
}

impl Sums {
    /// Nothing where the divisor is 0, a cited clause is not the sheet's, or a literal has none of the sheet's variables.
    pub fn of(draft: &Draft, literals: &[u16], weights: &Weights) -> Option<Sums> {
        if weights.divisor == 0 {
            return None;
        }
        let mut sums = Sums {
            loss: draft.standing_loss(),
            divisor: i128::from(weights.divisor),
            weights: 0,
            negatives: 0,
            shares: shares(draft, literals, weights.divisor)?,
        };
        for (number, weight) in &weights.entries {
            let (clause, weight) = (draft.clause(*number)?, i128::from(*weight));
            let negative = clause.iter().filter(|code| **code % 2 == 1).count();
            sums.weights += weight;
            sums.negatives += weight * negative as i128;
            for code in clause {
                share(&mut sums.shares, code)?.weigh(code, weight);
            }
        }
        Some(sums)
    }

    /// What the clauses bring to the total.
    pub fn constant(&self) -> i128 {
        self.weights - self.negatives
    }

    /// A total in which each variable adds what is told here.
    pub fn total_by(&self, added: impl Fn(&Share) -> i128) -> i128 {
        self.constant() + self.shares.iter().map(added).sum::<i128>()
    }

    pub fn total(&self) -> i128 {
        self.total_by(Share::added)
    }

    pub fn bound(&self) -> u64 {
        self.bound_of(self.total())
    }

    /// The bound if this were the total: the loss comes to it once it is rounded.
    pub fn bound_of(&self, total: i128) -> u64 {
        rounded_up(total, self.divisor) + self.loss
    }
}

/// The least number that is no less than the total divided; the divisor is not 0.
pub fn rounded_up(total: i128, divisor: i128) -> u64 {
    let least = if total > 0 {
        (total + divisor - 1) / divisor
    } else {
        0
    };
    u64::try_from(least).expect("no sheet's sums are that large")
}

/// The variables before any clause is cited.
pub fn shares(draft: &Draft, literals: &[u16], divisor: u16) -> Option<Vec<Share>> {
    let mut shares = vec![Share::default(); draft.variables()];
    for (share, cost) in shares.iter_mut().zip(&draft.costs) {
        share.priced = i128::from(divisor) * i128::from(*cost);
    }
    for code in literals {
        // A literal made false: a positive one makes its variable false, a negative one makes it true.
        share(&mut shares, *code)?.settled = Some(code % 2 == 1);
    }
    Some(shares)
}

fn share(shares: &mut [Share], code: u16) -> Option<&mut Share> {
    shares.get_mut(usize::from(code / 2).checked_sub(1)?)
}
