//! Weights by dual ascent: one clause after the other gets the weight that is best beside those of the others. The total is
//! concave in each weight by itself, with corners only where a remainder passes 0, so that the best weight is at a corner.

use super::{shares, Share};
use crate::draft::{codes, Draft};
use crate::random::Random;
use std::cmp::Reverse;

/// How often each clause has its turn, and how many clauses take part: some, where a sheet has many.
const ROUNDS: usize = 3;
const MOST_CLAUSES: usize = 64;
const SOME_CLAUSES: usize = 24;

/// The clauses that got a weight above 0, where these literals are false; there may be none.
pub fn entries(
    draft: &Draft,
    literals: &[u16],
    divisor: u16,
    random: &mut Random,
) -> Vec<(u32, u16)> {
    let Some(shares) = shares(draft, literals, divisor) else {
        return Vec::new();
    };
    let mut ascent = Ascent { shares };
    let mut weighed: Vec<(u32, Vec<u16>, i128)> = some_clauses(draft, random);
    for _ in 0..ROUNDS {
        shuffle(&mut weighed, random);
        for (_, clause, weight) in &mut weighed {
            ascent.weigh(clause, -*weight);
            *weight = ascent.best(clause);
            ascent.weigh(clause, *weight);
        }
    }
    weighed.retain(|(_, _, weight)| *weight > 0);
    weighed.sort_unstable();
    let entry = |(number, _, weight)| (number, weight as u16);
    weighed.into_iter().map(entry).collect()
}

/// Clauses with their numbers, none of them weighed yet. Those of a damaged sheet that have other variables are left out.
fn some_clauses(draft: &Draft, random: &mut Random) -> Vec<(u32, Vec<u16>, i128)> {
    let mut all: Vec<usize> = (0..draft.clauses.len()).collect();
    if all.len() > MOST_CLAUSES {
        shuffle(&mut all, random);
        all.truncate(SOME_CLAUSES);
    }
    let known = |code: &u16| (1..=draft.variables()).contains(&usize::from(code / 2));
    let clause = |place: usize| (place as u32 + 1, codes(&draft.clauses[place]), 0);
    let clauses = all.into_iter().map(clause);
    clauses
        .filter(|(_, clause, _)| clause.iter().all(known))
        .collect()
}

fn shuffle<T>(items: &mut [T], random: &mut Random) {
    for last in (1..items.len()).rev() {
        items.swap(last, random.below(last + 1));
    }
}

struct Ascent {
    shares: Vec<Share>,
}

impl Ascent {
    fn weigh(&mut self, clause: &[u16], weight: i128) {
        for code in clause {
            self.shares[usize::from(code / 2) - 1].weigh(*code, weight);
        }
    }

    /// The best weight of a clause that has none; of equal ones the least.
    fn best(&self, clause: &[u16]) -> i128 {
        let most = i128::from(u16::MAX);
        let corners = clause
            .iter()
            .map(|code| self.share(*code).remainder().abs());
        let corners = corners.filter(|corner| *corner <= most);
        let gained = corners
            .chain([0, most])
            .map(|weight| (self.gain(clause, weight), Reverse(weight)));
        gained.max().map_or(0, |(_, Reverse(weight))| weight)
    }

    /// What a clause without a weight would bring with this one.
    fn gain(&self, clause: &[u16], weight: i128) -> i128 {
        let negative = clause.iter().filter(|code| **code % 2 == 1).count() as i128;
        let added = |code: &u16| {
            let mut share = *self.share(*code);
            let before = share.added();
            share.weigh(*code, weight);
            share.added() - before
        };
        weight * (1 - negative) + clause.iter().map(added).sum::<i128>()
    }

    fn share(&self, code: u16) -> &Share {
        &self.shares[usize::from(code / 2) - 1]
    }
}
