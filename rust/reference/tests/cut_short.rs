//! Records that end before the derivation does: steps are dropped from the end, and what is left is answered by its
//! last step. On random small sheets what the gap says is held against every assignment.

mod common;

use common::derivation::*;
use common::*;
use reference::brute::confirms_within;
use reference::{judge, Answer, Verdict};

/// Record A's steps, with a bound of 0 before them and after them.
fn steps_between_bounds() -> [Vec<u8>; 7] {
    [
        cost_step(&[], 0),
        clause_step(&[pos(1), pos(2)], 1),
        clause_step(&[pos(1), neg(2)], 2),
        resolution_step(&[pos(1)], NONE, 2, 3, 2),
        cost_step(&[neg(1)], 3),
        resolution_step(&[], 3, 4, 5, 1),
        cost_step(&[], 0),
    ]
}

#[test]
fn every_beginning_of_record_a_between_bounds() {
    let steps = steps_between_bounds();
    let judged =
        |length: usize, claim, bits| judge(&sheet_a(), &record(claim, &[bits], &steps[..length]));
    let literals_left = |length| refused(19, length);
    let at_3 = [within(3, 3, 1, 1), accepted(3, 1, 6), within(3, 3, 1, 7)];
    let at_8 = [within(8, 8, 2, 1), within(5, 8, 2, 6), within(8, 8, 2, 7)];
    for (claim, bits, bare) in [(3, 0b01, at_3), (8, 0b11, at_8)] {
        assert_eq!(judged(1, claim, bits), bare[0]);
        for length in 2..=5 {
            assert_eq!(judged(length, claim, bits), literals_left(length as u64));
        }
        assert_eq!(judged(6, claim, bits), bare[1]);
        assert_eq!(judged(7, claim, bits), bare[2]);
    }
    for length in 1..=7 {
        assert_eq!(judged(length, NONE, 0), refused(19, length as u64));
    }
}

/// A derivation in rounds, each of which ends without literals. The first bound is 0 and the last is the least cost,
/// or "none"; those between are at least 1 and at least half of it.
fn in_rounds(numbers: &mut Numbers) -> Derivation {
    let bounding = Bounding::random(numbers);
    let mut derivation = Derivation::random(numbers).with(bounding);
    let least = derivation.enough;
    derivation.steps.push(cost_step(&[], 0));
    for enough in [1, least.div_ceil(2), least] {
        derivation.enough = enough.min(least);
        let close = derivation.derive(&mut vec![]);
        assert!(close.codes.is_empty() && close.bound >= derivation.enough);
    }
    derivation
}

/// The assignments that satisfy the sheet.
fn models(derivation: &Derivation) -> Vec<Vec<bool>> {
    let mut all = assignments(derivation.costs.len());
    all.retain(|values| derivation.first_broken(values).is_none());
    all
}

/// The assignment in the one byte that it takes, and how many variables it makes true.
fn bits_of(values: &[bool]) -> (u8, u64) {
    let bits = values
        .iter()
        .enumerate()
        .fold(0_u8, |bits, (index, value)| {
            bits | u8::from(*value) << index
        });
    (bits, u64::from(bits.count_ones()))
}

/// The answer to these steps under a claim that the assignment bears out, by what the last of them states.
fn answer_by_last(steps: &[Vec<u8>], cost: u64, open_count: u64) -> Answer {
    let t = steps.len() as u64;
    match stated(&steps[steps.len() - 1]) {
        (0, bound) if bound == cost => accepted(cost, open_count, t),
        (0, bound) => within(cost - bound, cost, open_count, t),
        _ => refused(19, t),
    }
}

/// How often the answers were such that a wrong rule would have shown.
#[derive(Default)]
struct Seen {
    least: u32,
    none: u32,
    literals_left: u32,
    /// Within: those whose claim is the least cost for all that, and those whose claim is not.
    at_the_least_cost: u32,
    dearer: u32,
    /// Within again: those that say nothing, those that rule out every cheaper model, and those between.
    bound_0: u32,
    bound_between: u32,
    bound_least: u32,
}

impl Seen {
    fn add(&mut self, answer: &Answer, least: u64) {
        match answer.verdict() {
            Verdict::Least => self.least += 1,
            Verdict::NoneExists => self.none += 1,
            Verdict::Refused => self.literals_left += 1,
            Verdict::Within => {
                let bound = answer.cost - answer.gap;
                self.at_the_least_cost += u32::from(answer.cost == least);
                self.dearer += u32::from(answer.cost > least);
                self.bound_0 += u32::from(bound == 0);
                self.bound_between += u32::from(0 < bound && bound < least);
                self.bound_least += u32::from(0 < bound && bound == least);
            }
        }
    }

    fn assert_each_above(&self, limit: u32) {
        let within = [self.at_the_least_cost, self.dearer];
        let bounds = [self.bound_0, self.bound_between, self.bound_least];
        assert!(self.least > limit);
        assert!(within.iter().chain(&bounds).all(|seen| *seen > limit));
    }
}

/// The cheapest model and another, if there are any: long records are judged once for each length.
fn two_of(mut models: Vec<Vec<bool>>, derivation: &Derivation) -> Vec<Vec<bool>> {
    models.sort_by_key(|values| derivation.cost(values));
    let other = models.len() / 2;
    let chosen = models.into_iter().enumerate();
    let is_chosen = |index: usize| index == 0 || index == other;
    chosen
        .filter(|(index, _)| is_chosen(*index))
        .map(|(_, values)| values)
        .collect()
}

/// What is answered to these steps under the claim "none".
fn assert_claim_none(sheet: &[u8], steps: &[Vec<u8>], seen: &mut Seen) {
    let t = steps.len() as u64;
    let answer = judge(sheet, &record(NONE, &[0], steps));
    if stated(&steps[steps.len() - 1]) == (0, NONE) {
        assert_eq!(answer, accepted(NONE, 0, t));
    } else {
        assert_eq!(answer, refused(19, t));
    }
    seen.add(&answer, NONE);
}

#[test]
fn every_beginning_is_answered_by_its_last_step() {
    let mut numbers = Numbers::from(7);
    let mut seen = Seen::default();
    for _ in 0..300 {
        let derivation = in_rounds(&mut numbers);
        let sheet = derivation.sheet();
        let least = derivation.enough;
        let chosen = two_of(models(&derivation), &derivation);
        for length in 1..=derivation.steps.len() {
            let steps = &derivation.steps[..length];
            assert_claim_none(&sheet, steps, &mut seen);
            for values in &chosen {
                let (bits, open_count) = bits_of(values);
                let cost = derivation.cost(values);
                let answer = judge(&sheet, &record(cost, &[bits], steps));
                assert_eq!(answer, answer_by_last(steps, cost, open_count));
                seen.add(&answer, least);
            }
        }
    }
    seen.assert_each_above(40);
    assert!(seen.none > 40 && seen.literals_left > 1_000);
}

/// Every model is tried under every beginning that has no literals at its end, and every assignment held against what
/// is answered. The bounds that the steps state play no part.
#[test]
fn no_model_is_cheaper_than_the_claim_by_more_than_the_gap() {
    let mut numbers = Numbers::from(8);
    let mut seen = Seen::default();
    for _ in 0..300 {
        let derivation = in_rounds(&mut numbers);
        let (sheet, all) = (derivation.sheet(), models(&derivation));
        let costs: Vec<u64> = all.iter().map(|values| derivation.cost(values)).collect();
        for length in 1..=derivation.steps.len() {
            let steps = &derivation.steps[..length];
            if stated(&steps[length - 1]).0 > 0 {
                continue;
            }
            for (values, cost) in all.iter().zip(&costs) {
                let record = record(*cost, &[bits_of(values).0], steps);
                let answer = judge(&sheet, &record);
                assert!(!answer.refuses());
                let floor = answer.cost - answer.gap;
                assert!(costs.iter().all(|cost| *cost >= floor));
                let is_within = answer.verdict() == Verdict::Within;
                assert_eq!(confirms_within(&sheet, &record, &answer), is_within);
                seen.add(&answer, derivation.enough);
            }
        }
    }
    seen.assert_each_above(100);
}
