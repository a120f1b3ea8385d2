//! Refusals 23 and 24, and what 8 and 9 ask of the tail: kind 5.

mod common;

use common::*;
use reference::{judge, Answer};

/// One step over costs 1, 2, 4, 8, 16, 32, so that a bound tells which variables it counts. Under the claim
/// "none" no assignment has to satisfy the clauses before the step is reached.
fn judge_on(clauses: &[&[u16]], body: Vec<u8>) -> Answer {
    let sheet = sheet(&[1, 2, 4, 8, 16, 32], clauses);
    judge(&sheet, &record(NONE, &[0], &[body]))
}

/// Bounds of every size.
fn bounds() -> impl Iterator<Item = u64> {
    let high = [1 << 16, 1 << 31, 1 << 32, 1 << 63, NONE - 1, NONE];
    (0..=130).chain(high)
}

/// A weight for each of the clauses 1, 2 and so on.
fn from_1(weights: &[u16]) -> Vec<(u32, u16)> {
    (1..).zip(weights.iter().copied()).collect()
}

/// With these weights of all the clauses the step passes at this bound (and does not close), and meets 24 at every
/// other.
fn assert_bound(clauses: &[&[u16]], codes: &[u16], divisor: u16, weights: &[u16], bound: u64) {
    assert_eq!(clauses.len(), weights.len());
    let entries = from_1(weights);
    let judged = |bound| judge_on(clauses, weighted_step(codes, bound, divisor, &entries));
    assert_eq!(judged(bound), refused(19, 1));
    let near = [bound.wrapping_sub(1), bound + 1, bound + (1 << 32)];
    for wrong in bounds().chain(near).filter(|wrong| *wrong != bound) {
        assert_eq!(judged(wrong), refused(24, 1));
    }
}

/// The step meets this number at every bound, so never 24.
fn assert_fault(
    number: u32,
    clauses: &[&[u16]],
    codes: &[u16],
    divisor: u16,
    entries: &[(u32, u16)],
) {
    for bound in bounds() {
        let answer = judge_on(clauses, weighted_step(codes, bound, divisor, entries));
        assert_eq!(answer, refused(number, 1));
    }
}

/// Document 001's example 3 has optimum 11, by the weights 3, 4 and 2.
#[test]
fn example_3_has_the_bound_11() {
    let judged = |bound| judge(&sheet_c(), &record_c(example_3(bound)));
    assert_eq!(judged(11), refused(19, 1));
    for wrong in bounds().filter(|wrong| *wrong != 11) {
        assert_eq!(judged(wrong), refused(24, 1));
    }
}

/// The literals are left, so no claim makes example 3's step a close: neither one below its bound nor "none".
#[test]
fn example_3_does_not_close() {
    // Variables 1, 4 and 6, as its linear program has them, cost 11.
    for (claim, bits) in [(1, 0b00_0001), (11, 0b10_1001), (NONE, 0)] {
        let record = record(claim, &[bits], &[example_3(11)]);
        assert_eq!(judge(&sheet_c(), &record), refused(19, 1));
    }
}

/// Example 3's sheet with two clauses more, which force what its step settles: 5 false and 6 true. The least is 11.
fn settled_sheet() -> Vec<u8> {
    let added: [&[u16]; 2] = [&[neg(5)], &[pos(6)]];
    sheet(&[1, 2, 3, 4, 5, 6], &[&CLAUSES_C[..], &added].concat())
}

#[test]
fn example_3_resolved_to_the_close() {
    let steps = [
        example_3(11),
        clause_step(&[neg(5)], 4),
        resolution_step(&[neg(6)], 11, 1, 2, 5),
        clause_step(&[pos(6)], 5),
        resolution_step(&[], 11, 4, 3, 6),
    ];
    let judged = |claim, bits| judge(&settled_sheet(), &record(claim, &[bits], &steps));
    assert_eq!(judged(11, 0b10_1001), accepted(11, 3, 5));
    assert_eq!(judged(11, 0b10_0110), accepted(11, 3, 5));
    // Variables 1, 3, 4 and 6 do it too, and cost 14.
    assert_eq!(judged(14, 0b10_1101), within(3, 14, 4, 5));
    assert_eq!(judged(NONE, 0), refused(19, 5));
}

/// All five multipliers of example 3. Those of its two settled variables are now weights of clauses.
#[test]
fn example_3_in_one_step() {
    let entries = from_1(&[3, 4, 2, 2, 10]);
    let judged = |claim, bits, bound| {
        let steps = [weighted_step(&[], bound, 1, &entries)];
        judge(&settled_sheet(), &record(claim, &[bits], &steps))
    };
    assert_eq!(judged(11, 0b10_1001, 11), accepted(11, 3, 1));
    assert_eq!(judged(11, 0b10_1001, 10), refused(24, 1));
    assert_eq!(judged(11, 0b10_1001, 12), refused(24, 1));
    assert_eq!(judged(14, 0b10_1101, 11), within(3, 14, 4, 1));
}

/// Document 001's example 4: clause 1 alone, at weight 1, and variable 1 alone settled.
#[test]
fn example_4_has_the_bound_1() {
    let clauses: [&[u16]; 2] = [&[neg(1), pos(2), pos(3)], &[neg(1), neg(2), neg(3)]];
    let sheet = sheet(&[0, 1, 1], &clauses);
    let judged = |bound| {
        let step = weighted_step(&[neg(1)], bound, 1, &[(1, 1)]);
        judge(&sheet, &record(1, &[0b011], &[step]))
    };
    assert_eq!(judged(1), refused(19, 1));
    for wrong in [0, 2, NONE] {
        assert_eq!(judged(wrong), refused(24, 1));
    }
}

#[test]
fn a_clause_adds_its_weight_as_long_as_the_costs_cover_it() {
    let clauses: [&[u16]; 1] = [&[pos(3), pos(4), pos(6)]];
    for weight in 1..=4 {
        assert_bound(&clauses, &[], 1, &[weight], u64::from(weight));
    }
    // From 4 on, what one variable lacks is taken off; from 8 on, what two lack.
    assert_bound(&clauses, &[], 1, &[5], 5 - 1);
    assert_bound(&clauses, &[], 1, &[8], 8 - 4);
    assert_bound(&clauses, &[], 1, &[9], 9 - 5 - 1);
    assert_bound(&clauses, &[], 1, &[11], 11 - 7 - 3);
}

#[test]
fn a_total_of_0_or_below_has_the_bound_0() {
    let clauses: [&[u16]; 1] = [&[pos(3), pos(4), pos(6)]];
    for divisor in [1, 2] {
        // 12 - 8 - 4, and twice that.
        assert_bound(&clauses, &[], divisor, &[12 * divisor], 0);
        assert_bound(&clauses, &[], divisor, &[12 * divisor + 1], 0);
        assert_bound(&clauses, &[], divisor, &[13 * divisor], 0);
        assert_bound(&clauses, &[], divisor, &[65_535], 0);
    }
    // One weight less, and there is a bound.
    assert_bound(&clauses, &[], 1, &[11], 1);
    assert_bound(&clauses, &[], 2, &[23], 1);
}

#[test]
fn a_total_that_the_divisor_does_not_divide_is_rounded_up() {
    // Variable 6 costs 32 and covers every weight here, so the total is the weight.
    for divisor in 1..=7 {
        for weight in 1..=32 {
            let least = (0..).find(|bound| divisor * bound >= weight).unwrap();
            assert_bound(&[&[pos(6)]], &[], divisor, &[weight], u64::from(least));
        }
    }
    assert_bound(&[&[pos(6)]], &[], 65_535, &[1], 1);
    assert_bound(&[&[pos(6)]], &[], 65_535, &[65_535], 1);
    assert_bound(&[&[pos(6)]], &[], 65_534, &[65_535], 2);
}

/// Three variables of cost 1 and a clause for every two of them: two have to be true. Half a unit for each clause is
/// a total of one and a half; no whole weights do as well.
#[test]
fn rounding_up_can_make_the_close() {
    let clauses: [&[u16]; 3] = [&[pos(1), pos(2)], &[pos(1), pos(3)], &[pos(2), pos(3)]];
    let sheet = sheet(&[1, 1, 1], &clauses);
    let judged = |divisor, weights: &[u16], bound| {
        let steps = [weighted_step(&[], bound, divisor, &from_1(weights))];
        judge(&sheet, &record(2, &[0b011], &steps))
    };
    assert_eq!(judged(2, &[1, 1, 1], 2), accepted(2, 2, 1));
    assert_eq!(judged(2, &[1, 1, 1], 1), refused(24, 1));
    assert_eq!(judged(2, &[1, 1, 1], 3), refused(24, 1));
    assert_eq!(judged(1, &[1, 1, 1], 2), refused(24, 1));
    assert_eq!(judged(1, &[1, 1, 1], 0), within(2, 2, 2, 1));
}

#[test]
fn the_divisor_multiplies_the_costs_and_not_the_weights() {
    let clauses: [&[u16]; 2] = [&[pos(2)], &[pos(3)]];
    // The remainders are 6 - 2 and 12 - 13, so the total is 2 + 13 - 1.
    assert_bound(&clauses, &[], 3, &[2, 13], 5);
    // With 2 and 3 true it is 2 + 13 + 4 - 1, three times their costs.
    assert_bound(&clauses, &[neg(2), neg(3)], 3, &[2, 13], 2 + 4);
}

#[test]
fn a_variable_settled_true_adds_its_remainder_above_zero_or_below() {
    let clauses: [&[u16]; 1] = [&[pos(3), pos(6)]];
    for weight in [1, 3, 4, 5, 31, 32] {
        // The clause is satisfied and what it takes from variable 3 it brings in itself: the cost is left.
        assert_bound(&clauses, &[neg(3)], 1, &[weight], 4);
    }
    // Variable 6 is no longer covered: it adds 32 - 33.
    assert_bound(&clauses, &[neg(3)], 1, &[33], 3);
    // Both true: the clause brings in its weight once and takes it from two.
    assert_bound(&clauses, &[neg(3), neg(6)], 1, &[33], 4 + 32 - 33);
    assert_bound(&clauses, &[neg(3), neg(6)], 1, &[36], 0);
    assert_bound(&clauses, &[neg(3), neg(6)], 1, &[37], 0);
}

#[test]
fn a_variable_settled_false_adds_nothing() {
    // The remainder of variable 1 is 1 - 5.
    assert_bound(&[&[pos(1), pos(4)]], &[], 1, &[5], 5 - 4);
    assert_bound(&[&[pos(1), pos(4)]], &[pos(1)], 1, &[5], 5);
    // That of variable 4 is 8 - 5, and settled it adds no more than unsettled.
    assert_bound(&[&[pos(1), pos(4)]], &[pos(1), pos(4)], 1, &[5], 5);
    // Nor does one that a clause holds as negative, or one that no clause holds.
    assert_bound(&[&[neg(1)], &[pos(6)]], &[pos(1)], 1, &[5, 7], 7);
    assert_bound(&[&[pos(6)]], &[pos(1), pos(2)], 1, &[7], 7);
}

#[test]
fn an_unsettled_variable_adds_its_remainder_only_below_zero() {
    let clauses: [&[u16]; 3] = [&[pos(4)], &[pos(4)], &[neg(4), pos(6)]];
    // 8 - 7 - 2 + 1 is 0, and with other weights 2 or -3.
    assert_bound(&clauses, &[], 1, &[7, 2, 1], 7 + 2);
    assert_bound(&clauses, &[], 1, &[5, 2, 1], 5 + 2);
    assert_bound(&clauses, &[], 1, &[7, 5, 1], 7 + 5 - 3);
}

/// Variables 5 and 6 stand in clauses that are not cited, if in any.
#[test]
fn a_variable_of_no_cited_clause_adds_its_cost_if_settled_true() {
    let clauses: [&[u16]; 3] = [&[pos(1)], &[pos(5)], &[neg(5), neg(6)]];
    let judged = |codes: &[u16], divisor, bound| {
        let step = weighted_step(codes, bound, divisor, &[(1, 1)]);
        judge_on(&clauses, step).number
    };
    for divisor in [1, 3] {
        assert_eq!(judged(&[], divisor, 1), 19);
        assert_eq!(judged(&[pos(5), pos(6)], divisor, 1), 19);
        assert_eq!(judged(&[neg(5)], divisor, 16 + 1), 19);
        assert_eq!(judged(&[pos(5), neg(6)], divisor, 32 + 1), 19);
        assert_eq!(judged(&[neg(5), neg(6)], divisor, 16 + 32 + 1), 19);
        assert_eq!(judged(&[neg(5), neg(6)], divisor, 16 + 32), 24);
        assert_eq!(judged(&[neg(5), neg(6)], divisor, 16 + 32 + 2), 24);
    }
}

/// A clause adds its weight once less its negative literals.
#[test]
fn negative_literals_of_a_clause_are_counted() {
    let (n1, n2, n3) = (neg(1), neg(2), neg(3));
    let base: &[u16] = &[pos(6)];
    // Clause 1 brings in 20, and clause 2 nothing, or -3, or -6.
    assert_bound(&[base, &[n1]], &[], 1, &[20, 3], 20);
    assert_bound(&[base, &[n1, n2]], &[], 1, &[20, 3], 20 - 3);
    assert_bound(&[base, &[n1, n2, n3]], &[], 1, &[20, 3], 20 - 6);
    assert_bound(&[base, &[n1, n2, n3, pos(5)]], &[], 1, &[20, 3], 20 - 6);
    // Each variable made true brings back the weight, and its cost.
    let clauses: [&[u16]; 2] = [base, &[n1, n2, n3]];
    assert_bound(&clauses, &[n1], 1, &[20, 3], 20 - 3 + 1);
    assert_bound(&clauses, &[n1, n2], 1, &[20, 3], 20 + 1 + 2);
    // With all three true the clause is broken, so whatever is stated is true.
    assert_bound(&clauses, &[n1, n2, n3], 1, &[20, 3], 20 + 3 + 1 + 2 + 4);
    // Alone it stays below zero up to the third.
    assert_bound(&[&[n1, n2, n3]], &[], 1, &[3], 0);
    assert_bound(&[&[n1, n2, n3]], &[n3], 1, &[3], 4 - 3);
}

/// A variable that cited clauses hold both ways, weights against one another.
#[test]
fn weights_of_both_signs_meet_in_one_remainder() {
    let clauses: [&[u16]; 3] = [&[pos(2), pos(6)], &[neg(2), pos(6)], &[neg(2), pos(5)]];
    // 2 - 10 + 3 + 4 is -1, and clauses 2 and 3 bring in nothing.
    assert_bound(&clauses, &[], 1, &[10, 3, 4], 10 - 1);
    assert_bound(&clauses, &[], 1, &[9, 3, 4], 9);
    assert_bound(&clauses, &[], 1, &[8, 3, 4], 8);
    assert_bound(&clauses, &[neg(2)], 1, &[8, 3, 4], 8 + 1);
    assert_bound(&clauses, &[pos(2)], 1, &[8, 3, 4], 8);
}

/// It has no literal that could take its weight off again: the bound can be as great as one likes.
#[test]
fn the_empty_clause_adds_its_weight() {
    assert_bound(&[&[]], &[], 1, &[1], 1);
    assert_bound(&[&[]], &[], 1, &[65_535], 65_535);
    assert_bound(&[&[]], &[], 2, &[65_535], 32_768);
    assert_bound(
        &[&[], &[pos(1)], &[]],
        &[neg(6)],
        1,
        &[40, 1, 30],
        40 + 1 + 30 + 32,
    );
}

/// Only the bound "none" bears out the claim "none".
#[test]
fn no_weights_bear_out_the_claim_none() {
    let sheet = sheet(&[7], &[&[], &[pos(1)]]);
    let judged = |bound| {
        let step = weighted_step(&[], bound, 1, &[(1, 65_535), (2, 7)]);
        judge(&sheet, &record(NONE, &[0], &[step]))
    };
    assert_eq!(judged(65_535 + 7), refused(19, 1));
    assert_eq!(judged(NONE - 1), refused(24, 1));
    assert_eq!(judged(NONE), refused(24, 1));
}

/// Kind 3 asks more of its clauses: these meet 14, 20, 21 and 22 there.
#[test]
fn nothing_is_asked_of_the_clauses_themselves() {
    let assert_case = |number, clauses: [&[u16]; 2], codes: &[u16], bound| {
        let independent = independent_step(codes, bound, &[1, 2]);
        assert_eq!(judge_on(&clauses, independent), refused(number, 1));
        assert_bound(&clauses, codes, 1, &[1, 1], bound);
    };
    let sound: &[u16] = &[pos(6)];
    assert_case(14, [sound, &[pos(1), pos(5)]], &[neg(1)], 1 + 1);
    assert_case(20, [sound, &[pos(1), neg(2)]], &[], 1);
    assert_case(21, [sound, &[pos(1), neg(2)]], &[pos(1), neg(2)], 1 + 1 + 2);
    assert_case(22, [sound, &[pos(5), pos(6)]], &[], 1 + 1);
}

#[test]
fn equal_clauses_add_up() {
    let clause: &[u16] = &[pos(4)];
    assert_bound(&[clause, clause, clause], &[], 1, &[2, 3, 3], 8);
    assert_bound(&[clause, clause, clause], &[], 1, &[2, 3, 4], 8);
}

#[test]
fn a_clause_that_is_not_cited_does_not_matter() {
    let clauses: [&[u16]; 3] = [&[pos(4)], &[], &[pos(5)]];
    let judged = |bound| {
        let step = weighted_step(&[], bound, 1, &[(1, 8), (3, 16)]);
        judge_on(&clauses, step)
    };
    assert_eq!(judged(8 + 16), refused(19, 1));
    assert_eq!(judged(8), refused(24, 1));
    assert_eq!(judged(8 + 16 + 1), refused(24, 1));
}

/// Every length up to four entries and one byte more, with an entry in order wherever there is room for one.
#[test]
fn refusal_8_a_tail_that_is_no_divisor_with_entries() {
    let clause: &[u16] = &[pos(6)];
    let whole = weighted_step(&[], 1, 1, &from_1(&[1; 5]));
    for length in 0..=27 {
        let body = whole[..12 + length].to_vec();
        let entry_count = match length {
            8 => 1,
            14 => 2,
            20 => 3,
            26 => 4,
            _ => 0,
        };
        let number = if entry_count == 0 { 8 } else { 19 };
        let body = edited(&body, 4, &[entry_count]);
        assert_eq!(judge_on(&[clause; 5], body), refused(number, 1));
    }
}

/// The literals stand before the tail: with one of them the same lengths hold.
#[test]
fn refusal_8_a_tail_after_literals() {
    let clause: &[u16] = &[pos(6)];
    let whole = weighted_step(&[pos(1), pos(2)], 1, 1, &[(1, 1)]);
    assert_eq!(whole.len(), 24);
    for length in 12..24 {
        let answer = judge_on(&[clause], whole[..length].to_vec());
        assert_eq!(answer, refused(8, 1));
    }
    assert_eq!(judge_on(&[clause], whole.clone()), refused(19, 1));
    let longer = [&whole[..], &[0]].concat();
    assert_eq!(judge_on(&[clause], longer), refused(8, 1));
}

#[test]
fn refusal_8_tails_of_kind_5_under_no_kind() {
    let clause: &[u16] = &[pos(6)];
    let whole = weighted_step(&[], 1, 1, &[(1, 1)]);
    for kind in (0..=255).filter(|kind| *kind != 3 && *kind != 5) {
        let answer = judge_on(&[clause], edited(&whole, 0, &[kind]));
        assert_eq!(answer, refused(8, 1));
    }
}

#[test]
fn refusal_9_a_clause_not_1_to_m() {
    let clause: &[u16] = &[pos(6)];
    let clauses = [clause; 3];
    // Stored in 4 bytes, of which none may be dropped.
    for wrong in [0, 4, 5, 257, 65_537, (1 << 24) + 1, u32::MAX] {
        assert_fault(9, &clauses, &[], 1, &[(wrong, 1)]);
        assert_fault(9, &clauses, &[], 1, &[(1, 1), (2, 1), (wrong, 1)]);
        assert_fault(9, &clauses, &[], 1, &[(wrong, 1), (2, 1), (3, 1)]);
    }
    assert_bound(&clauses, &[], 1, &[1, 1, 1], 3);
}

#[test]
fn refusal_9_clauses_not_rising() {
    let clause: &[u16] = &[pos(6)];
    let lists: [&[u32]; 7] = [
        &[1, 1],
        &[2, 1],
        &[3, 3],
        &[1, 3, 2],
        &[2, 1, 3],
        &[1, 2, 2],
        &[1, 2, 3, 1],
    ];
    for cited in lists {
        let entries: Vec<(u32, u16)> = cited.iter().map(|cited| (*cited, 1)).collect();
        assert_fault(9, &[clause; 3], &[], 1, &entries);
    }
    let skipping = weighted_step(&[], 2, 1, &[(1, 1), (3, 1)]);
    assert_eq!(judge_on(&[clause; 3], skipping), refused(19, 1));
}

#[test]
fn refusal_23_a_divisor_of_0() {
    let clause: &[u16] = &[pos(6)];
    assert_fault(23, &[clause], &[], 0, &[(1, 1)]);
    assert_fault(23, &[clause; 2], &[neg(6)], 0, &[(1, 1), (2, 65_535)]);
}

#[test]
fn refusal_23_a_weight_of_0() {
    let clause: &[u16] = &[pos(6)];
    assert_fault(23, &[clause], &[], 1, &[(1, 0)]);
    for at in 0..3 {
        let mut weights = [1; 3];
        weights[at] = 0;
        assert_fault(23, &[clause; 3], &[], 1, &from_1(&weights));
        assert_fault(23, &[clause; 3], &[neg(6)], 0, &from_1(&weights));
    }
    assert_fault(23, &[clause; 3], &[pos(6)], 65_535, &from_1(&[0; 3]));
}

/// The low byte of 256 is 0, and so is the high byte of 1.
#[test]
fn refusal_23_looks_at_both_bytes() {
    let clauses: [&[u16]; 1] = [&[pos(6)]];
    assert_bound(&clauses, &[], 256, &[256], 1);
    assert_bound(&clauses, &[], 256, &[1], 1);
    // 256 - (256 - 32): the variable's cost is all there is.
    assert_bound(&clauses, &[], 1, &[256], 32);
    assert_bound(&clauses, &[], 255, &[256], 2);
}

#[test]
fn refusal_9_comes_before_23() {
    let clause: &[u16] = &[pos(6)];
    let clauses = [clause; 2];
    for (divisor, weight) in [(0, 1), (1, 0), (0, 0)] {
        // The weight of 0 stands before the wrong citation, after it, or in it.
        assert_fault(9, &clauses, &[], divisor, &[(1, weight), (3, 1)]);
        assert_fault(9, &clauses, &[], divisor, &[(0, 1), (2, weight)]);
        assert_fault(9, &clauses, &[], divisor, &[(2, 1), (2, weight)]);
        assert_fault(9, &clauses, &[], divisor, &[(3, weight)]);
    }
}

#[test]
fn refusal_8_comes_before_9_and_23() {
    let clause: &[u16] = &[pos(6)];
    for entry in [(1, 1), (1, 0), (0, 1), (2, 0)] {
        let mut cut_short = weighted_step(&[], 1, 0, &[entry]);
        cut_short.pop();
        assert_eq!(judge_on(&[clause], cut_short), refused(8, 1));
        assert_fault(8, &[clause], &[pos(7)], 0, &[entry]);
        assert_fault(8, &[clause], &[pos(2), pos(1)], 1, &[entry]);
        let byte_1 = edited(&weighted_step(&[], 1, 1, &[entry]), 1, &[1]);
        assert_eq!(judge_on(&[clause], byte_1), refused(8, 1));
    }
}

#[test]
fn the_place_of_each_fault_is_the_step() {
    let sound = weighted_step(&[], 1, 1, &[(1, 1)]);
    let faulty = [
        (8, sound[..19].to_vec()),
        (9, weighted_step(&[], 1, 1, &[(2, 1)])),
        (23, weighted_step(&[], 1, 0, &[(1, 1)])),
        (24, weighted_step(&[], 2, 1, &[(1, 1)])),
    ];
    for (number, body) in faulty {
        for place in 1..=4 {
            let mut steps = vec![sound.clone(); place - 1];
            steps.push(body.clone());
            // A step after it, whose own fault would come first in one and the same step.
            steps.push(vec![]);
            let answer = judge(&sheet(&[1], &[&[pos(1)]]), &record(1, &[1], &steps));
            assert_eq!(answer, refused(number, place as u64));
        }
    }
}

/// A resolution takes a step of kind 5 for either premise.
#[test]
fn weighted_clauses_are_premises_like_any_others() {
    let clauses: [&[u16]; 2] = [&[pos(1), pos(2)], &[neg(1), pos(3)]];
    let steps = [
        // With variable 1 false, 2 has to be true; with 1 true, 3 has to be.
        weighted_step(&[pos(1)], 5, 1, &[(1, 5)]),
        weighted_step(&[neg(1)], 6, 1, &[(2, 4)]),
        resolution_step(&[], 5, 1, 2, 1),
    ];
    let sheet = sheet(&[2, 5, 4], &clauses);
    let judged = |claim, bits| judge(&sheet, &record(claim, &[bits], &steps));
    assert_eq!(judged(5, 0b010), accepted(5, 1, 3));
    assert_eq!(judged(6, 0b101), within(1, 6, 2, 3));
}

/// Two variables at the greatest cost, true, and the greatest divisor: no sum may be cut at 32 bits or at 48.
#[test]
fn the_greatest_cost_divisor_and_weight() {
    let sheet = sheet(&[u32::MAX; 2], &[&[neg(1), neg(2)]]);
    let judged = |codes: &[u16], bound| {
        let step = weighted_step(codes, bound, 65_535, &[(1, 65_535)]);
        judge(&sheet, &record(0, &[0], &[step]))
    };
    let cost = 4_294_967_295;
    // Each brings back the weight, and the clause takes it off once: over both costs there is one weight, a unit.
    let both = [neg(1), neg(2)];
    assert_eq!(judged(&both, 2 * cost + 1), refused(19, 1));
    assert_eq!(judged(&both, 2 * cost), refused(24, 1));
    assert_eq!(judged(&both, (2 * cost + 1) % (1 << 32)), refused(24, 1));
    assert_eq!(judged(&[pos(1), neg(2)], cost), refused(19, 1));
    assert_eq!(judged(&[neg(2)], cost + 1), refused(24, 1));
}

/// One step on a sheet with as many variables and clauses as there can be, all of one cost and all holding the same
/// literals. It cites every clause, at the greatest weight, and passes at this bound.
fn assert_bound_of_greatest(cost: u32, clause: &[u16], codes: &[u16], divisor: u16, bound: u64) {
    let sheet = sheet(&[cost; 1_024], &[clause; 4_096]);
    let step = weighted_step(codes, bound, divisor, &from_1(&[65_535; 4_096]));
    let answer = judge(&sheet, &record(NONE, &[0; 128], &[step]));
    assert_eq!(answer, refused(19, 1));
}

/// The literals of all 1,024 variables, by the code of one.
fn every(code: fn(u16) -> u16) -> Vec<u16> {
    (1..=1_024).map(code).collect()
}

/// What 4,096 clauses of the greatest weight have together.
const WEIGHTS: u64 = 4_096 * 65_535;

/// Every variable true, and negative in every clause: the remainders are as great as they can be. Of the weights in
/// them, what the clauses take off leaves every weight once, over the costs of all variables.
#[test]
fn the_greatest_total_does_not_wrap() {
    let shut = every(neg);
    let costs = 1_024 * 4_294_967_295;
    assert_bound_of_greatest(u32::MAX, &shut, &shut, 65_535, costs + 4_096);
}

/// Nothing is settled, so every clause is 1,023 times its weight below zero, and no variable brings any of it back.
#[test]
fn the_least_total_does_not_wrap() {
    assert_bound_of_greatest(u32::MAX, &every(neg), &[], 65_535, 0);
}

/// Variables without a cost, positive in every clause: each remainder is all weights below zero. False, the variables
/// take nothing off.
#[test]
fn the_least_remainders_do_not_wrap() {
    let open = every(pos);
    assert_bound_of_greatest(0, &open, &[], 1, 0);
    assert_bound_of_greatest(0, &open, &open, 1, WEIGHTS);
}

/// Four clauses for each variable, which is all they hold.
#[test]
fn the_greatest_sum_of_weights_closes() {
    let bodies: Vec<Vec<u8>> = (0..4_096).map(|at| two_bytes(&[pos(1 + at / 4)])).collect();
    let sheet = sheet_of_bodies(&[4 * 65_535; 1_024], &bodies);
    let judged = |bound| {
        let step = weighted_step(&[], bound, 1, &from_1(&[65_535; 4_096]));
        judge(&sheet, &record(WEIGHTS, &[0xFF; 128], &[step]))
    };
    assert_eq!(judged(WEIGHTS), accepted(WEIGHTS, 1_024, 1));
    assert_eq!(judged(WEIGHTS - 1), refused(24, 1));
    assert_eq!(judged(WEIGHTS + 1), refused(24, 1));
}

#[test]
fn refusal_9_one_entry_more_than_there_can_be_clauses() {
    let clause: &[u16] = &[pos(1)];
    let sheet = sheet(&[1], &[clause; 4_096]);
    let judged = |count: u32| {
        let entries: Vec<(u32, u16)> = (1..=count).map(|cited| (cited, 1)).collect();
        let step = weighted_step(&[pos(1)], u64::from(count), 1, &entries);
        judge(&sheet, &record(1, &[1], &[step]))
    };
    assert_eq!(judged(4_096), refused(19, 1));
    assert_eq!(judged(4_097), refused(9, 1));
}
