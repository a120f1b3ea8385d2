//! Marked sheets: where the loss stands, that every cost and the bounds of kinds 2, 3 and 5 have it in them, and when
//! the writer keeps it.

mod common;

use common::derivation::*;
use common::writer::{assert_refused, buffer, not_written, write, written};
use common::*;
use reference::brute::{confirms, confirms_within, least_cost, within_reach};
use reference::{judge, line, sheet_is_valid, show, write_sheet, Answer, Verdict};
use std::collections::{BTreeMap, BTreeSet};

/// No loss, some of one byte to four, one whose bytes all differ, and the greatest.
const LOSSES: [u32; 8] = [0, 1, 7, 256, 65_536, 0x0403_0201, 1 << 31, u32::MAX];

/// Sheet A with this loss.
fn marked_a(loss: u32) -> Vec<u8> {
    marked(loss, &sheet_a())
}

/// Record A on that sheet, with these bits for the assignment.
fn record_a_at(loss: u32, claim: u64, bits: u8) -> Vec<u8> {
    record(claim, &[bits], &steps_with_loss(loss, &steps_a()))
}

/// None of refusals 1 to 4: the empty record is the first fault.
fn assert_valid(sheet: &[u8]) {
    assert_eq!(judge(sheet, &[]), refused(5, 0));
    assert!(sheet_is_valid(sheet));
}

/// Neither is a record judged on the sheet, nor is the sheet written.
fn assert_sheet_refused(sheet: &[u8], number: u32, place: u64) {
    assert_eq!(judge(sheet, &record_a()), refused(number, place));
    assert!(!sheet_is_valid(sheet) && !within_reach(sheet));
    assert_refused(sheet, number, place);
}

#[test]
fn the_bytes_of_a_marked_sheet() {
    let sheet = hex("02 80 02 00
         03 00 00 00 05 00 00 00
         07 00 00 00
         20 00 00 00 04 00 00 00 24 00 00 00 04 00 00 00
         02 00 04 00
         02 00 05 00");
    assert_eq!(marked_a(7), sheet);
    let answer = judge(&sheet, &record_a_at(7, 10, 0b01));
    assert_eq!(line(&answer), "least 10 open 1 steps 5");
}

#[test]
fn record_a_at_every_loss() {
    for loss in LOSSES {
        let claim = 3 + u64::from(loss);
        let answer = judge(&marked_a(loss), &record_a_at(loss, claim, 0b01));
        assert_eq!(answer, accepted(claim, 1, 5));
    }
}

/// Claim and bound have the loss in them alike, so it is no part of what lies between them.
#[test]
fn the_gap_is_the_same_at_every_loss() {
    for loss in LOSSES {
        let claim = 8 + u64::from(loss);
        let answer = judge(&marked_a(loss), &record_a_at(loss, claim, 0b11));
        assert_eq!(answer, within(5, claim, 2, 5));
    }
}

#[test]
fn a_loss_of_0_changes_no_answer() {
    let mut dearer = steps_a();
    dearer[3] = cost_step(&[neg(1)], 4);
    let records = [
        record_a(),
        record_a4(),
        edited(&record_a(), 0, &[4]),
        edited(&record_a(), 12, &[0x02]),
        edited(&record_a(), 12, &[0x05]),
        record(3, &[0x01], &dearer),
        record(NONE, &[0], &steps_a()),
        vec![],
    ];
    for record in records {
        assert_eq!(judge(&marked_a(0), &record), judge(&sheet_a(), &record));
    }
    let [independent, weighted] = [record_c1(), record_c(example_3(11))];
    assert_eq!(judge(&marked(0, &sheet_c()), &independent), refused(19, 1));
    assert_eq!(judge(&marked(0, &sheet_c()), &weighted), refused(19, 1));
}

#[test]
fn refusal_11_a_claim_without_the_loss_or_with_another() {
    for loss in LOSSES {
        let cost = 3 + u64::from(loss);
        let judged = |claim| judge(&marked_a(loss), &record_a_at(loss, claim, 0b01));
        let cut_at_32_bits = cost % (1 << 32);
        let reversed = 3 + u64::from(loss.swap_bytes());
        let near = [3, cost - 1, cost + 1, cost - 3, cost + u64::from(loss)];
        let far = [cut_at_32_bits, reversed, cost + (1 << 32), NONE - 1];
        for claim in near.into_iter().chain(far).filter(|claim| *claim != cost) {
            assert_eq!(judged(claim), refused(11, 0));
        }
    }
}

/// The loss is paid with every variable false, too: it is the least cost of a sheet without clauses.
#[test]
fn the_loss_alone_is_a_cost() {
    for loss in LOSSES {
        let cost = u64::from(loss);
        let sheet = marked(loss, &sheet(&[9], &[]));
        let judged = |claim, bits| judge(&sheet, &record(claim, &[bits], &[cost_step(&[], cost)]));
        assert_eq!(judged(cost, 0), accepted(cost, 0, 1));
        assert_eq!(judged(cost + 9, 1), within(9, cost + 9, 1, 1));
        assert_eq!(judged(cost + 1, 0), refused(11, 0));
    }
}

/// With no more than 8 variables: under the claim "none" the step passes at this bound (and does not close), and meets
/// the number at every other, the loss left out or taken twice among them.
fn assert_bound(number: u32, loss: u32, sheet: &[u8], bound: u64, step: impl Fn(u64) -> Vec<u8>) {
    let sheet = marked(loss, sheet);
    let judged = |bound| judge(&sheet, &record(NONE, &[0], &[step(bound)]));
    assert_eq!(judged(bound), refused(19, 1));
    let loss = u64::from(loss);
    let near = [bound - loss, bound + loss, bound.wrapping_sub(1), bound + 1];
    let far = [loss, bound % (1 << 32), bound + (1 << 32), NONE - 1, NONE];
    let wrong = (0..=130).chain(near).chain(far);
    for wrong in wrong.filter(|wrong| *wrong != bound) {
        assert_eq!(judged(wrong), refused(number, 1));
    }
}

#[test]
fn refusal_13_the_bound_of_kind_2_has_the_loss() {
    let literals: [(&[u16], u64); 4] = [
        (&[], 0),
        (&[pos(1), pos(6)], 0),
        (&[pos(5), neg(6)], 6),
        (&[neg(1), neg(2), neg(6)], 9),
    ];
    for loss in LOSSES {
        for (codes, paid) in literals {
            let step = |bound| cost_step(codes, bound);
            assert_bound(13, loss, &sheet_c(), u64::from(loss) + paid, step);
        }
    }
}

/// Case C1, where the bound was 9; and its first clause alone, with nothing settled. The loss is there once, however
/// many clauses are cited.
#[test]
fn refusal_15_the_bound_of_kind_3_has_the_loss() {
    for loss in LOSSES {
        let cost = u64::from(loss);
        let two = |bound| independent_step(&[pos(5), neg(6)], bound, &[1, 2]);
        assert_bound(15, loss, &sheet_c(), cost + 9, two);
        let one = |bound| independent_step(&[], bound, &[1]);
        assert_bound(15, loss, &sheet_c(), cost + 1, one);
    }
}

/// Document 001's example 3, where the bound was 11.
#[test]
fn refusal_24_the_bound_of_kind_5_has_the_loss() {
    for loss in LOSSES {
        assert_bound(24, loss, &sheet_c(), u64::from(loss) + 11, example_3);
    }
}

/// The total is 11 and the divisor 2, which is 6 rounded up. A loss of 7 in the total would make it 9 and not 13.
#[test]
fn refusal_24_the_loss_comes_after_the_rounding() {
    let clauses: [&[u16]; 3] = [
        &[neg(1), pos(2), pos(3)],
        &[pos(3), pos(4)],
        &[pos(2), pos(4)],
    ];
    let plain = sheet(&[4, 1, 1, 1], &clauses);
    let step = |bound| weighted_step(&[neg(1)], bound, 2, &[(1, 1), (2, 1), (3, 1)]);
    for loss in LOSSES.into_iter().filter(|loss| *loss > 0) {
        assert_bound(24, loss, &plain, 6 + u64::from(loss), step);
        let in_the_total = (11 + u64::from(loss)).div_ceil(2);
        let record = record(NONE, &[0], &[step(in_the_total)]);
        assert_eq!(judge(&marked(loss, &plain), &record), refused(24, 1));
    }
    assert_bound(24, 7, &plain, 13, step);
}

/// Half a unit for each of three clauses is one and a half, and two with the rounding; with the loss in the total there
/// would be less.
#[test]
fn a_loss_after_the_rounding_closes() {
    let clauses: [&[u16]; 3] = [&[pos(1), pos(2)], &[pos(1), pos(3)], &[pos(2), pos(3)]];
    let sheet = marked(7, &sheet(&[1, 1, 1], &clauses));
    let judged = |claim, bits, bound| {
        let steps = [weighted_step(&[], bound, 2, &[(1, 1), (2, 1), (3, 1)])];
        judge(&sheet, &record(claim, &[bits], &steps))
    };
    assert_eq!(judged(9, 0b011, 9), accepted(9, 2, 1));
    assert_eq!(judged(10, 0b111, 9), within(1, 10, 3, 1));
    // (3 + 7) / 2; 3 / 2 rounded down; no rounding at all; no loss.
    for wrong in [5, 8, 10, 2] {
        assert_eq!(judged(9, 0b011, wrong), refused(24, 1));
    }
}

/// A total below zero takes nothing off the loss, whether the loss is less than that or more.
#[test]
fn a_total_that_is_not_positive_leaves_the_loss_as_the_bound() {
    let plain = sheet(&[4, 8, 32], &[&[pos(1), pos(2), pos(3)]]);
    // 12 - 8 - 4, twice that, 26 - 18 - 10, 13 - 9 - 5, and 65,535 less what each of the three lacks.
    for (divisor, weight, total) in [
        (1, 12, 0),
        (2, 24, 0),
        (2, 26, -2),
        (1, 13, -1),
        (1, 65_535, 65_535 - 65_531 - 65_527 - 65_503),
    ] {
        for loss in LOSSES {
            let step = |bound| weighted_step(&[], bound, divisor, &[(1, weight)]);
            assert_bound(24, loss, &plain, u64::from(loss), step);
            // What would be left if it did.
            let less = i64::from(loss) + total / i64::from(divisor);
            if total < 0 && less >= 0 {
                let record = record(NONE, &[0], &[step(less as u64)]);
                assert_eq!(judge(&marked(loss, &plain), &record), refused(24, 1));
            }
        }
    }
}

/// A copy of a clause says that there is no assignment, whatever an assignment would cost.
#[test]
fn refusal_12_the_bound_of_kind_1_has_no_loss() {
    for loss in LOSSES {
        let judged = |bound| {
            let step = step(1, &[pos(1), pos(2)], bound, &four_bytes(&[1]));
            judge(&marked_a(loss), &record(NONE, &[0], &[step]))
        };
        assert_eq!(judged(NONE), refused(19, 1));
        let loss = u64::from(loss);
        let added = NONE.wrapping_add(loss);
        let wrong = [0, loss, 3 + loss, NONE - 1, NONE - loss, added];
        for bound in wrong.into_iter().filter(|bound| *bound != NONE) {
            assert_eq!(judged(bound), refused(12, 1));
        }
    }
}

/// Its premises have the loss already. A bound below the lesser one may even leave the loss out.
#[test]
fn refusal_18_the_bound_of_kind_4_adds_no_loss() {
    for loss in LOSSES {
        let least = 3 + u64::from(loss);
        let judged = |bound| {
            let mut steps = steps_with_loss(loss, &steps_a());
            steps[4] = resolution_step(&[], bound, 3, 4, 1);
            judge(&marked_a(loss), &record(least, &[0b01], &steps))
        };
        assert_eq!(judged(least), accepted(least, 1, 5));
        for wrong in [least + 1, least + u64::from(loss.max(1)), NONE] {
            assert_eq!(judged(wrong), refused(18, 5));
        }
        for bound in [0, 2, least - 1] {
            assert_eq!(judged(bound), within(least - bound, least, 1, 5));
        }
    }
}

/// Variable 1 has to be true, at 5, and variable 2 costs 1 more: what each kind can close with.
#[test]
fn kinds_3_4_and_5_close_at_the_least_cost_with_the_loss() {
    let plain = sheet(&[5, 1], &[&[pos(1)]]);
    let resolved = vec![
        clause_step(&[pos(1)], 1),
        cost_step(&[neg(1)], 5),
        resolution_step(&[], 5, 1, 2, 1),
    ];
    for steps in [
        resolved,
        vec![independent_step(&[], 5, &[1])],
        vec![weighted_step(&[], 5, 1, &[(1, 5)])],
    ] {
        for loss in LOSSES {
            let raised = steps_with_loss(loss, &steps);
            let judged =
                |claim, bits| judge(&marked(loss, &plain), &record(claim, &[bits], &raised));
            let (least, t) = (5 + u64::from(loss), steps.len() as u64);
            assert_eq!(judged(least, 0b01), accepted(least, 1, t));
            assert_eq!(judged(least + 1, 0b11), within(1, least + 1, 2, t));
            assert_eq!(judged(NONE, 0b00), refused(19, t));
        }
    }
}

/// n is what the mark leaves of the field, and from 1 to 1,024 as ever.
#[test]
fn refusal_2_a_mark_with_n_0_1_1024_and_1025() {
    assert_sheet_refused(&marked(7, &sheet(&[], &[])), 2, 0);
    assert_sheet_refused(&[0x00, 0x80, 0, 0], 2, 0);
    assert_valid(&marked(7, &sheet(&[7], &[])));
    assert_valid(&marked(7, &sheet(&[7; 1_024], &[])));
    assert_sheet_refused(&marked(7, &sheet(&[7; 1_025], &[])), 2, 0);
    assert_sheet_refused(&marked(7, &sheet(&[7; 32_767], &[])), 2, 0);
    let empty: &[u16] = &[];
    assert_valid(&marked(7, &sheet(&[7], &[empty; 4_096])));
    assert_sheet_refused(&marked(7, &sheet(&[7], &[empty; 4_097])), 2, 0);
}

/// The highest bit alone is a mark. Those below it are a part of n, with the mark or without, and of m they all are.
#[test]
fn refusal_2_no_other_bit_is_a_mark() {
    let whole = marked(7, &sheet(&[7; 1_024], &[]));
    let long = [&whole[..], &[0; 150_000]].concat();
    for bit in 11..15 {
        for mark in [0, 0x8000] {
            let field: u16 = mark | 1 << bit | 1;
            assert_sheet_refused(&edited(&long, 0, &two_bytes(&[field])), 2, 0);
        }
    }
    for m in [0x8000, 0x8001, 0x9000] {
        let sheet = edited(&marked_a(7), 2, &two_bytes(&[m]));
        assert_sheet_refused(&[&sheet[..], &[0; 300_000]].concat(), 2, 0);
    }
}

/// Without clauses the file ends with the loss: 4 + 8 bytes and its 4.
#[test]
fn refusal_2_a_loss_cut_short() {
    let no_clauses = marked(u32::MAX, &sheet(&[3, 5], &[]));
    assert_eq!(no_clauses.len(), 16);
    for length in 0..16 {
        assert_sheet_refused(&no_clauses[..length], 2, 0);
    }
    assert_valid(&no_clauses);
}

/// Its pairs stand from 16 to 32. At 28 all the bytes are there that an unmarked sheet would need for its own.
#[test]
fn every_beginning_of_a_marked_sheet() {
    for length in 0..32 {
        assert_sheet_refused(&marked_a(7)[..length], 2, 0);
    }
    for length in 32..40 {
        assert_sheet_refused(&marked_a(7)[..length], 3, 2);
    }
    assert_valid(&marked_a(7));
}

#[test]
fn refusal_3_the_pairs_follow_the_loss() {
    // 28 and 32 are the offsets that the sheet has without the loss.
    for offset in [0, 28, 31, 33, 36, u32::MAX] {
        assert_sheet_refused(&edited(&marked_a(7), 16, &four_bytes(&[offset])), 3, 1);
    }
    for offset in [28, 32, 35, 37, 40] {
        assert_sheet_refused(&edited(&marked_a(7), 24, &four_bytes(&[offset])), 3, 2);
    }
    assert_sheet_refused(&[marked_a(7), vec![0]].concat(), 3, 2);
    let no_clauses = marked(7, &sheet(&[7], &[]));
    assert_sheet_refused(&[no_clauses, vec![0]].concat(), 3, 0);
}

#[test]
fn refusal_4_variables_are_counted_without_the_mark() {
    for code in [0, 1, 6, 7, 32_768, 65_535] {
        let sheet = sheet(&[3, 5], &[&[pos(1)], &[code]]);
        assert_sheet_refused(&marked(7, &sheet), 4, 2);
    }
    for code in [2, 3, 4, 5] {
        assert_valid(&marked(7, &sheet(&[3, 5], &[&[pos(1)], &[code]])));
    }
}

/// The assignment goes by n without the mark too: 8 variables take one byte and 9 take two, and what is left is spare.
#[test]
fn refusals_5_and_6_variables_are_counted_without_the_mark() {
    let judged = |variable_count: usize, bits: &[u8]| {
        let sheet = marked(7, &sheet(&vec![0; variable_count], &[]));
        judge(&sheet, &record(7, bits, &[cost_step(&[], 7)]))
    };
    assert_eq!(judged(8, &[0xFF]), accepted(7, 8, 1));
    assert_eq!(judged(9, &[0xFF, 0x01]), accepted(7, 9, 1));
    assert_eq!(judged(9, &[0xFF, 0x02]), refused(6, 0));
    assert_eq!(judged(3, &[0x08]), refused(6, 0));
    assert_eq!(judged(1_024, &[0xFF; 128]), accepted(7, 1_024, 1));
    let sheet = marked(7, &sheet(&[0; 1_024], &[]));
    let whole = record(7, &[0; 128], &[cost_step(&[], 7)]);
    // 12 bytes, the assignment's 128 and the pair's 8.
    for length in [12, 13, 139, 140, 147] {
        assert_eq!(judge(&sheet, &whole[..length]), refused(5, 0));
    }
    assert_eq!(judge(&sheet, &whole[..148]), refused(7, 1));
}

/// The bit alone, and no loss: the first pair's offset is taken for one. Of the pairs, which now start at 16 and end
/// at 32, the first names the byte 4.
#[test]
fn a_mark_set_in_a_good_sheet_moves_the_pairs() {
    let set = |sheet: &[u8]| edited(sheet, 1, &[0x80 | sheet[1]]);
    assert_sheet_refused(&set(&sheet_a()), 3, 1);
    // The file ends where the pairs do now, and its one pair names the byte 4.
    assert_sheet_refused(&set(&sheet(&[3, 5], &[&[pos(1), pos(2)]])), 3, 1);
    // It ends before that: inside the pair, and before the loss.
    assert_sheet_refused(&set(&sheet(&[7], &[&[pos(1)]])), 2, 0);
    assert_sheet_refused(&set(&sheet(&[7], &[])), 2, 0);
    assert_sheet_refused(&set(&sheet(&[7; 1_024], &[])), 2, 0);
}

/// The loss is taken for the first pair's offset, and that offset, 32, for its length. A loss of 28 is in order there,
/// and the second pair is not. Without pairs the file is 4 bytes too long.
#[test]
fn a_mark_cleared_in_a_good_sheet_moves_the_pairs_back() {
    let cleared = |sheet: &[u8]| edited(sheet, 1, &[0x7F & sheet[1]]);
    for loss in LOSSES {
        assert_sheet_refused(&cleared(&marked_a(loss)), 3, 1);
        assert_sheet_refused(&cleared(&marked(loss, &sheet(&[7], &[]))), 3, 0);
    }
    assert_sheet_refused(&cleared(&marked_a(28)), 3, 2);
}

/// The sheet is in order with the loss and without it. A claim that is a cost is held to it before any step is.
#[test]
fn the_same_record_with_another_loss() {
    for loss in LOSSES.into_iter().filter(|loss| *loss > 0) {
        let claim = 3 + u64::from(loss);
        let on_marked = record_a_at(loss, claim, 0b01);
        assert_eq!(judge(&marked_a(loss), &on_marked), accepted(claim, 1, 5));
        for other in [sheet_a(), marked_a(0), marked_a(loss - 1)] {
            assert_eq!(judge(&other, &on_marked), refused(11, 0));
        }
        assert_eq!(judge(&marked_a(loss), &record_a()), refused(11, 0));
        assert_eq!(judge(&marked_a(loss), &record_a4()), refused(11, 0));
        // With the claim put right, it is the first bound.
        let put_right = [
            (marked_a(loss), record(claim, &[0b01], &steps_a())),
            (sheet_a(), record_a_at(loss, 3, 0b01)),
        ];
        for (sheet, record) in put_right {
            assert_eq!(judge(&sheet, &record), refused(13, 4));
        }
    }
}

/// Copies and their resolutions have no cost in them, so the same record shows at every loss that there is no model.
/// A bound of another kind has to have the loss here too.
#[test]
fn a_none_record_with_another_loss() {
    let plain = sheet(&[7], &[&[pos(1)], &[neg(1)]]);
    let steps = [
        clause_step(&[pos(1)], 1),
        clause_step(&[neg(1)], 2),
        resolution_step(&[], NONE, 1, 2, 1),
    ];
    let with_bound = [
        cost_step(&[], 0),
        clause_step(&[pos(1)], 1),
        clause_step(&[neg(1)], 2),
        resolution_step(&[], NONE, 2, 3, 1),
    ];
    for loss in LOSSES {
        let sheet = marked(loss, &plain);
        let judged = |steps: &[Vec<u8>]| judge(&sheet, &record(NONE, &[0], steps));
        assert_eq!(judged(&steps), accepted(NONE, 0, 3));
        let unraised = match loss {
            0 => accepted(NONE, 0, 4),
            _ => refused(13, 1),
        };
        assert_eq!(judged(&with_bound), unraised);
        let raised = steps_with_loss(loss, &with_bound);
        assert_eq!(judged(&raised), accepted(NONE, 0, 4));
        assert_eq!(judged(&raised[..1]), refused(19, 1));
    }
}

/// As many variables as there can be, each with a clause of its own; all costs and the loss are the greatest.
fn greatest_sheet() -> Vec<u8> {
    let bodies: Vec<Vec<u8>> = (1..=1_024).map(|v| two_bytes(&[pos(v)])).collect();
    marked(u32::MAX, &sheet_of_bodies(&[u32::MAX; 1_024], &bodies))
}

/// What all variables true cost there: no assignment of any sheet costs more.
const GREATEST: u64 = 1_025 * 4_294_967_295;

/// The numbers of its clauses.
fn every_clause() -> Vec<u32> {
    (1..=1_024).collect()
}

#[test]
fn the_greatest_cost_is_below_none_and_closes_by_kind_3() {
    let judged = |claim, bits: [u8; 128], bound| {
        let steps = [independent_step(&[], bound, &every_clause())];
        judge(&greatest_sheet(), &record(claim, &bits, &steps))
    };
    let answer = judged(GREATEST, [0xFF; 128], GREATEST);
    assert_eq!(answer, accepted(GREATEST, 1_024, 1));
    assert_eq!(answer.verdict(), Verdict::Least);
    let cost = u64::from(u32::MAX);
    for wrong in [GREATEST - cost, GREATEST + cost, GREATEST - 1, GREATEST + 1] {
        assert_eq!(judged(wrong, [0xFF; 128], GREATEST), refused(11, 0));
        assert_eq!(judged(GREATEST, [0xFF; 128], wrong), refused(15, 1));
    }
    assert_eq!(judged(NONE, [0; 128], GREATEST), refused(19, 1));
    assert_eq!(judged(NONE, [0; 128], NONE), refused(15, 1));
}

/// The cost of all variables, from which one clause after the other takes its variable.
#[test]
fn the_greatest_cost_closes_by_kind_2() {
    let literals: Vec<u16> = (1..=1_024).map(neg).collect();
    let mut steps = vec![cost_step(&literals, GREATEST)];
    for variable in 1..=1_024 {
        let last = steps.len() as u32;
        steps.push(clause_step(&[pos(variable)], u32::from(variable)));
        let left = &literals[usize::from(variable)..];
        steps.push(resolution_step(left, GREATEST, last + 1, last, variable));
    }
    let judged = |steps: &[Vec<u8>]| {
        let record = record(GREATEST, &[0xFF; 128], steps);
        judge(&greatest_sheet(), &record)
    };
    assert_eq!(judged(&steps), accepted(GREATEST, 1_024, 2_049));
    for wrong in [GREATEST - u64::from(u32::MAX), GREATEST - 1, GREATEST + 1] {
        assert_eq!(judged(&[cost_step(&literals, wrong)]), refused(13, 1));
    }
}

/// With all variables true the weights cancel, and the quotient is the sum of the costs. With none settled it is the
/// sum of the weights.
#[test]
fn the_greatest_cost_is_a_bound_of_kind_5() {
    let weight = |clause: u32| (clause, 65_535);
    let entries: Vec<(u32, u16)> = every_clause().into_iter().map(weight).collect();
    let judged = |codes: &[u16], bound, divisor| {
        let steps = [weighted_step(codes, bound, divisor, &entries)];
        let record = record(GREATEST, &[0xFF; 128], &steps);
        judge(&greatest_sheet(), &record)
    };
    let literals: Vec<u16> = (1..=1_024).map(neg).collect();
    assert_eq!(judged(&literals, GREATEST, 65_535), refused(19, 1));
    for wrong in [GREATEST - u64::from(u32::MAX), GREATEST - 1, GREATEST + 1] {
        assert_eq!(judged(&literals, wrong, 65_535), refused(24, 1));
    }
    let bound = 1_024 * 65_535 + u64::from(u32::MAX);
    let gap = GREATEST - bound;
    assert_eq!(judged(&[], bound, 1), within(gap, GREATEST, 1_024, 1));
    assert_eq!(judged(&[], 1_024 * 65_535, 1), refused(24, 1));
}

/// Every variable true, and negative in as many clauses as there can be. What is left over the costs and the loss is
/// every weight once: the most there can be with the divisor 1, and over the greatest total with the greatest divisor.
#[test]
fn the_greatest_bounds_of_kind_5_do_not_wrap() {
    let shut: Vec<u16> = (1..=1_024).map(neg).collect();
    let clauses = vec![&shut[..]; 4_096];
    let sheet = marked(u32::MAX, &sheet(&[u32::MAX; 1_024], &clauses));
    let entries: Vec<(u32, u16)> = (1..=4_096).map(|clause| (clause, 65_535)).collect();
    for (divisor, weights) in [(1, 4_096 * 65_535), (65_535, 4_096)] {
        let step = weighted_step(&shut, GREATEST + weights, divisor, &entries);
        let answer = judge(&sheet, &record(NONE, &[0; 128], &[step]));
        assert_eq!(answer, refused(19, 1));
    }
}

/// The bodies of the clauses stand 4 bytes further on than without the loss, and the steps where they did.
#[test]
fn showing_on_a_marked_sheet() {
    let sheet = marked_a(7);
    for (claim, bits) in [(10, 0b01), (15, 0b11)] {
        let record = record_a_at(7, claim, bits);
        assert!(!judge(&sheet, &record).refuses());
        assert_part(show(&sheet, &record, 1), &sheet, 32..36);
        assert_part(show(&sheet, &record, 2), &sheet, 36..40);
        assert_eq!(show(&sheet, &record, 2), two_bytes(&[pos(1), neg(2)]));
        assert_part(show(&sheet, &record, 3), &record, 105..107);
        assert_part(show(&sheet, &record, 4), &record, 129..131);
        assert_part(show(&sheet, &record, 5), &record, 143..143);
        for step in [0, 6, u64::MAX] {
            assert_part(show(&sheet, &record, step), &record, 0..0);
        }
    }
    let without_loss = record_a();
    assert_eq!(judge(&sheet, &without_loss), refused(11, 0));
    for step in 0..=6 {
        assert_part(show(&sheet, &without_loss, step), &without_loss, 0..0);
    }
}

#[test]
fn a_mark_whose_loss_is_0_is_not_written() {
    let no_clauses = sheet(&[7; 1_024], &[]);
    for plain in [sheet_a(), sheet_c(), sheet_d(), no_clauses] {
        let marked = marked(0, &plain);
        assert_eq!(marked.len(), plain.len() + 4);
        assert_eq!(write(&marked), write(&plain));
        assert_eq!(write(&marked).len(), marked.len() - 4);
    }
    assert_eq!(write(&marked_a(0)), sheet_a());
}

/// The clauses are put in order as they are without it.
#[test]
fn a_mark_whose_loss_is_not_0_is_written_with_it() {
    let [c1, c2, c3] = CLAUSES_C;
    let in_order = sheet(&[1, 2, 3, 4, 5, 6], &[c1, c3, c2]);
    let no_clauses = sheet(&[7; 1_024], &[]);
    for loss in LOSSES.into_iter().filter(|loss| *loss > 0) {
        assert_eq!(write(&marked_a(loss)), marked_a(loss));
        let from_c = write(&marked(loss, &sheet_c()));
        assert_eq!(from_c, marked(loss, &in_order));
        let no_clauses = marked(loss, &no_clauses);
        assert_eq!(write(&no_clauses), no_clauses);
    }
}

/// Sheet A needs 36 bytes, and 4 more with a loss. Of three equal clauses two are dropped with their pairs.
#[test]
fn refusal_25_the_loss_takes_its_4_bytes_unless_it_is_0() {
    let clause: &[u16] = &[neg(2)];
    let repeated = sheet(&[3, 5], &[clause, &[pos(1)], clause, clause]);
    for (plain, needed) in [
        (sheet_a(), 36),
        (repeated, 12 + 16 + 4),
        (sheet(&[7], &[]), 8),
    ] {
        for (loss, needed) in [(0, needed), (7, needed + 4), (u32::MAX, needed + 4)] {
            let sheet = marked(loss, &plain);
            let result = write(&sheet);
            for length in 0..needed {
                let mut out = buffer(length);
                assert_eq!(write_sheet(&sheet, &mut out), not_written(25, 0));
                assert_eq!(out, buffer(length));
            }
            for length in needed..needed + 9 {
                let mut out = buffer(length);
                assert_eq!(write_sheet(&sheet, &mut out), written(needed));
                assert_eq!(out[..needed], result);
                assert_eq!(out[needed..], buffer(length)[needed..]);
            }
        }
    }
}

/// What two sheets have in common that are written alike: loss, costs and set of clauses.
type Alike = (u32, Vec<u32>, BTreeSet<Vec<u16>>);

/// Sheets of 1 and 2 variables with at most 2 clauses, unmarked and under every loss, each with what it has in common
/// with those that are written like it. Some costs are losses as well.
fn small_sheets() -> Vec<(Alike, Vec<u8>)> {
    let mut sheets = vec![];
    let all_costs: [&[u32]; 4] = [&[0], &[7], &[0, 7], &[7, 0]];
    for costs in all_costs {
        let lists = every_list(costs.len() as u16);
        let one = lists.iter().map(|first| vec![&first[..]]);
        let two = lists.iter().flat_map(|first| {
            let seconds = lists.iter();
            seconds.map(move |second| vec![&first[..], &second[..]])
        });
        for clauses in [vec![]].into_iter().chain(one).chain(two) {
            let plain = sheet(costs, &clauses);
            let set: BTreeSet<Vec<u16>> = clauses.iter().map(|list| list.to_vec()).collect();
            let alike = |loss| (loss, costs.to_vec(), set.clone());
            sheets.push((alike(0), plain.clone()));
            for loss in LOSSES {
                sheets.push((alike(loss), marked(loss, &plain)));
            }
        }
    }
    sheets
}

/// There are 3 clauses of one variable and 9 of two, so 7 and 46 sets of at most 2, each with 2 lists of costs and with
/// every loss.
#[test]
fn the_same_bytes_for_the_same_loss_costs_and_set_and_for_no_other() {
    let mut bytes_of: BTreeMap<Alike, Vec<u8>> = BTreeMap::new();
    for (alike, sheet) in small_sheets() {
        let written = write(&sheet);
        let first = bytes_of.entry(alike).or_insert(written.clone());
        assert_eq!(written, *first);
    }
    assert_eq!(bytes_of.len(), (2 * 7 + 2 * 46) * LOSSES.len());
    let different: BTreeSet<&Vec<u8>> = bytes_of.values().collect();
    assert_eq!(different.len(), bytes_of.len());
}

/// What was written is valid, is written as it is, and has the same least cost. Only a loss of 0 is not marked.
#[test]
fn writing_a_written_sheet_changes_nothing() {
    for ((loss, ..), sheet) in small_sheets() {
        let once = write(&sheet);
        assert!(sheet_is_valid(&once));
        assert_eq!(write(&once), once);
        assert_eq!(once[1] == 0x80, loss > 0);
        assert_eq!(least_cost(&once), least_cost(&sheet));
    }
}

#[test]
fn the_least_cost_has_the_loss_and_no_model_stays_none() {
    for loss in LOSSES {
        let with = u64::from(loss);
        assert_eq!(least_cost(&marked_a(loss)), Some(3 + with));
        assert_eq!(least_cost(&marked(loss, &sheet_d())), Some(11 + with));
        assert_eq!(least_cost(&marked(loss, &sheet(&[7], &[]))), Some(with));
        assert_eq!(least_cost(&marked(loss, &sheet(&[7], &[&[]]))), None);
    }
}

#[test]
fn it_confirms_what_is_said_with_the_loss_and_nothing_without() {
    let least = |claim| {
        let record = record_a_at(7, claim, 0b01);
        confirms(&marked_a(7), &record, &accepted(claim, 1, 5))
    };
    assert!(least(10));
    assert!(!least(3), "the loss is missing");
    assert!(!least(17), "the loss is there twice");
    let within = |gap, claim| {
        let record = record_a_at(7, claim, 0b11);
        confirms_within(&marked_a(7), &record, &within(gap, claim, 2, 5))
    };
    assert!(within(5, 15));
    assert!(!within(4, 15), "10 is below 11");
    assert!(!within(5, 8), "the loss is missing");
}

/// A random small sheet without a mark, and steps up to the close by one of the ways in which a branch can be left.
fn random_derivation(numbers: &mut Numbers) -> Derivation {
    let bounding = Bounding::random(numbers);
    let mut derivation = Derivation::random(numbers).with(bounding);
    if numbers.below(2) == 0 {
        derivation = derivation.widened(numbers.clone());
    }
    derivation.derive(&mut vec![]);
    derivation
}

/// How many answers there were of each kind that is no refusal.
#[derive(Default)]
struct Seen {
    least: u32,
    none: u32,
    within: u32,
}

impl Seen {
    fn add(&mut self, answer: &Answer) {
        match answer.verdict() {
            Verdict::Least => self.least += 1,
            Verdict::NoneExists => self.none += 1,
            Verdict::Within => self.within += 1,
            Verdict::Refused => {}
        }
    }
}

/// The answer to a model at this cost, over steps that bear out the least one, as trying every assignment has it.
fn assert_model(sheet: &[u8], record: &[u8], cost: u64, answer: &Answer) {
    let least = least_cost(sheet).expect("this is a model");
    assert_eq!((answer.number, answer.cost), (0, cost));
    assert_eq!(answer.gap, cost - least);
    assert_eq!(confirms(sheet, record, answer), cost == least);
    assert_eq!(confirms_within(sheet, record, answer), cost > least);
}

/// Every assignment is judged under its cost with the loss, and so is the claim "none".
#[test]
fn the_judgement_agrees_with_trying_every_assignment() {
    let mut numbers = Numbers::from(16);
    let mut seen = Seen::default();
    for round in 0..400 {
        let derivation = random_derivation(&mut numbers);
        let loss = LOSSES[round % LOSSES.len()];
        let sheet = marked(loss, &derivation.sheet());
        let steps = steps_with_loss(loss, &derivation.steps);
        let claims_none = record(NONE, &[0], &steps);
        let none = judge(&sheet, &claims_none);
        assert_eq!(none.accepts(), least_cost(&sheet).is_none());
        assert_eq!(none.accepts(), confirms(&sheet, &claims_none, &none));
        seen.add(&none);
        for (bits, values) in assignments(derivation.costs.len()).iter().enumerate() {
            let cost = derivation.cost(values) + u64::from(loss);
            let record = record(cost, &[bits as u8], &steps);
            let answer = judge(&sheet, &record);
            match derivation.first_broken(values) {
                Some(index) => assert_eq!(answer, refused(10, index as u64 + 1)),
                None => assert_model(&sheet, &record, cost, &answer),
            }
            seen.add(&answer);
        }
    }
    assert!(seen.least > 300 && seen.within > 1_000 && seen.none > 20);
}

/// A record before it is laid out.
struct Parts {
    claim: u64,
    bits: u8,
    steps: Vec<Vec<u8>>,
}

impl Parts {
    /// Some assignment of the sheet with its cost and steps for the least one, or "none".
    fn random(derivation: &Derivation, numbers: &mut Numbers) -> Parts {
        let all = assignments(derivation.costs.len());
        let bits = numbers.below(all.len());
        let (claim, bits) = match numbers.below(4) {
            0 => (NONE, 0),
            _ => (derivation.cost(&all[bits]), bits as u8),
        };
        Parts {
            claim,
            bits,
            steps: derivation.steps.clone(),
        }
    }

    /// One change. It leaves no bound so near to "none" that a loss of one byte would take it there.
    fn damage(&mut self, numbers: &mut Numbers) {
        let step = numbers.below(self.steps.len());
        let body = &mut self.steps[step];
        match numbers.below(10) {
            0 => self.claim = numbers.below(40) as u64,
            1 => self.bits ^= 1 << numbers.below(8),
            2 => body.truncate(numbers.below(30)),
            _ if body.is_empty() => {}
            _ => {
                let at = numbers.below(body.len());
                body[at] = numbers.below(14) as u8;
            }
        }
    }

    fn record(&self, loss: u32) -> Vec<u8> {
        let claim = with_loss(loss, self.claim);
        record(claim, &[self.bits], &steps_with_loss(loss, &self.steps))
    }
}

/// A loss on the sheet, the claim and every bound that is a cost leaves the answer as it is, but for the cost in it;
/// whatever is wrong with the record, and whatever kind a step is of.
#[test]
fn a_record_is_answered_with_the_loss_as_without() {
    let mut numbers = Numbers::from(17);
    let mut seen = Seen::default();
    let mut refusals = BTreeSet::new();
    for round in 0..20_000 {
        let derivation = random_derivation(&mut numbers);
        let mut parts = Parts::random(&derivation, &mut numbers);
        for _ in 0..numbers.below(3) {
            parts.damage(&mut numbers);
        }
        let loss = [0, 1, 7, 200][round % 4];
        let before = judge(&derivation.sheet(), &parts.record(0));
        let after = judge(&marked(loss, &derivation.sheet()), &parts.record(loss));
        if before.refuses() {
            assert_eq!(after, before);
            refusals.insert(before.number);
        } else {
            let cost = with_loss(loss, before.cost);
            assert_eq!(after, Answer { cost, ..before });
        }
        seen.add(&after);
    }
    assert!(seen.least > 100 && seen.none > 100 && seen.within > 100);
    // All that speak of the record, but for those of its head and its pairs, which were never damaged.
    assert_eq!(refusals, [6].into_iter().chain(8..=24).collect());
}
