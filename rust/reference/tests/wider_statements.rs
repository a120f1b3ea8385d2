//! Kind 4 by document 02's change 5: a step may hold further literals and a bound below the lesser one. Refusal 17 is
//! for a missing literal and 18 for a bound above the lesser.

mod common;

use common::*;
use reference::{judge, Answer};

/// The bound of step 2, and the lesser of the two.
const LESSER: u64 = 20;

/// What a third step that passes is answered: it has literals, so it does not close.
const PASSES: u32 = 19;

/// Step 1 is {2, 3 open} with "none", step 2 is {3, 5 shut} with 20, and these follow. Resolved on 3, the two give
/// {2 open, 5 shut}.
fn judge_after_premises(steps: &[Vec<u8>]) -> Answer {
    let premises = [
        clause_step(&[pos(2), pos(3)], 1),
        cost_step(&[neg(3), neg(5)], LESSER),
    ];
    let sheet = sheet(&[1, 2, 4, 8, 16, 32], &[&[pos(2), pos(3)]]);
    let steps = [&premises[..], steps].concat();
    judge(&sheet, &record(2, &[0b00_0010], &steps))
}

/// The number that the resolution of steps 1 and 2 on 3 meets.
fn number(codes: &[u16], bound: u64) -> u32 {
    let answer = judge_after_premises(&[resolution_step(codes, bound, 1, 2, 3)]);
    assert_eq!(answer, refused(answer.number, 3));
    answer.number
}

/// The resolvent, and lists with literals before it, inside it, after it, and at all of these places. No premise has
/// any of them.
const HOLDING_THE_RESOLVENT: [&[u16]; 9] = [
    &[pos(2), neg(5)],
    &[pos(1), pos(2), neg(5)],
    &[neg(1), pos(2), neg(5)],
    &[pos(2), pos(4), neg(5)],
    &[pos(2), neg(4), neg(5)],
    &[pos(2), neg(5), pos(6)],
    &[pos(2), neg(5), neg(6)],
    &[pos(1), pos(2), neg(4), neg(5), pos(6)],
    &[neg(1), pos(2), pos(4), neg(5), neg(6)],
];

#[test]
fn further_literals_in_every_place_of_the_list() {
    for codes in HOLDING_THE_RESOLVENT {
        assert_eq!(number(codes, LESSER), PASSES);
    }
}

#[test]
fn the_pivots_own_literal_is_a_further_one() {
    let lists: [&[u16]; 4] = [
        &[pos(2), pos(3), neg(5)],
        &[pos(2), neg(3), neg(5)],
        &[neg(1), pos(2), pos(3), pos(4), neg(5)],
        &[pos(2), neg(3), pos(4), neg(5), neg(6)],
    ];
    for codes in lists {
        assert_eq!(number(codes, LESSER), PASSES);
    }
}

/// Neither another literal nor the opposite one stands in for a missing one.
#[test]
fn refusal_17_a_literal_of_one_premise_is_missing() {
    let without_as: [&[u16]; 4] = [
        &[neg(5)],
        &[neg(2), neg(5)],
        &[pos(3), neg(5)],
        &[pos(1), neg(3), pos(4), neg(5), pos(6)],
    ];
    let without_bs: [&[u16]; 4] = [
        &[pos(2)],
        &[pos(2), pos(5)],
        &[pos(2), neg(3)],
        &[pos(1), pos(2), pos(3), pos(4), pos(6)],
    ];
    for codes in [without_as, without_bs].concat() {
        assert_eq!(number(codes, LESSER), 17);
    }
}

#[test]
fn refusal_17_a_literal_of_each_premise_is_missing() {
    let lists: [&[u16]; 4] = [
        &[],
        &[pos(3)],
        &[neg(2), pos(5)],
        &[pos(1), neg(3), pos(4), pos(6)],
    ];
    for codes in lists {
        assert_eq!(number(codes, LESSER), 17);
    }
}

/// All 729 lists: a step passes just where it has the two literals of the resolvent.
#[test]
fn no_other_literal_decides_over_refusal_17() {
    let mut passing = 0;
    for codes in every_list(6) {
        let holds_both = codes.contains(&pos(2)) && codes.contains(&neg(5));
        assert_eq!(number(&codes, LESSER), if holds_both { PASSES } else { 17 });
        passing += u32::from(holds_both);
    }
    assert_eq!(passing, 81);
}

#[test]
fn a_bound_up_to_the_lesser_passes_and_none_above_it() {
    for codes in HOLDING_THE_RESOLVENT {
        for bound in (0..=LESSER).rev() {
            assert_eq!(number(codes, bound), PASSES);
        }
        // One above, the sum of the costs, and numbers that are below the lesser in 32 bits.
        for bound in [LESSER + 1, 63, 1 << 32, LESSER + (1 << 32), NONE - 1, NONE] {
            assert_eq!(number(codes, bound), 18);
        }
    }
}

#[test]
fn refusal_17_comes_before_18() {
    let missing: [&[u16]; 5] = [
        &[],
        &[pos(2)],
        &[neg(5)],
        &[pos(2), pos(3), pos(6)],
        &[pos(1), neg(3), neg(5)],
    ];
    for codes in missing {
        for bound in [0, LESSER, LESSER + 1, NONE] {
            assert_eq!(number(codes, bound), 17);
        }
    }
}

/// The number of a resolution of these two steps, on a sheet with {2, 3 open} and {3, 5 shut} for clauses. It has a
/// further literal or none.
fn number_of(a: Vec<u8>, b: Vec<u8>, bound: u64) -> u32 {
    let clauses: [&[u16]; 2] = [&[pos(2), pos(3)], &[neg(3), neg(5)]];
    let judged = |codes: &[u16]| {
        let steps = [a.clone(), b.clone(), resolution_step(codes, bound, 1, 2, 3)];
        let record = record(NONE, &[0], &steps);
        judge(&sheet(&[1, 2, 4, 8, 16], &clauses), &record)
    };
    let answer = judged(&[pos(2), neg(5)]);
    assert_eq!(answer, judged(&[neg(1), pos(2), neg(5)]));
    assert_eq!(answer, refused(answer.number, 3));
    answer.number
}

/// "None" is a bound like others: it takes two premises that have it, and one below it will do as well.
#[test]
fn the_bound_none_takes_two_premises_that_have_it() {
    let clauses = [
        clause_step(&[pos(2), pos(3)], 1),
        clause_step(&[neg(3), neg(5)], 2),
    ];
    let costs = [
        cost_step(&[pos(2), pos(3)], 0),
        cost_step(&[neg(3), neg(5)], LESSER),
    ];
    for bound in [0, LESSER, NONE - 1, NONE] {
        let [a, b] = clauses.clone();
        assert_eq!(number_of(a, b, bound), PASSES);
    }
    for (first, second, lesser) in [
        (&clauses, &costs, LESSER),
        (&costs, &clauses, 0),
        (&costs, &costs, 0),
    ] {
        let number_at = |bound| number_of(first[0].clone(), second[1].clone(), bound);
        assert_eq!(number_at(lesser), PASSES);
        for bound in [lesser + 1, NONE - 1, NONE] {
            assert_eq!(number_at(bound), 18);
        }
    }
}

/// The list still has to be one: its variables rise and are those of the sheet.
#[test]
fn refusal_8_further_literals_out_of_form() {
    let lists: [&[u16]; 9] = [
        &[pos(2), pos(2), neg(5)],
        &[pos(2), neg(2), neg(5)],
        &[pos(2), pos(3), neg(3), neg(5)],
        &[pos(2), neg(5), pos(1)],
        &[pos(2), neg(5), pos(4)],
        &[0, pos(2), neg(5)],
        &[1, pos(2), neg(5)],
        &[pos(2), neg(5), pos(7)],
        &[pos(2), neg(5), neg(1_024)],
    ];
    for codes in lists {
        assert_eq!(number(codes, LESSER), 8);
        // Nor does a fault that would come later change that.
        assert_eq!(number(codes, NONE), 8);
    }
}

/// What the step itself holds of the pivot does not matter for 16: the premises have to hold it.
#[test]
fn refusal_16_whatever_further_literals_there_are() {
    let lists: [&[u16]; 3] = [
        &[pos(2), pos(3), pos(4), neg(5)],
        &[pos(2), neg(3), neg(4), neg(5)],
        &[],
    ];
    let tails = [(2, 1, 3), (1, 1, 3), (2, 2, 3), (1, 2, 4), (1, 2, 2)];
    for codes in lists {
        for (a, b, pivot) in tails {
            let step = resolution_step(codes, NONE, a, b, pivot);
            assert_eq!(judge_after_premises(&[step]), refused(16, 3));
        }
    }
}

/// Case E's clauses with a third and a fourth variable beside. Variable 3 stays both ways, and a list in form has it
/// positive, negative or not at all: whichever it is, and whatever else there is, a literal is missing.
#[test]
fn refusal_17_a_variable_both_ways_with_any_further_literals() {
    let clauses: [&[u16]; 2] = [&[pos(1), pos(3)], &[neg(1), neg(3)]];
    let judged = |codes: &[u16], bound| {
        let steps = [
            clause_step(clauses[0], 1),
            clause_step(clauses[1], 2),
            resolution_step(codes, bound, 1, 2, 1),
        ];
        judge(&sheet(&[3, 5, 7, 9], &clauses), &record(3, &[0x01], &steps))
    };
    for codes in every_list(4) {
        for bound in [0, NONE] {
            assert_eq!(judged(&codes, bound), refused(17, 3));
        }
    }
    // With both of its literals nothing would be missing, but such a list is not in form.
    let with_both: [&[u16]; 2] = [&[pos(3), neg(3)], &[pos(2), pos(3), neg(3), neg(4)]];
    for codes in with_both {
        assert_eq!(judged(codes, NONE), refused(8, 3));
    }
}

/// A later step that cites a wider one has its further literals to keep, as a or as b.
#[test]
fn further_literals_are_the_steps_own_when_it_is_cited() {
    let as_a = |wider: &[u16], codes: &[u16]| {
        judge_after_premises(&[
            resolution_step(wider, LESSER, 1, 2, 3),
            cost_step(&[neg(2)], 2),
            resolution_step(codes, 2, 3, 4, 2),
        ])
    };
    let as_b = |wider: &[u16], codes: &[u16]| {
        judge_after_premises(&[
            resolution_step(wider, LESSER, 1, 2, 3),
            cost_step(&[pos(5)], 0),
            resolution_step(codes, 0, 4, 3, 5),
        ])
    };
    assert_eq!(as_a(&[pos(2), neg(5)], &[neg(5)]), refused(19, 5));
    assert_eq!(as_b(&[pos(2), neg(5)], &[pos(2)]), refused(19, 5));
    for further in [pos(6), neg(6)] {
        let wider = [pos(2), neg(5), further];
        assert_eq!(as_a(&wider, &[neg(5)]), refused(17, 5));
        assert_eq!(as_a(&wider, &[neg(5), further]), refused(19, 5));
        assert_eq!(as_b(&wider, &[pos(2)]), refused(17, 5));
        assert_eq!(as_b(&wider, &[pos(2), further]), refused(19, 5));
        let opposite = further ^ 1;
        assert_eq!(as_a(&wider, &[neg(5), opposite]), refused(17, 5));
    }
}

/// A lower bound is the step's own too: the lesser one of a later step is at most that.
#[test]
fn a_lower_bound_is_the_steps_own_when_it_is_cited() {
    let judged = |lower, bound| {
        judge_after_premises(&[
            resolution_step(&[pos(2), neg(5)], lower, 1, 2, 3),
            cost_step(&[neg(2), neg(6)], 34),
            resolution_step(&[neg(5), neg(6)], bound, 3, 4, 2),
        ])
    };
    for lower in [0, 1, LESSER - 1, LESSER] {
        assert_eq!(judged(lower, lower), refused(19, 5));
        assert_eq!(judged(lower, lower + 1), refused(18, 5));
    }
}

/// Only the wider step has variable 6, and one more resolution takes it away again.
#[test]
fn a_further_literal_can_be_resolved_away() {
    let judged = |wider: &[u16]| {
        judge_after_premises(&[
            resolution_step(wider, LESSER, 1, 2, 3),
            cost_step(&[neg(6)], 32),
            resolution_step(&[pos(2), neg(5)], LESSER, 3, 4, 6),
        ])
    };
    assert_eq!(judged(&[pos(2), neg(5), pos(6)]), refused(19, 5));
    assert_eq!(judged(&[pos(2), neg(5), neg(6)]), refused(16, 5));
    assert_eq!(judged(&[pos(2), neg(5)]), refused(16, 5));
}

/// The pivot that was kept is resolved on again.
#[test]
fn record_a_by_way_of_a_wider_statement() {
    let judged = |steps: &[Vec<u8>]| judge(&sheet_a(), &record(3, &[0x01], steps));
    let mut steps = steps_a_wider();
    assert_eq!(judged(&steps), accepted(3, 1, 6));
    // Step 4 left it where it was, so the last step lacks it.
    steps[3] = resolution_step(&[pos(1), pos(2)], NONE, 3, 2, 2);
    assert_eq!(judged(&steps), refused(17, 6));
}

/// Record A with further literals or another bound in its last step.
#[test]
fn the_last_step_wider_than_it_has_to_be() {
    let judged = |codes: &[u16], bound| {
        let mut steps = steps_a();
        steps[4] = resolution_step(codes, bound, 3, 4, 1);
        judge(&sheet_a(), &record(3, &[0x01], &steps))
    };
    assert_eq!(judged(&[], 3), accepted(3, 1, 5));
    for code in [pos(1), neg(1), pos(2), neg(2)] {
        assert_eq!(judged(&[code], 3), refused(19, 5));
        assert_eq!(judged(&[code], 0), refused(19, 5));
        assert_eq!(judged(&[code], 4), refused(18, 5));
    }
    for bound in [0, 1, 2] {
        assert_eq!(judged(&[], bound), within(3 - bound, 3, 1, 5));
    }
}

/// Every other kind still states just what its tail gives.
#[test]
fn only_kind_4_may_state_less() {
    let judged = |body: Vec<u8>| judge(&sheet(&[3, 5], &[&[pos(1)]]), &record(3, &[0x01], &[body]));
    let citing = |codes: &[u16], bound| step(1, codes, bound, &four_bytes(&[1]));
    assert_eq!(judged(citing(&[pos(1)], NONE)), refused(19, 1));
    assert_eq!(judged(citing(&[pos(1), pos(2)], NONE)), refused(12, 1));
    assert_eq!(judged(citing(&[pos(1)], 3)), refused(12, 1));
    assert_eq!(judged(cost_step(&[neg(1)], 2)), refused(13, 1));
    assert_eq!(judged(independent_step(&[], 2, &[1])), refused(15, 1));
    assert_eq!(judged(weighted_step(&[], 2, 1, &[(1, 3)])), refused(24, 1));
}

/// As many variables as there can be, all of them in the step, where the resolvent has one.
#[test]
fn as_many_further_literals_as_there_can_be() {
    let sheet = sheet(&[1; 1_024], &[&[pos(1_024)]]);
    let judged = |code_of_512| {
        let mut codes: Vec<u16> = (1..=1_024).map(pos).collect();
        codes[511] = code_of_512;
        let steps = [
            clause_step(&[pos(1_024)], 1),
            cost_step(&[neg(512), neg(1_024)], 2),
            resolution_step(&codes, 2, 1, 2, 1_024),
        ];
        judge(&sheet, &record(NONE, &[0; 128], &steps))
    };
    assert_eq!(judged(neg(512)), refused(19, 3));
    assert_eq!(judged(pos(512)), refused(17, 3));
}
