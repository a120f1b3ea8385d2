//! Trying all assignments: on document 01's cases, and at the limits of its reach.

mod common;

use common::searcher::not_searched;
use common::*;
use reference::brute::{confirms, confirms_within, least_cost, within_reach, Tried};
use reference::{judge, Answer, Found};

#[test]
fn least_costs_of_the_cases() {
    assert_eq!(least_cost(&sheet_a()), Some(3));
    assert_eq!(least_cost(&sheet(&[7], &[])), Some(0));
    assert_eq!(least_cost(&sheet(&[7], &[&[]])), None);
    assert_eq!(least_cost(&sheet_d()), Some(11));
}

#[test]
fn the_least_is_taken_over_the_assignments_that_satisfy_every_clause() {
    // All variables false is cheapest and breaks clause 1; variable 1 breaks clause 2; variable 3 does for both.
    let sheet = sheet(&[1, 9, 4], &[&[pos(1), pos(2), pos(3)], &[neg(1), pos(2)]]);
    assert_eq!(least_cost(&sheet), Some(4));
}

#[test]
fn no_assignment_satisfies_all_four_signs_of_two_variables() {
    let clauses: [&[u16]; 4] = [
        &[pos(1), pos(2)],
        &[pos(1), neg(2)],
        &[neg(1), pos(2)],
        &[neg(1), neg(2)],
    ];
    assert_eq!(least_cost(&sheet(&[1, 1], &clauses)), None);
    assert_eq!(least_cost(&sheet(&[1, 1], &clauses[..3])), Some(2));
}

#[test]
fn it_reaches_20_variables_and_no_more() {
    let clause: &[u16] = &[pos(20)];
    let at_limit = sheet(&[5; 20], &[clause]);
    assert!(within_reach(&at_limit));
    assert_eq!(least_cost(&at_limit), Some(5));
    let beyond = sheet(&[5; 21], &[clause]);
    assert!(!within_reach(&beyond));
    assert_eq!(least_cost(&beyond), None);
}

#[test]
fn it_does_not_reach_a_sheet_that_is_not_valid() {
    assert!(!within_reach(&[]));
    assert!(!within_reach(&sheet(&[7], &[&[0]])));
    assert!(!confirms(&[], &record_a(), &accepted(3, 1, 5)));
    assert!(!confirms_within(&[], &record_a4(), &within(5, 8, 2, 5)));
}

#[test]
fn it_confirms_the_acceptances_of_a_and_b() {
    assert!(confirms(
        &sheet_a(),
        &record_a(),
        &judge(&sheet_a(), &record_a())
    ));

    let (sheet_b1, record_b1) = (sheet(&[7], &[]), record(0, &[0], &[cost_step(&[], 0)]));
    assert!(confirms(
        &sheet_b1,
        &record_b1,
        &judge(&sheet_b1, &record_b1)
    ));

    let sheet_b2 = sheet(&[7], &[&[]]);
    let record_b2 = record(NONE, &[0], &[clause_step(&[], 1)]);
    assert!(confirms(
        &sheet_b2,
        &record_b2,
        &judge(&sheet_b2, &record_b2)
    ));
}

/// The steps do not matter here: what is confirmed is the claim, whatever bears it out.
#[test]
fn it_confirms_d_at_11_and_nothing_dearer() {
    let steps = [cost_step(&[], 0)];
    let least = record(11, &[0b01_1010], &steps);
    assert!(confirms(&sheet_d(), &least, &accepted(11, 3, 1)));
    let dearer = record(12, &[0b01_1011], &steps);
    assert!(!confirms(&sheet_d(), &dearer, &accepted(12, 4, 1)));
}

#[test]
fn it_does_not_confirm_what_the_record_does_not_say() {
    let right = accepted(3, 1, 5);
    let not_said = [
        Answer { cost: 4, ..right },
        Answer {
            open_count: 2,
            ..right
        },
        Answer {
            step_count: 4,
            ..right
        },
        Answer { place: 1, ..right },
        Answer { gap: 1, ..right },
        Answer { gap: 3, ..right },
        Answer {
            cost: NONE,
            open_count: 0,
            ..right
        },
        Answer {
            number: 19,
            ..right
        },
        refused(19, 5),
    ];
    assert!(confirms(&sheet_a(), &record_a(), &right));
    for answer in not_said {
        assert!(!confirms(&sheet_a(), &record_a(), &answer));
    }
}

#[test]
fn it_does_not_confirm_a_false_claim() {
    let steps = steps_a();
    let claims = |claim, bits: u8, open_count| {
        let record = record(claim, &[bits], &steps);
        confirms(&sheet_a(), &record, &accepted(claim, open_count, 5))
    };
    assert!(claims(3, 0b01, 1));
    assert!(!claims(8, 0b11, 2), "there is a cheaper one");
    assert!(!claims(0, 0b00, 0), "clause 1 is broken");
    assert!(!claims(5, 0b10, 1), "clause 2 is broken");
    assert!(!claims(3, 0b11, 2), "this one costs 8");
    assert!(!claims(3, 0b101, 2), "there is no variable 3");
    assert!(!claims(NONE, 0b00, 0), "there is one");
}

#[test]
fn it_does_not_confirm_a_broken_clause_at_the_least_cost() {
    let sheet = sheet(&[3, 3], &[&[pos(1)]]);
    let claims = |bits: u8| {
        let record = record(3, &[bits], &[cost_step(&[], 0)]);
        confirms(&sheet, &record, &accepted(3, 1, 1))
    };
    assert!(claims(0b01));
    assert!(!claims(0b10));
}

#[test]
fn it_does_not_confirm_the_claim_none_with_a_bit_set() {
    let unsatisfiable = sheet(&[7], &[&[]]);
    let claims = |bits: u8, open_count| {
        let record = record(NONE, &[bits], &[clause_step(&[], 1)]);
        confirms(&unsatisfiable, &record, &accepted(NONE, open_count, 1))
    };
    assert!(claims(0, 0));
    assert!(!claims(1, 0));
    assert!(!claims(1, 1));
}

#[test]
fn it_does_not_confirm_a_record_without_an_assignment() {
    for length in 0..13 {
        let cut = &record_a()[..length];
        assert!(!confirms(&sheet_a(), cut, &accepted(3, 1, 5)));
    }
    // The steps are not needed.
    assert!(confirms(&sheet_a(), &record_a()[..13], &accepted(3, 1, 5)));
}

/// The gap is confirmed as within and never as an acceptance.
#[test]
fn it_confirms_the_gap_of_a4() {
    let answer = judge(&sheet_a(), &record_a4());
    assert!(confirms_within(&sheet_a(), &record_a4(), &answer));
    assert!(!confirms(&sheet_a(), &record_a4(), &answer));
}

/// The least is 3 and the cost is 8. A greater gap says less, down to nothing at all; one beyond the cost is no
/// record's.
#[test]
fn it_confirms_a_gap_that_leaves_no_model_below() {
    let confirmed = |gap| {
        confirms_within(
            &sheet_a(),
            &record_a4(),
            &Answer {
                gap,
                ..accepted(8, 2, 5)
            },
        )
    };
    for gap in 5..=8 {
        assert!(confirmed(gap));
    }
    for gap in [0, 1, 4, 9, 1 << 32, NONE] {
        assert!(!confirmed(gap));
    }
}

/// A gap at the least cost is true too: nothing says that a dearer one is meant.
#[test]
fn it_confirms_a_gap_at_the_least_cost() {
    assert!(confirms_within(
        &sheet_a(),
        &record_a(),
        &within(3, 3, 1, 5)
    ));
    assert!(!confirms_within(
        &sheet_a(),
        &record_a(),
        &accepted(3, 1, 5)
    ));
}

#[test]
fn it_does_not_confirm_a_gap_with_what_the_record_does_not_say() {
    let right = within(5, 8, 2, 5);
    let not_said = [
        Answer { cost: 9, ..right },
        Answer {
            open_count: 1,
            ..right
        },
        Answer {
            step_count: 4,
            ..right
        },
        Answer { place: 1, ..right },
        Answer {
            number: 19,
            ..right
        },
        refused(19, 5),
    ];
    assert!(confirms_within(&sheet_a(), &record_a4(), &right));
    for answer in not_said {
        assert!(!confirms_within(&sheet_a(), &record_a4(), &answer));
    }
}

#[test]
fn it_does_not_confirm_a_gap_of_a_false_claim() {
    // The gap is the whole claim, so that whatever is missing is missing from the claim.
    let confirmed = |claim, bits: u8, open_count| {
        let record = record(claim, &[bits], &steps_a());
        let answer = within(claim, claim, open_count, 5);
        confirms_within(&sheet_a(), &record, &answer)
    };
    assert!(confirmed(8, 0b11, 2));
    assert!(confirmed(3, 0b01, 1));
    assert!(!confirmed(5, 0b10, 1), "clause 2 is broken");
    assert!(!confirmed(9, 0b11, 2), "this one costs 8");
    assert!(!confirmed(8, 0b111, 3), "there is no variable 3");
    assert!(!confirmed(NONE, 0b00, 0), "none is no cost");
}

/// Variable 1 decides before variable 2, and the last variable, which costs nothing, last of all.
#[test]
fn the_first_least_has_false_where_two_first_differ() {
    let first_least = |costs: &[u32], clauses: &[&[u16]]| {
        let tried = Tried::on(&sheet(costs, clauses)).unwrap();
        tried.first_least()
    };
    let some: &[u16] = &[pos(1), pos(2)];
    assert_eq!(first_least(&[4, 4, 0], &[some]), Some((4, 0b010)));
    let but_not_2: &[u16] = &[pos(1), neg(2), pos(3)];
    assert_eq!(
        first_least(&[4, 4, 0], &[some, but_not_2]),
        Some((4, 0b110))
    );
    assert_eq!(
        first_least(&[4, 5, 0], &[some, but_not_2]),
        Some((4, 0b001))
    );
    assert_eq!(
        first_least(&[0; 20], &[&[pos(1), pos(20)]]),
        Some((0, 1 << 19))
    );
    assert_eq!(first_least(&[4], &[&[]]), None);
    assert!(Tried::on(&sheet(&[5; 21], &[])).is_none());
    assert!(Tried::on(&[]).is_none());
}

/// Variable 1, of cost 1, is the first least plan; variable 2, of cost 10, and both are plans too.
#[test]
fn it_confirms_what_is_true_of_a_search_and_nothing_else() {
    let tried = Tried::on(&sheet(&[1, 10], &[&[pos(1), pos(2)]])).unwrap();
    let open = Found {
        plan: Some(0b10),
        choices: 2,
        ..not_searched(0, 0)
    };
    let confirmed = |change: fn(&mut Found)| {
        let mut found = open;
        change(&mut found);
        tried.confirms(2, &found)
    };
    assert!(confirmed(|_| {}));
    assert!(confirmed(|found| found.floor = 1));
    assert!(confirmed(|found| found.plan = None));
    assert!(!confirmed(|found| found.floor = 2), "variable 1 costs 1");
    assert!(!confirmed(|found| found.plan = Some(0)), "clause 1");
    assert!(!confirmed(|found| found.plan = Some(0b110)), "variable 3");
    assert!(!confirmed(|found| found.choices = 1), "a unit is left");
    assert!(!confirmed(|found| found.choices = 3), "over the budget");
    assert!(!confirmed(|found| found.ended = true), "not the least");
    assert!(!confirmed(|found| found.number = 26), "a refusal");
    assert!(!confirmed(|found| found.place = 1), "no place to name");
}

#[test]
fn it_confirms_an_end_by_the_first_least_plan_or_none() {
    let ended = |plan, floor| Found {
        plan,
        choices: 4,
        ended: true,
        floor,
        ..not_searched(0, 0)
    };
    let some = Tried::on(&sheet(&[1, 1], &[&[pos(1), pos(2)]])).unwrap();
    let confirmed = |found: Found| some.confirms(4, &found) && some.confirms(9, &found);
    assert!(confirmed(ended(Some(0b10), 1)));
    assert!(!confirmed(ended(Some(0b01), 1)), "not the first");
    assert!(!confirmed(ended(Some(0b11), 1)), "not the least");
    assert!(!confirmed(ended(None, 1)) && !confirmed(ended(None, NONE)));
    assert!(!confirmed(ended(Some(0b10), 0)), "the floor is the cost");
    assert!(!some.confirms(3, &ended(Some(0b10), 1)), "over the budget");
    let none = Tried::on(&sheet(&[1], &[&[pos(1)], &[neg(1)]])).unwrap();
    assert!(none.confirms(4, &ended(None, NONE)));
    assert!(!none.confirms(4, &ended(None, 0)) && !none.confirms(4, &ended(Some(1), NONE)));
}
