//! The search for a plan: courses worked by hand, one budget after the other, its refusals, and what trying every
//! assignment says of its answers.

mod common;

use common::searcher::*;
use common::*;
use reference::brute::Tried;
use reference::{judge, search, sheet_is_valid};
use std::collections::BTreeMap;

#[test]
fn budget_0_is_enough_where_everything_is_forced() {
    let (unit, next, last): (&[u16], &[u16], &[u16]) =
        (&[pos(1)], &[neg(1), pos(2)], &[neg(2), neg(3)]);
    assert_course(&sheet(&[3, 5, 9], &[unit, next, last]), &[(Some(0b011), 8)]);
    assert_course(&sheet(&[7], &[&[neg(1)]]), &[(Some(0), 0)]);
}

/// A clause may force only once a later one has: after each literal, all clauses are looked at again.
#[test]
fn forcing_goes_on_until_no_clause_forces() {
    let clauses: [&[u16]; 4] = [
        &[neg(3), pos(4)],
        &[neg(2), pos(3)],
        &[neg(1), pos(2)],
        &[pos(1)],
    ];
    assert_course(&sheet(&[1, 2, 4, 8], &clauses), &[(Some(0b1111), 15)]);
}

/// Two unsettled literals force nothing, nor does one beside a true literal.
#[test]
fn only_the_last_literal_that_can_be_true_is_forced() {
    let clauses: [&[u16]; 2] = [&[pos(1)], &[pos(1), pos(2)]];
    let course = [(None, 3), (Some(0b01), 3), (Some(0b01), 3)];
    assert_course(&sheet(&[3, 5], &clauses), &course);
}

#[test]
fn nothing_is_chosen_after_a_false_clause() {
    let [empty, open, shut]: [&[u16]; 3] = [&[], &[pos(1)], &[neg(1)]];
    for clauses in [vec![empty], vec![open, shut], vec![open, empty]] {
        assert_course(&sheet(&[7, 7], &clauses), &[(None, NONE)]);
        assert_course(&marked(9, &sheet(&[7, 7], &clauses)), &[(None, NONE)]);
    }
}

/// Without a unit for it the first choice is two untried branches, at the loss and what was forced.
#[test]
fn budget_0_gives_the_floor_before_the_first_choice() {
    let free = sheet(&[7], &[]);
    let forced: &[u16] = &[pos(2)];
    let one_forced = sheet(&[7, 5], &[forced]);
    for (sheet, floor) in [
        (free.clone(), 0),
        (marked(4, &free), 4),
        (one_forced.clone(), 5),
        (marked(4, &one_forced), 9),
    ] {
        let found = search(&sheet, 0);
        assert_eq!((found.plan, found.choices), (None, 0));
        assert_eq!((found.ended, found.floor), (false, floor));
    }
}

#[test]
fn false_is_tried_before_true() {
    let course = [(None, 0), (Some(0), 0), (Some(0), 0)];
    assert_course(&sheet(&[7], &[]), &course);
    let at_loss = course.map(|(plan, floor)| (plan, floor + 4));
    assert_course(&marked(4, &sheet(&[7], &[])), &at_loss);
}

/// Variable 1 false forces variable 2, at cost 10. Until variable 1 is tried as true, that branch keeps the floor at 0:
/// its own choice would cost 1. The second unit makes it, which leaves none for variable 2; both of its branches have
/// cost 1 by then. The third finds the plan of cost 1, and the fourth is for the branch that is left at 11.
#[test]
fn variables_are_taken_by_number() {
    let course = [
        (None, 0),
        (Some(0b10), 0),
        (Some(0b10), 1),
        (Some(0b01), 1),
        (Some(0b01), 1),
    ];
    assert_course(&sheet(&[1, 10], &[&[pos(1), pos(2)]]), &course);
}

/// Variable 1 false forces variable 2 by the first clause, and then the second is false. A third variable is not chosen
/// there, but below variable 1 true.
#[test]
fn a_branch_is_left_at_a_false_clause() {
    let course = [
        (None, 0),
        (None, 0),
        (None, 3),
        (Some(0b01), 3),
        (Some(0b01), 3),
    ];
    assert_course(&sheet_a(), &course);
    let clauses: [&[u16]; 2] = [&[pos(1), pos(2)], &[pos(1), neg(2)]];
    let course = [
        (None, 0),
        (None, 0),
        (None, 3),
        (None, 3),
        (Some(0b001), 3),
        (Some(0b001), 3),
        (Some(0b001), 3),
    ];
    assert_course(&sheet(&[3, 5, 0], &clauses), &course);
}

/// The first plan has cost 5. Variable 1 true costs 1, and with variable 2, which it forces, 6: there is no choice of
/// variable 3 below it.
#[test]
fn the_cost_is_looked_at_after_forcing() {
    let clauses: [&[u16]; 2] = [&[pos(1), pos(2)], &[neg(1), pos(2)]];
    let course = [
        (None, 0),
        (None, 0),
        (Some(0b010), 0),
        (Some(0b010), 0),
        (Some(0b010), 5),
    ];
    assert_course(&sheet(&[1, 5, 0], &clauses), &course);
}

/// The plan is found with the third unit. No branch that is left then can be better, and each takes a unit of its own.
#[test]
fn a_second_branch_takes_a_unit_though_the_plan_is_no_dearer() {
    let nothing_yet = [(None, 0); 3];
    let found = [(Some(0), 0); 4];
    assert_course(&sheet(&[0; 3], &[]), &[&nothing_yet[..], &found].concat());
    assert_course(&sheet(&[9; 3], &[]), &[&nothing_yet[..], &found].concat());
}

/// What comes second costs as much as the first plan, and is left: in the first sheet a whole plan, in the second a
/// branch with variable 2 still unsettled.
#[test]
fn of_equal_plans_the_first_stays() {
    let course = [(None, 0), (Some(0b10), 0), (Some(0b10), 1)];
    assert_course(&sheet(&[1, 1], &[&[pos(1), pos(2)]]), &course);
    let clauses: [&[u16]; 2] = [&[pos(1), pos(2)], &[neg(1), pos(3)]];
    let course = [
        (None, 0),
        (None, 0),
        (Some(0b010), 0),
        (Some(0b010), 0),
        (Some(0b010), 2),
    ];
    assert_course(&sheet(&[1, 2, 1], &clauses), &course);
}

/// One choice settles all five variables. With the second unit all branches are tried, so the search has ended though
/// the budget is spent.
#[test]
fn the_last_unit_is_tried_to_its_end() {
    let same = |v: u16| [vec![neg(v), pos(v + 1)], vec![pos(v), neg(v + 1)]];
    let clauses: Vec<Vec<u16>> = (1..5).rev().flat_map(same).collect();
    let clauses: Vec<&[u16]> = clauses.iter().map(Vec::as_slice).collect();
    let course = [(None, 0), (Some(0), 0), (Some(0), 0)];
    assert_course(&sheet(&[1; 5], &clauses), &course);
    let some: &[u16] = &[pos(1), pos(5)];
    let clauses = [&clauses[..], &[some]].concat();
    let course = [(None, 0), (None, 0), (Some(0b11111), 5)];
    assert_course(&sheet(&[1; 5], &clauses), &course);
}

/// Variable 3 is forced before the first choice, so that every branch has its 4. The floor follows the branch of the
/// first choice, 4, then both branches of variable 2, 6, and is never that of a deeper node as long as a higher one has
/// a branch untried.
#[test]
fn the_floor_counts_every_branch_not_yet_tried() {
    let clauses: [&[u16]; 2] = [&[pos(3)], &[pos(1), pos(2)]];
    let course = [
        (None, 4),
        (None, 4),
        (Some(0b0110), 4),
        (Some(0b0110), 4),
        (Some(0b0110), 6),
        (Some(0b0110), 6),
        (Some(0b0101), 6),
        (Some(0b0101), 6),
        (Some(0b0101), 6),
    ];
    assert_course(&sheet(&[2, 3, 4, 1], &clauses), &course);
    let with_loss = course.map(|(plan, floor)| (plan, floor + 100));
    assert_course(&marked(100, &sheet(&[2, 3, 4, 1], &clauses)), &with_loss);
}

/// All signs of two and of three variables: nothing satisfies them. Of three, the floor is what variable 1 costs as
/// soon as the branches below it are the only ones left, and "none" when these are tried too.
#[test]
fn without_a_plan_the_floor_rises_to_none() {
    let course = [(None, 0), (None, 0), (None, NONE)];
    assert_course(&sheet(&[5, 6], &borrowed(&every_sign(2))), &course);
    let course = [0, 0, 0, 0, 5, 5, NONE].map(|floor| (None, floor));
    assert_course(&sheet(&[5, 6, 7], &borrowed(&every_sign(3))), &course);
}

/// Each clause of all these variables.
fn every_sign(variable_count: u16) -> Vec<Vec<u16>> {
    let every = every_list(variable_count).into_iter();
    every
        .filter(|list| list.len() == usize::from(variable_count))
        .collect()
}

fn borrowed(clauses: &[Vec<u16>]) -> Vec<&[u16]> {
    clauses.iter().map(Vec::as_slice).collect()
}

/// A loss of 10 makes the plan 12. Variable 1 true costs 13 with it and 3 without, and is left.
#[test]
fn the_loss_is_in_every_cost_that_is_compared() {
    let plain = sheet(&[3, 2, 0], &[&[pos(1), pos(2)]]);
    let course = [
        (None, 10),
        (None, 10),
        (Some(0b010), 10),
        (Some(0b010), 10),
        (Some(0b010), 12),
    ];
    assert_course(&marked(10, &plain), &course);
}

#[test]
fn the_sheets_of_document_01() {
    for (sheet, plan, floor) in [
        (sheet_a(), 0b01, 3),
        (sheet_c(), 0b00_0001, 1),
        (sheet_d(), 0b01_1010, 11),
        (marked(4, &sheet_d()), 0b01_1010, 15),
        (sheet(&[7], &[]), 0, 0),
    ] {
        let found = search(&sheet, u64::MAX);
        assert_eq!((found.plan, found.floor), (Some(plan), floor));
        assert!(found.ended);
    }
    assert_course(&sheet(&[7], &[&[]]), &[(None, NONE)]);
}

/// All 64 variables are forced true at the greatest cost there is, beside the greatest loss.
#[test]
fn a_plan_of_64_variables_fills_its_number() {
    let units: Vec<[u16; 1]> = (1..=64).map(|variable| [pos(variable)]).collect();
    let units: Vec<&[u16]> = units.iter().map(|unit| &unit[..]).collect();
    let all = sheet(&[u32::MAX; 64], &units);
    let largest = u64::from(u32::MAX);
    assert_course(&all, &[(Some(u64::MAX), 64 * largest)]);
    assert_course(&marked(u32::MAX, &all), &[(Some(u64::MAX), 65 * largest)]);
    let but_the_last = sheet(&[1; 64], &units[..63]);
    let course = [
        (None, 63),
        (Some(u64::MAX >> 1), 63),
        (Some(u64::MAX >> 1), 63),
    ];
    assert_course(&but_the_last, &course);
    let the_last = search(&sheet(&[1; 64], &units[63..]), 126);
    assert_eq!((the_last.plan, the_last.floor), (Some(1 << 63), 1));
    assert!(the_last.ended);
}

/// Nothing else is wrong with these sheets, and no choice would be needed for some.
#[test]
fn refusal_26_when_there_are_more_than_64_variables() {
    let empty: &[u16] = &[];
    for count in [65, 66, 128, 1_024] {
        let costs = vec![1; count];
        assert_not_searched(&sheet(&costs, &[]), 26, 0);
        assert_not_searched(&sheet(&costs, &[empty]), 26, 0);
        assert_not_searched(&marked(7, &sheet(&costs, &[empty])), 26, 0);
    }
    for count in [1, 2, 63, 64] {
        assert_course(&sheet(&vec![1; count], &[empty]), &[(None, NONE)]);
    }
}

#[test]
fn refusals_2_to_4_come_before_26() {
    let costs = [1; 65];
    let good: &[u16] = &[pos(65)];
    let valid = sheet(&costs, &[good, good]);
    assert_not_searched(&valid, 26, 0);
    assert_not_searched(&valid[..valid.len() - 5], 2, 0);
    assert_not_searched(&valid[..valid.len() - 1], 3, 2);
    assert_not_searched(&edited(&valid, 4 + 4 * 65, &[0]), 3, 1);
    assert_not_searched(&sheet(&costs, &[good, &[pos(66)]]), 4, 2);
    assert_not_searched(&sheet_of_bodies(&costs, &[vec![2]]), 4, 1);
    assert_not_searched(&sheet(&[1; 1_025], &[good]), 2, 0);
    assert_not_searched(&[sheet(&costs, &[]), vec![0]].concat(), 3, 0);
}

/// Refusals 2 to 4 are the judgement's, with the same places; without one of them the answer is as it has to be.
#[test]
fn every_byte_of_sheet_c_set_to_every_value() {
    let mut met = BTreeMap::new();
    for at in 0..sheet_c().len() {
        for value in 0..=255 {
            let damaged = edited(&sheet_c(), at, &[value]);
            let judged = judge(&damaged, &[]);
            if sheet_is_valid(&damaged) {
                let tried = Tried::on(&damaged).unwrap();
                for budget in [0, 3, 1_000] {
                    assert!(tried.confirms(budget, &search(&damaged, budget)));
                }
            } else {
                assert_not_searched(&damaged, judged.number, judged.place);
            }
            *met.entry(judged.number).or_insert(0) += 1;
        }
    }
    // Refusal 5, of the empty record, stands for the sheets that were searched.
    assert_eq!(met.keys().copied().collect::<Vec<u32>>(), [2, 3, 4, 5]);
    assert!(met.values().all(|count| *count > 100));
}

/// Up to 10 variables and 12 clauses, or 80, which often leave no plan. Costs are often 0 and often equal. In half of the
/// sheets later variables tend to cost more; they are the first to be true, so that cheaper plans come last.
fn random_sheet(numbers: &mut Numbers) -> Vec<u8> {
    let variable_count = 1 + numbers.below(10);
    let rises = numbers.below(2);
    let costs: Vec<u32> = (0..variable_count)
        .map(|index| numbers.below(5 + rises * 3 * index).saturating_sub(1) as u32)
        .collect();
    let (most, positive) = [(13, 3), (13, 2), (81, 2)][numbers.below(3)];
    let clauses: Vec<Vec<u16>> = (0..numbers.below(most))
        .map(|_| random_clause(numbers, variable_count as u16, positive))
        .collect();
    sheet(&costs, &borrowed(&clauses))
}

/// Mostly 2 to 4 literals, and now and then none; of four, so many are positive.
fn random_clause(numbers: &mut Numbers, variable_count: u16, positive: usize) -> Vec<u16> {
    let mut literals = BTreeMap::new();
    let count = match numbers.below(500) {
        0 => 0,
        1..=4 => 1,
        other => 2 + other % 3,
    };
    while literals.len() < count.min(usize::from(variable_count)) {
        let variable = 1 + numbers.below(usize::from(variable_count)) as u16;
        let sign = u16::from(numbers.below(4) >= positive);
        literals.insert(variable, 2 * variable + sign);
    }
    literals.into_values().collect()
}

/// With every budget up to the one with which the search ends. The plan is given up for a cheaper one more than once in
/// many of them, and in many no plan exists.
#[test]
fn trying_every_assignment_confirms_every_answer() {
    let mut numbers = Numbers::from(8);
    let (mut given_up, mut without, mut chosen) = (0, 0, 0);
    for _ in 0..3_000 {
        let sheet = random_sheet(&mut numbers);
        let tried = Tried::on(&sheet).unwrap();
        let answers = answers(&sheet);
        for (budget, found) in answers.iter().enumerate() {
            assert!(tried.confirms(budget as u64, found), "{budget} {found:?}");
        }
        let mut plans: Vec<u64> = answers.iter().filter_map(|found| found.plan).collect();
        plans.dedup();
        given_up += usize::from(plans.len() > 2);
        without += usize::from(plans.is_empty() && answers.len() > 2);
        chosen += answers.len() - 1;
    }
    println!("{given_up} with three plans, {without} without, {chosen} choices");
    assert!(given_up > 100 && without > 100 && chosen > 20_000);
}

/// Each unit more leaves the floor where it is or raises it, and changes the plan for a cheaper one or not at all.
#[test]
fn a_unit_more_never_takes_anything_back() {
    let mut numbers = Numbers::from(9);
    let mut raised = 0;
    for _ in 0..1_000 {
        let sheet = random_sheet(&mut numbers);
        for two in answers(&sheet).windows(2) {
            let [before, after] = [two[0], two[1]];
            assert!(before.floor <= after.floor);
            let [old, new] = [before, after].map(|found| found.plan.map(|p| cost(&sheet, p)));
            match (old, new) {
                (Some(old), Some(new)) if before.plan != after.plan => assert!(new < old),
                (Some(old), new) => assert_eq!(Some(old), new),
                (None, _) => {}
            }
            raised += usize::from(before.floor < after.floor);
        }
    }
    println!("{raised} times raised");
    assert!(raised > 300);
}

/// The cost of a plan on an unmarked sheet.
fn cost(sheet: &[u8], plan: u64) -> u64 {
    let costs = (0..64).filter(|bit| plan >> bit & 1 == 1).map(|bit| {
        let at = 4 + 4 * bit;
        u64::from(u32::from_le_bytes(sheet[at..at + 4].try_into().unwrap()))
    });
    costs.sum()
}

/// A loss is in every cost alike: choices, plans and ends stay, and the floor moves by it.
#[test]
fn a_loss_moves_the_floor_and_nothing_else() {
    let mut numbers = Numbers::from(10);
    for _ in 0..500 {
        let plain = random_sheet(&mut numbers);
        for loss in [0, 1, 3, u32::MAX] {
            let with = answers(&marked(loss, &plain));
            let mut expected = answers(&plain);
            for found in &mut expected {
                found.floor = with_loss(loss, found.floor);
            }
            assert_eq!(with, expected);
        }
    }
}

/// A clause that says nothing new leaves every answer as it is: one that stands there already, and one that is an old
/// one with a further literal. So does the order of the clauses: what is forced in the end does not hang on it.
#[test]
fn the_list_of_clauses_may_be_longer_or_turned() {
    let mut numbers = Numbers::from(11);
    for _ in 0..500 {
        let variable_count = 2 + numbers.below(6);
        let costs: Vec<u32> = (0..variable_count)
            .map(|_| numbers.below(4) as u32)
            .collect();
        let mut clauses: Vec<Vec<u16>> = (0..1 + numbers.below(8))
            .map(|_| random_clause(&mut numbers, variable_count as u16, 3))
            .collect();
        let expected = answers(&sheet(&costs, &borrowed(&clauses)));
        clauses.push(clauses[0].clone());
        let mut wider = clauses[numbers.below(clauses.len())].clone();
        if wider.iter().all(|code| code / 2 != variable_count as u16) {
            wider.push(pos(variable_count as u16));
        }
        clauses.push(wider);
        assert_eq!(answers(&sheet(&costs, &borrowed(&clauses))), expected);
        clauses.reverse();
        assert_eq!(answers(&sheet(&costs, &borrowed(&clauses))), expected);
    }
}
