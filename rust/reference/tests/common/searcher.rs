//! The search's answers to compare with.

use reference::{search, Found};

/// The answer to a sheet that is not searched.
pub fn not_searched(number: u32, place: u64) -> Found {
    Found {
        number,
        place,
        plan: None,
        choices: 0,
        ended: false,
        floor: 0,
    }
}

/// Whatever the budget, the sheet is refused with this.
pub fn assert_not_searched(sheet: &[u8], number: u32, place: u64) {
    for budget in [0, 1, 1_000, u64::MAX] {
        assert_eq!(search(sheet, budget), not_searched(number, place));
    }
}

/// What a search has come to with a budget: its best plan and the floor.
pub type State = (Option<u64>, u64);

/// The states after 0 choices, 1 choice and so on, with a budget of just so many. With the last the search has ended,
/// and a greater budget changes nothing.
pub fn assert_course(sheet: &[u8], course: &[State]) {
    let last = course.len() - 1;
    for (budget, (plan, floor)) in course.iter().enumerate() {
        let expected = Found {
            number: 0,
            place: 0,
            plan: *plan,
            choices: budget as u64,
            ended: budget == last,
            floor: *floor,
        };
        assert_eq!(search(sheet, budget as u64), expected, "budget {budget}");
    }
    let at_end = search(sheet, last as u64);
    for budget in [last as u64 + 1, last as u64 + 2, u64::MAX] {
        assert_eq!(search(sheet, budget), at_end, "budget {budget}");
    }
}

/// The answers to every budget up to the first with which the search ends. That is soon, on a small sheet.
pub fn answers(sheet: &[u8]) -> Vec<Found> {
    let mut answers = vec![];
    for budget in 0..10_000 {
        let found = search(sheet, budget);
        answers.push(found);
        if found.ended {
            return answers;
        }
    }
    panic!("no end");
}
