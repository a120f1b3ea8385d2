//! The form of a literal list in the fast checker, of every length and at every place: long and short lists are gone through
//! in different ways.

use bench::{judge, Marks, Merge};
use planner::format::{record_from, sheet, Bodies};
use planner::{Problem, MOST_VARIABLES, NONE};

const STEP_FORM: u64 = 8;
const COST_BOUND: u64 = 13;

/// What both ways say of one step of kind 2 with these codes: its bound is none, which 13 tells where the list is in form.
fn told(codes: &[u16]) -> u64 {
    let problem = Problem {
        loss: None,
        costs: vec![1; MOST_VARIABLES],
        clauses: vec![],
    };
    let mut body = vec![2, 0];
    body.extend((codes.len() as u16).to_le_bytes());
    body.extend(NONE.to_le_bytes());
    body.extend(codes.iter().flat_map(|code| code.to_le_bytes()));
    let assignment = [0; MOST_VARIABLES / 8];
    let bodies: Bodies = [body].iter().collect();
    let (sheet, record) = (sheet(&problem), record_from(NONE, &assignment, &bodies));
    let answer = judge::<Merge>(&sheet, &record);
    assert_eq!(judge::<Marks>(&sheet, &record), answer, "{codes:?}");
    answer.number
}

/// Every second variable up to the last one that there may be, positive and negative in turn.
fn rising(length: u16) -> Vec<u16> {
    let last = 2 * MOST_VARIABLES as u16;
    let codes = (0..length).rev().map(|back| last - 4 * back + back % 2);
    codes.collect()
}

#[test]
fn a_list_rises_at_every_place() {
    for length in (0..=100).chain([300, 512]) {
        let list = rising(length);
        assert_eq!(told(&list), COST_BOUND, "{list:?}");
        for place in 1..list.len() {
            let before = list[place - 1];
            for wrong in [before, before ^ 1, before - 2] {
                let mut list = list.clone();
                list[place] = wrong;
                assert_eq!(told(&list), STEP_FORM, "{list:?}");
            }
        }
    }
}

#[test]
fn variables_are_those_of_the_sheet() {
    for length in 1..=100 {
        let mut list = rising(length);
        for wrong in [0, 1] {
            let first = std::mem::replace(&mut list[0], wrong);
            assert_eq!(told(&list), STEP_FORM, "{list:?}");
            list[0] = first;
        }
        for wrong in [2 * MOST_VARIABLES as u16 + 2, u16::MAX] {
            list[usize::from(length) - 1] = wrong;
            assert_eq!(told(&list), STEP_FORM, "{list:?}");
        }
    }
}
