//! The searches written for speed and the proved one answer as the reference search does: else their times would compare
//! different work.

use bench::searched::{self, BUDGET};
use bench::{search_again, search_sliced, search_watched};
use planner::{format, Literal, Problem};
use proved::Found;
use samples::random::Random;
use samples::searching;
use samples::sheets::{problem, some_loss, Costs, Shape};
use std::collections::BTreeMap;

type Search = fn(&[u8], u64) -> Found;

const SEARCHES: [(&str, Search); 4] = [
    ("proved", proved::search),
    ("watched", search_watched),
    ("sliced", search_sliced),
    ("again", search_again),
];

fn wanted(sheet: &[u8], budget: u64) -> Found {
    let found = reference::search(sheet, budget);
    Found {
        number: found.number,
        place: found.place as u32,
        plan: found.plan,
        choices: found.choices,
        ended: found.ended,
        floor: found.floor,
    }
}

/// The answer that all give.
fn same(sheet: &[u8], budget: u64) -> Found {
    let answer = wanted(sheet, budget);
    for (name, search) in SEARCHES {
        let start = &sheet[..sheet.len().min(400)];
        let what = || format!("{name}, budget {budget}, sheet {start:02x?}");
        assert_eq!(search(sheet, budget), answer, "{}", what());
    }
    answer
}

/// Every budget up to one more than what the search needs; whether it has a plan.
fn same_on_budgets(sheet: &[u8]) -> bool {
    let answer = same(sheet, u64::MAX);
    assert_eq!((answer.number, answer.ended), (0, true));
    for budget in 0..=answer.choices + 1 {
        same(sheet, budget);
    }
    answer.plan.is_some()
}

#[test]
fn on_small_sheets() {
    let mut met = [0; 2];
    for case in searching::small(5).take(2_000) {
        met[usize::from(same_on_budgets(&case.sheet))] += 1;
    }
    println!("{met:?} without and with a plan");
    assert!(met.iter().all(|count| *count > 200));
}

/// Clauses enough for every number of words and of blocks that the searches have code for, and one more than fills them.
const COUNTS: [usize; 17] = [
    1, 64, 65, 128, 129, 256, 257, 512, 513, 768, 769, 1024, 1025, 2048, 2049, 4095, 4096,
];

/// With so many variables and literals in a clause, and with each number of clauses; how many searches had a plan.
fn on_counts(variables: usize, shortest: usize, longest: usize) -> usize {
    let random = &mut Random::new(variables as u64);
    let mut plans = 0;
    for clauses in COUNTS {
        let shape = Shape {
            variables,
            clauses,
            shortest,
            longest,
            positive: 80,
            costs: Costs::Few,
        };
        let mut problem = problem(&shape, random);
        problem.loss = some_loss(random);
        let sheet = format::sheet(&problem);
        for budget in [0, 1, 60, 200] {
            let found = same(&sheet, budget);
            plans += usize::from(found.plan.is_some());
            assert!(found.ended || found.choices == budget);
        }
    }
    plans
}

#[test]
fn on_every_number_of_clauses() {
    let plans = [
        on_counts(40, 3, 7),
        on_counts(64, 4, 15),
        on_counts(63, 10, 63),
        on_counts(64, 60, 64),
    ];
    println!("{plans:?}");
    assert!(plans.into_iter().all(|count| count > 8));
}

/// Every variable is chosen, one below the other: as many nodes as there can be.
#[test]
fn on_sheets_without_clauses() {
    for variables in [1, 2, 63, 64] {
        let problem = Problem {
            loss: Some(3),
            costs: vec![0; variables],
            clauses: vec![],
        };
        let sheet = format::sheet(&problem);
        let count = variables as u64;
        for budget in [0, 1, count - 1, count, 2 * count - 1, 2 * count, u64::MAX] {
            let found = same(&sheet, budget);
            assert_eq!(found.plan, (budget >= count).then_some(0));
            assert_eq!(found.ended, budget >= 2 * count);
            assert_eq!(found.floor, 3);
        }
    }
}

/// The first choice forces the second variable, that one the third, and so on, wherever their clauses stand.
#[test]
fn on_chains() {
    let step = |k| vec![Literal::positive(k), Literal::new(k + 1, false)];
    for variables in [2, 33, 64] {
        let mut clauses: Vec<_> = (1..variables).map(step).collect();
        for turn in 0..3 {
            clauses.rotate_left(turn * variables / 3);
            let problem = Problem {
                loss: None,
                costs: vec![1; variables],
                clauses: clauses.clone(),
            };
            let sheet = format::sheet(&problem);
            assert!(same_on_budgets(&sheet));
            assert_eq!(same(&sheet, 9).choices, 2);
            clauses.reverse();
        }
    }
}

#[test]
fn on_the_sets_of_the_benchmark() {
    for (name, shape) in searched::SETS {
        let sheet = searched::sheet(name).unwrap();
        let counts = [shape.variables as u16 | 0x8000, shape.clauses as u16];
        assert_eq!(sheet[..4], counts.map(u16::to_le_bytes).concat());
        same(&sheet, 100);
        let found = SEARCHES.map(|(_, search)| search(&sheet, BUDGET));
        assert_eq!(found, [found[0]; 4], "{name}");
        // What is promised of them.
        assert!(found[0].choices > 10_000, "{name}: {found:?}");
        assert_eq!(found[0].plan.is_none(), name.starts_with("none"), "{name}");
        assert!(found[0].ended || found[0].plan.is_some(), "{name}");
    }
}

#[test]
fn on_refused_sheets() {
    let mut met: BTreeMap<u32, usize> = BTreeMap::new();
    let wide = searching::too_wide(3).take(20);
    for case in searching::damaged(4).take(3_000).chain(wide) {
        for budget in [0, 20] {
            *met.entry(same(&case.sheet, budget).number).or_default() += 1;
        }
    }
    println!("{met:?}");
    let refusals: Vec<u32> = met.into_keys().filter(|number| *number != 0).collect();
    assert_eq!(refusals, [2, 3, 4, 26]);
}
