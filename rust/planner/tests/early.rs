//! Records of a search that stops early: never more steps than asked for, never refused, and never a gap that is not there.

mod common;

use common::{accepted, problem, Shape, LOSSES};
use planner::random::Random;
use planner::search::{plan_by, plan_in, Bounds};
use planner::{format, Literal, Plan, Problem, NONE};
use reference::{brute, judge, Answer, Verdict};

const BOTH: [Bounds; 2] = [Bounds::Independent, Bounds::Weights];

fn shape(variables: usize, clauses: usize, positive: usize, dearest: usize) -> Shape {
    Shape {
        variables,
        clauses,
        lengths: [2, 4],
        positive,
        dearest,
    }
}

fn sheet_of(costs: &[u32], clauses: &[&[i32]]) -> Problem {
    let literal = |held: &i32| Literal::new(held.unsigned_abs() as usize, *held > 0);
    let read = |clause: &&[i32]| clause.iter().map(literal).collect();
    Problem {
        loss: None,
        costs: costs.to_vec(),
        clauses: clauses.iter().map(read).collect(),
    }
}

fn whole(problem: &Problem, bounds: Bounds) -> Plan {
    plan_by(problem, bounds, u64::MAX)
        .0
        .expect("no limit was set")
}

/// The reference checker's answer to a plan of so many steps at most, which it has.
fn judged_in(problem: &Problem, bounds: Bounds, steps: u64) -> Option<Answer> {
    let plan = plan_in(problem, bounds, steps)?;
    assert!((1..=steps).contains(&(plan.steps.len() as u64)));
    let (sheet, record) = (format::sheet(problem), plan.record());
    let answer = judge(&sheet, &record);
    assert!(!answer.refuses(), "{answer:?}: {problem:?}");
    if brute::within_reach(&sheet) {
        let confirmed = match answer.verdict() {
            Verdict::Within => brute::confirms_within(&sheet, &record, &answer),
            _ => brute::confirms(&sheet, &record, &answer),
        };
        assert!(confirmed, "{answer:?}: {problem:?}");
    }
    Some(answer)
}

/// All answers for 1 to so many steps and a few more than the whole certificate has.
fn answers(problem: &Problem, bounds: Bounds) -> Vec<Option<Answer>> {
    let whole = whole(problem, bounds);
    assert!(accepted(problem, &whole.record()));
    let enough = whole.steps.len() as u64;
    let answers = (1..=enough + 3).map(|steps| {
        if steps >= enough {
            assert_eq!(plan_in(problem, bounds, steps).as_ref(), Some(&whole));
        }
        judged_in(problem, bounds, steps)
    });
    answers.collect()
}

/// The gap of an answer; where nothing can be told, it is greater than every gap.
fn gap(answer: &Option<Answer>) -> u64 {
    answer.map_or(NONE, |answer| answer.gap)
}

/// Where one step more is of no use, the record is no longer.
fn idle_steps_are_left_out(pair: &[Option<Answer>]) -> bool {
    match pair {
        [Some(few), Some(more)] if few.gap == more.gap && few.gap > 0 => few == more,
        _ => true,
    }
}

#[test]
fn every_number_of_steps_is_kept_and_the_gap_never_grows() {
    let mut random = Random::new(3);
    let mut met = [0; 4];
    for round in 0..150 {
        let variables = random.between(4, 12);
        let clauses = random.between(variables, 4 * variables);
        let shape = shape(variables, clauses, 30 + round % 60, [1, 9, 999][round % 3]);
        let mut problem = problem(&shape, &mut random);
        problem.loss = LOSSES[round % 4];
        for bounds in BOTH {
            let answers = answers(&problem, bounds);
            let falls = |pair: &[Option<Answer>]| gap(&pair[0]) >= gap(&pair[1]);
            assert!(answers.windows(2).all(falls), "{answers:?}: {problem:?}");
            assert!(answers.windows(2).all(idle_steps_are_left_out));
            for answer in answers {
                met[answer.map_or(3, |answer| answer.verdict() as usize)] += 1;
            }
        }
    }
    println!("least, none, within, nothing: {met:?}");
    assert!(met.iter().all(|count| *count > 50), "{met:?}");
}

/// The gaps for some numbers of steps, with these bounds.
fn gaps(problem: &Problem, bounds: Bounds, steps: &[u64]) -> Vec<u64> {
    let gaps = steps
        .iter()
        .map(|steps| gap(&judged_in(problem, bounds, *steps)));
    gaps.collect()
}

#[test]
fn a_few_steps_come_near_and_more_come_nearer() {
    let shape = Shape {
        lengths: [3, 5],
        ..shape(40, 120, 85, 9)
    };
    let problem = problem(&shape, &mut Random::new(40));
    let steps = [1, 2, 3, 10, 30, 100, 1_000, 10_000];
    let plain = gaps(&problem, Bounds::Independent, &steps);
    let weighted = gaps(&problem, Bounds::Weights, &steps);
    println!("{plain:?}\n{weighted:?}");
    assert!(plain.is_sorted_by(|few, more| few >= more));
    assert!(weighted
        .iter()
        .zip(&plain)
        .all(|(with, without)| with <= without));
    assert!(plain[0] <= 27 && plain[4] <= 14 && plain[5] <= 8 && plain[7] == 0);
    assert!(weighted[0] <= 10 && weighted[4] <= 3 && weighted[5] == 0);
    assert!(plain[5] > 0 && weighted[4] > 0, "the sheet is too easy");
}

/// The bound of one step is what the sheet's clauses give without any decision.
#[test]
fn one_step_is_the_bound_at_the_root() {
    // Any two of three variables are a clause: one clause gives 3, and weights add up to 4 and a half.
    let problem = sheet_of(&[4, 3, 2], &[&[1, 2], &[2, 3], &[1, 3]]);
    let answer = |bounds, steps| judged_in(&problem, bounds, steps).unwrap();
    let plain = answer(Bounds::Independent, 1);
    assert_eq!((plain.cost, plain.gap, plain.step_count), (5, 2, 1));
    assert_eq!(answer(Bounds::Independent, 2).gap, 2);
    let split = answer(Bounds::Independent, 3);
    assert_eq!((split.cost, split.gap, split.step_count), (5, 0, 3));
    let weighted = answer(Bounds::Weights, 1);
    assert_eq!(
        (weighted.cost, weighted.gap, weighted.step_count),
        (5, 0, 1)
    );
}

#[test]
fn the_classrooms_sheet_takes_one_step() {
    let problem = sheet_of(&[3, 5], &[&[1, 2], &[1, -2]]);
    for bounds in BOTH {
        let enough = whole(&problem, bounds).steps.len() as u64;
        for steps in 1..enough + 3 {
            let answer = judged_in(&problem, bounds, steps).unwrap();
            assert_eq!((answer.verdict(), answer.cost), (Verdict::Least, 3));
            assert_eq!(answer.step_count == 1, steps < enough || enough == 1);
        }
    }
}

/// Each of so many birds has a hole, and no hole has two of them.
fn birds(birds: usize, holes: usize) -> Problem {
    let sits = |bird: usize, hole: usize| bird * holes + hole + 1;
    let mut clauses = Vec::new();
    for bird in 0..birds {
        let any = (0..holes).map(|hole| Literal::positive(sits(bird, hole)));
        clauses.push(any.collect());
        for (other, hole) in (0..bird).flat_map(|other| (0..holes).map(move |hole| (other, hole))) {
            let both = [sits(other, hole), sits(bird, hole)];
            clauses.push(both.map(Literal::negative).to_vec());
        }
    }
    let costs = vec![1; birds * holes];
    Problem {
        loss: None,
        costs,
        clauses,
    }
}

#[test]
fn without_a_model_there_is_no_plan_until_the_steps_show_it() {
    for problem in [birds(3, 2), birds(4, 3), sheet_of(&[7], &[&[1], &[-1]])] {
        for bounds in BOTH {
            let answers = answers(&problem, bounds);
            let first = answers.iter().position(|answer| answer.is_some()).unwrap();
            let shown = |answer: &Option<Answer>| {
                answer.is_some_and(|answer| answer.verdict() == Verdict::NoneExists)
            };
            assert!(answers[first..].iter().all(shown));
            // Fewer steps than clauses cannot do: without any one of these there is a model.
            assert!(first >= problem.clauses.len().min(8), "{first}");
        }
    }
    // Too many for the search to come to an end: the effort is bounded.
    assert_eq!(plan_in(&birds(9, 8), Bounds::Weights, 20), None);
}

#[test]
fn sheets_at_the_limits_have_plans_too() {
    let empty = sheet_of(&[7], &[]);
    let broken = sheet_of(&[7], &[&[]]);
    for (problem, verdict) in [(empty, Verdict::Least), (broken, Verdict::NoneExists)] {
        for bounds in BOTH {
            let answer = judged_in(&problem, bounds, 1).unwrap();
            assert_eq!(answer.verdict(), verdict);
        }
    }
    let mut random = Random::new(1);
    for (dearest, steps) in [(1, 1), (1, u64::MAX), (u32::MAX as usize, 4)] {
        let mut largest = problem(&shape(1_024, 500, 70, dearest), &mut random);
        for loss in LOSSES {
            largest.loss = loss;
            let answer = judged_in(&largest, Bounds::Weights, steps).unwrap();
            assert!(answer.accepts() || steps < u64::MAX);
        }
    }
}

#[test]
fn the_same_call_gives_the_same_plan() {
    let problem = problem(&shape(30, 90, 60, 99), &mut Random::new(8));
    for steps in [1, 7, 40] {
        let plans = [(); 2].map(|()| plan_in(&problem, Bounds::Weights, steps));
        assert_eq!(plans[0], plans[1]);
    }
}
