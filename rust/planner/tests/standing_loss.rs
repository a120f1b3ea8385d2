//! Standing losses: where a sheet has one, what the bounds make of it, and that a plan is the one without it and that much
//! dearer.

mod common;

use common::{accepted, clause, problem, Shape, LOSSES};
use planner::bounds::{cost_bound, independent_bound, linear_bound, linear_total};
use planner::padding::{Mix, Padding};
use planner::random::Random;
use planner::search::{plan_by, plan_in, Bounds};
use planner::{format, tree, Literal, Plan, Problem, Step, MOST_VARIABLES, NONE};

/// Any two of three variables are a clause.
fn triangle(loss: Option<u32>) -> Problem {
    Problem {
        loss,
        costs: vec![4, 3, 2],
        clauses: [[1, 2], [2, 3], [1, 3]].map(|pair| clause(&pair)).into(),
    }
}

fn with_loss(problem: &Problem, loss: Option<u32>) -> Problem {
    Problem {
        loss,
        ..problem.clone()
    }
}

fn some_problem(random: &mut Random) -> Problem {
    let variables = random.between(4, 10);
    let shape = Shape {
        variables,
        clauses: random.between(variables, 8 * variables),
        lengths: [2, 4],
        positive: random.between(30, 90),
        dearest: [1, 9, 999, u32::MAX as usize][random.below(4)],
    };
    problem(&shape, random)
}

#[test]
fn a_marked_sheet_has_its_loss_behind_the_costs() {
    let problem = Problem {
        loss: Some(0x0102_0304),
        costs: vec![3, 5],
        clauses: vec![clause(&[1, 2]), clause(&[1, -2])],
    };
    let expected = [
        2, 0x80, 2, 0, 3, 0, 0, 0, 5, 0, 0, 0, 4, 3, 2, 1, 0x20, 0, 0, 0, 4, 0, 0, 0, 0x24, 0, 0,
        0, 4, 0, 0, 0, 2, 0, 4, 0, 2, 0, 5, 0,
    ];
    assert_eq!(format::sheet(&problem), expected);
}

/// A loss of 0 has a mark and its 4 bytes, and costs what no loss does.
#[test]
fn a_loss_of_0_is_marked_too() {
    let [unmarked, marked] = [None, Some(0)].map(triangle);
    let [plain, sheet] = [&unmarked, &marked].map(format::sheet);
    assert_eq!((plain[1], sheet[1]), (0, 0x80));
    assert_eq!(sheet.len(), plain.len() + 4);
    assert_eq!(sheet[16..20], [0; 4]);
    let all = [true; 3];
    assert_eq!([&unmarked, &marked].map(|p| p.cost(&all)), [9, 9]);
    assert_eq!([&unmarked, &marked].map(Problem::standing_loss), [0, 0]);
}

#[test]
fn every_assignment_and_every_bound_has_the_loss() {
    for loss in [0, 1, 7, u32::MAX] {
        let (problem, more) = (triangle(Some(loss)), u64::from(loss));
        assert_eq!(problem.standing_loss(), more);
        assert_eq!(problem.cost(&[false; 3]), more);
        assert_eq!(problem.cost(&[true, false, true]), more + 6);
        assert_eq!(cost_bound(&problem, &[]), more);
        assert_eq!(cost_bound(&problem, &clause(&[-1, 2, -3])), more + 6);
        let independent = |literals: &[i32]| independent_bound(&problem, &clause(literals), &[2]);
        assert_eq!(independent(&[]), Some(more + 2));
        assert_eq!(independent(&[-1]), Some(more + 6));
        assert_eq!(independent(&[-2]), None);
    }
}

/// The total is 9, and its half is rounded up to 5 before the loss of 5 comes to it: half of their sum would be 7.
#[test]
fn weights_are_rounded_before_the_loss_comes_to_them() {
    let problem = triangle(Some(5));
    let weights = [(1, 5), (2, 1), (3, 3)];
    assert_eq!(linear_total(&problem, &[], 2, &weights), 9);
    assert_eq!(linear_bound(&problem, &[], 2, &weights), 5 + 5);
    // A total below zero counts as 0, whatever the loss is.
    let heavy = [(1, 100), (2, 100), (3, 100)];
    assert!(linear_total(&problem, &[], 2, &heavy) < 0);
    assert_eq!(linear_bound(&problem, &[], 2, &heavy), 5);
}

/// The bound that a step has where every assignment costs that much more.
fn raised(bound: u64, loss: Option<u32>) -> u64 {
    match bound {
        NONE => NONE,
        bound => bound + loss.map_or(0, u64::from),
    }
}

fn dearer(plan: &Plan, loss: Option<u32>) -> Plan {
    let raise = |step: &Step| Step {
        bound: raised(step.bound, loss),
        ..step.clone()
    };
    Plan {
        claim: raised(plan.claim, loss),
        assignment: plan.assignment.clone(),
        steps: plan.steps.iter().map(raise).collect(),
    }
}

/// The plans of a problem in every way, some of them of a search that stops early.
fn plans(problem: &Problem) -> Vec<Option<Plan>> {
    let mut plans = vec![Some(tree::plan(problem))];
    for bounds in [Bounds::Independent, Bounds::Weights] {
        plans.push(plan_by(problem, bounds, u64::MAX).0);
        plans.extend([1, 2, 5, 12].map(|steps| plan_in(problem, bounds, steps)));
    }
    plans
}

/// The search goes the same way, so that the same literals and reasons bear the plan out.
#[test]
fn plans_are_those_without_a_loss_and_that_much_dearer() {
    let mut random = Random::new(70);
    let mut met = [0; 3];
    for _ in 0..150 {
        let plain = some_problem(&mut random);
        let without = plans(&plain);
        for loss in LOSSES {
            let marked = with_loss(&plain, loss);
            for (plan, without) in plans(&marked).into_iter().zip(&without) {
                let wanted = without.as_ref().map(|plan| dearer(plan, loss));
                assert_eq!(plan, wanted, "{marked:?}");
                met[match plan.map(|plan| plan.claim) {
                    Some(NONE) => 0,
                    Some(_) => 1,
                    None => 2,
                }] += 1;
            }
        }
    }
    println!("none, a cost, no plan: {met:?}");
    assert!(met.iter().all(|count| *count > 100), "{met:?}");
}

#[test]
fn plans_of_marked_sheets_are_accepted() {
    let mut random = Random::new(71);
    for _ in 0..150 {
        let plain = some_problem(&mut random);
        for loss in LOSSES {
            let problem = with_loss(&plain, loss);
            let [all, few] = [tree::plan, planner::search::plan].map(|plan| plan(&problem));
            assert_eq!(all.claim, few.claim, "{problem:?}");
            let records = [all, few].map(|plan| plan.record());
            assert!(records.iter().all(|record| accepted(&problem, record)));
        }
    }
}

/// As many variables as there may be, all of them true, and each of them and the loss as dear as can be.
#[test]
fn the_largest_costs_and_the_largest_loss_are_planned() {
    let every = (1..=MOST_VARIABLES).map(|variable| vec![Literal::positive(variable)]);
    let problem = Problem {
        loss: Some(u32::MAX),
        costs: vec![u32::MAX; MOST_VARIABLES],
        clauses: every.collect(),
    };
    let plan = planner::search::plan(&problem);
    assert_eq!(plan.claim, 1_025 * u64::from(u32::MAX));
    assert!(accepted(&problem, &plan.record()));
}

/// The steps that pad records are drawn alike, whatever the loss.
#[test]
fn padding_is_drawn_alike_and_has_the_loss() {
    let mut random = Random::new(72);
    for _ in 0..20 {
        let plain = some_problem(&mut random);
        for loss in LOSSES {
            let marked = with_loss(&plain, loss);
            let [mut of_plain, mut of_marked] =
                [&plain, &marked].map(|p| Padding::new(p, Random::new(9), Mix::Mixed));
            for number in 1..=200 {
                let (step, with) = (of_plain.step(), of_marked.step());
                of_plain.remember(number, &step);
                of_marked.remember(number, &with);
                let bound = raised(step.bound, loss);
                assert_eq!(with, Step { bound, ..step });
            }
        }
    }
}
