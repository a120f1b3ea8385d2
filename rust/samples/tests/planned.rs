//! What the planner writes is accepted, and brute force agrees on the least cost.

use planner::{format, search, tree, Literal, Plan, Problem, NONE};
use samples::random::Random;
use samples::sheets::{self, Costs, Shape};

/// Judges a plan and expects exactly what it claims.
fn accepted(problem: &Problem, plan: &Plan) {
    let (sheet, record) = (format::sheet(problem), plan.record());
    let answer = reference::judge(&sheet, &record);
    let open = plan.assignment.iter().filter(|value| **value).count() as u64;
    let expected = reference::Answer {
        number: 0,
        place: 0,
        cost: plan.claim,
        open_count: open,
        step_count: plan.steps.len() as u64,
        gap: 0,
    };
    assert_eq!(answer, expected, "{problem:?}");
    assert!(answer.accepts());
}

#[test]
fn small_sheets_planned_both_ways() {
    let seed = 2_026;
    println!("seed {seed}");
    let mut random = Random::new(seed);
    let (mut sheets, mut none) = (0, 0);
    while sheets < 4_000 {
        let problem = sheets::small(&mut random);
        if problem.variables() > 10 {
            continue;
        }
        sheets += 1;
        let least = reference::brute::least_cost(&format::sheet(&problem)).unwrap_or(NONE);
        none += u32::from(least == NONE);
        for plan in [tree::plan(&problem), search::plan(&problem)] {
            assert_eq!(plan.claim, least, "{problem:?}");
            accepted(&problem, &plan);
        }
    }
    println!("{sheets} sheets, {none} of them without a satisfying assignment");
    assert!(none > 100 && none < 3_000);
}

#[test]
fn sheets_of_up_to_sixteen_variables_planned_by_search() {
    let mut random = Random::new(16);
    for _ in 0..150 {
        let (variables, clauses) = (random.between(11, 16), random.between(10, 60));
        let positive = random.between(50, 100);
        let (shortest, longest, costs) = (2, 4, Costs::Any);
        let shape = Shape {
            variables,
            clauses,
            shortest,
            longest,
            positive,
            costs,
        };
        let problem = sheets::problem(&shape, &mut random);
        let plan = search::plan(&problem);
        let least = reference::brute::least_cost(&format::sheet(&problem));
        assert_eq!(plan.claim, least.unwrap_or(NONE));
        accepted(&problem, &plan);
    }
}

#[test]
fn eight_clauses_of_the_source_document() {
    let clauses: [&[i32]; 8] = [
        &[2, 4],
        &[2, -5],
        &[4, -5],
        &[5, 6],
        &[1, 3, -6],
        &[-1, 3, -6],
        &[2, 3, 5, -6],
        &[2, -3, 5, -6],
    ];
    let read = |literal: &i32| Literal::new(literal.unsigned_abs() as usize, *literal > 0);
    let clauses = clauses
        .iter()
        .map(|clause| clause.iter().map(read).collect())
        .collect();
    let problem = Problem {
        loss: None,
        costs: (1..=6).collect(),
        clauses,
    };
    for plan in [tree::plan(&problem), search::plan(&problem)] {
        let answer = reference::judge(&format::sheet(&problem), &plan.record());
        let line = reference::line(&answer);
        assert_eq!(
            line.trim_end(),
            format!("least 11 open 3 steps {}", plan.steps.len())
        );
        println!("{}", line.trim_end());
    }
}

/// Plans a sheet of this shape, prints its figures and has it judged.
fn larger(shape: Shape, random: &mut Random) {
    let problem = sheets::problem(&shape, random);
    let started = std::time::Instant::now();
    let plan = search::plan(&problem);
    let (spent, steps) = (started.elapsed(), plan.steps.len());
    let (variables, clauses) = (shape.variables, shape.clauses);
    println!("{variables} variables, {clauses} clauses: {steps} steps, {spent:.1?}");
    accepted(&problem, &plan);
}

#[test]
fn larger_sheets_planned_by_search() {
    let mut random = Random::new(60);
    for variables in (20..=60).step_by(5) {
        for clauses in [variables, 2 * variables, 3 * variables, 4 * variables] {
            let (positive, costs) = (random.between(50, 80), Costs::Small);
            let (shortest, longest) = (random.between(2, 3), random.between(3, 5));
            let shape = Shape {
                variables,
                clauses,
                shortest,
                longest,
                positive,
                costs,
            };
            larger(shape, &mut random);
        }
    }
}

#[test]
fn widest_sheets_planned_by_search() {
    let mut random = Random::new(1_024);
    for (clauses, positive) in [(60, 50), (200, 50), (400, 40), (1_000, 30)] {
        let (variables, shortest, longest, costs) = (1_024, 3, 3, Costs::Small);
        let shape = Shape {
            variables,
            clauses,
            shortest,
            longest,
            positive,
            costs,
        };
        larger(shape, &mut random);
    }
}
