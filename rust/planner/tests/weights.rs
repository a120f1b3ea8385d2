//! Weighted clauses (kind 5): their bound, the steps that the search writes with them, and what these save.

mod common;

use common::{accepted, clause, problem, Shape, LOSSES};
use planner::bounds::{cost_bound, linear_bound, linear_total};
use planner::random::Random;
use planner::search::{plan_by, plan_within, Bounds};
use planner::{search, Literal, Plan, Problem, Reason, Step, NONE};

fn shape(variables: usize, clauses: usize, positive: usize, dearest: usize) -> Shape {
    Shape {
        variables,
        clauses,
        lengths: [3, 4],
        positive,
        dearest,
    }
}

/// The sheets that both kinds of bound are compared on.
fn family() -> impl Iterator<Item = Problem> {
    let shapes = [
        shape(12, 24, 100, 1),
        shape(16, 40, 80, 1),
        shape(20, 50, 60, 9),
        shape(24, 60, 85, 99),
        shape(30, 60, 100, 9),
        shape(30, 75, 70, 1),
        shape(40, 70, 90, 9_999),
    ];
    let mut random = Random::new(5);
    let drawn = shapes.into_iter().cycle().take(20 * shapes.len());
    drawn.map(move |shape| problem(&shape, &mut random))
}

fn planned(problem: &Problem, bounds: Bounds) -> (Plan, u64) {
    let (plan, effort) = plan_by(problem, bounds, u64::MAX);
    (plan.expect("no limit was set"), effort.nodes)
}

fn linear_steps(plan: &Plan) -> impl Iterator<Item = (&Step, u16, &[(u32, u16)])> {
    plan.steps.iter().filter_map(|step| match &step.reason {
        Reason::Linear { divisor, weights } => Some((step, *divisor, weights.as_slice())),
        _ => None,
    })
}

#[test]
fn the_source_documents_third_example_has_bound_eleven() {
    let problem = Problem {
        loss: None,
        costs: (1..=6).collect(),
        clauses: vec![
            clause(&[1, 3, 5]),
            clause(&[2, 4, 5, -6]),
            clause(&[-1, -2]),
        ],
    };
    let weights = [(1, 3), (2, 4), (3, 2)];
    let bound =
        |literals: &[i32], divisor| linear_bound(&problem, &clause(literals), divisor, &weights);
    assert_eq!(bound(&[5, -6], 1), 11);
    // The remainder of variable 5 is -2, and 10 is that of variable 6.
    assert_eq!([bound(&[-6], 1), bound(&[5], 1), bound(&[], 1)], [9, 1, 0]);
    // Over 2, variable 6 has 16 left and variable 1 has 1: the totals are 17 and 18.
    assert_eq!([bound(&[5, -6], 2), bound(&[-1, 5, -6], 2)], [9, 9]);
}

/// The sum of the clauses as linear constraints under one assignment: what the cost, times the divisor, is above it. Of the
/// cost the standing loss is left out, which comes to the bound alone.
fn sum_under(problem: &Problem, values: &[bool], divisor: u16, weights: &[(u32, u16)]) -> i128 {
    let paid = problem.cost(values) - problem.standing_loss();
    let mut sum = i128::from(divisor) * i128::from(paid);
    for (number, weight) in weights {
        let held = problem.clauses[*number as usize - 1].iter();
        let satisfied = held.filter(|literal| literal.is_true(values)).count();
        sum -= i128::from(*weight) * (satisfied as i128 - 1);
    }
    sum
}

/// A third of the variables in positive literals, a third in negative ones.
fn some_literals(variables: usize, random: &mut Random) -> Vec<Literal> {
    let mut literals = Vec::new();
    for variable in 1..=variables {
        match random.below(3) {
            0 => literals.push(Literal::positive(variable)),
            1 => literals.push(Literal::negative(variable)),
            _ => {}
        }
    }
    literals
}

fn assignments(variables: usize) -> impl Iterator<Item = Vec<bool>> {
    let values = move |bits: u32| (0..variables).map(|at| bits >> at & 1 == 1).collect();
    (0..1 << variables).map(values)
}

#[test]
fn the_total_is_the_least_sum_over_all_assignments_that_falsify_the_literals() {
    let mut random = Random::new(50);
    let mut signs = [0, 0];
    for round in 0..3_000 {
        let variables = random.between(4, 7);
        let dearest = [1, 9, u32::MAX as usize][random.below(3)];
        let mut problem = problem(&shape(variables, 6, 60, dearest), &mut random);
        problem.loss = LOSSES[round % 4];
        let most = [9, 65_535][random.below(2)];
        let divisor = random.between(1, most) as u16;
        let weights: Vec<(u32, u16)> = (1..=6)
            .filter(|number| number % 2 == 0 || dearest > 1)
            .map(|number| (number, random.between(1, most) as u16))
            .collect();
        let literals = some_literals(variables, &mut random);
        let least = assignments(variables)
            .filter(|values| !literals.iter().any(|literal| literal.is_true(values)))
            .map(|values| sum_under(&problem, &values, divisor, &weights))
            .min();
        let total = i128::from(linear_total(&problem, &literals, divisor, &weights));
        assert_eq!(Some(total), least, "{problem:?}");
        let bound = linear_bound(&problem, &literals, divisor, &weights);
        let bound = i128::from(bound - problem.standing_loss());
        let reached = |bound| total <= i128::from(divisor) * bound;
        assert!(reached(bound) && (bound == 0 || !reached(bound - 1)));
        signs[usize::from(total > 0)] += 1;
    }
    assert!(signs.iter().all(|count| *count > 300), "{signs:?}");
}

#[test]
fn plans_with_weights_are_accepted_and_end_at_the_same_cost() {
    let (mut linear, mut fractions) = (0, 0);
    for problem in family() {
        let (plain, _) = planned(&problem, Bounds::Independent);
        let (weighted, _) = planned(&problem, Bounds::Weights);
        assert_eq!(plain.claim, weighted.claim, "{problem:?}");
        assert!(accepted(&problem, &plain.record()) && accepted(&problem, &weighted.record()));
        assert_eq!(linear_steps(&plain).count(), 0);
        linear += linear_steps(&weighted).count();
        fractions += linear_steps(&weighted)
            .filter(|(_, divisor, _)| *divisor > 1)
            .count();
        assert_eq!(search::plan(&problem), weighted, "weights are the default");
        assert_eq!(plan_within(&problem, u64::MAX), Some(weighted));
    }
    println!("{linear} steps of kind 5, {fractions} of them with a divisor above 1");
    assert!(linear > 500 && fractions > 100 && linear > fractions);
}

/// A step of kind 5 is written where it reaches the least cost, no literal could be left out, and the cost of its true
/// variables alone falls short.
#[test]
fn steps_of_kind_5_are_by_the_rule_and_no_longer_than_they_need() {
    for problem in family() {
        let (plan, _) = planned(&problem, Bounds::Weights);
        for (step, divisor, weights) in linear_steps(&plan) {
            let bound = |literals: &[Literal]| linear_bound(&problem, literals, divisor, weights);
            assert_eq!(step.bound, bound(&step.literals));
            assert!(step.bound >= plan.claim);
            assert!(cost_bound(&problem, &step.literals) < step.bound);
            assert!(weights.is_sorted_by(|a, b| a.0 < b.0));
            assert!(divisor > 0 && !weights.is_empty() && weights.iter().all(|entry| entry.1 > 0));
            for left_out in 0..step.literals.len() {
                let mut fewer = step.literals.clone();
                fewer.remove(left_out);
                assert!(bound(&fewer) < step.bound, "{step:?}");
            }
        }
    }
}

/// Not on every sheet: what is learned decides where the search goes next, and that may be the worse way.
#[test]
fn weights_take_fewer_nodes_and_steps() {
    let (mut sheets, mut more, mut nodes, mut steps) = (0, 0, [0, 0], [0, 0]);
    for problem in family() {
        let both = [Bounds::Independent, Bounds::Weights].map(|bounds| planned(&problem, bounds));
        for (place, (plan, looked_at)) in both.iter().enumerate() {
            nodes[place] += looked_at;
            steps[place] += plan.steps.len();
        }
        sheets += 1;
        more += u32::from(both[1].1 > both[0].1);
    }
    println!("{sheets} sheets: {nodes:?} nodes, {steps:?} steps; {more} sheets with more nodes");
    assert!(2 * nodes[1] < nodes[0] && 2 * steps[1] < steps[0]);
    assert!(20 * more < sheets);
}

/// Weights of 2 bytes do not reach costs of 4, and where they reach some of them, they are as good as any.
#[test]
fn large_costs_fall_back_on_independent_clauses() {
    let mut random = Random::new(32);
    let mut linear = 0;
    for round in 0..60 {
        let dearest = [u32::MAX as usize, 100_000, 65_536][round % 3];
        let mut problem = problem(&shape(20, 40, 90, dearest), &mut random);
        problem.loss = LOSSES[round % 4];
        if dearest > 1 << 31 {
            problem.costs.iter_mut().for_each(|cost| *cost |= 1 << 31);
        }
        let (plan, _) = planned(&problem, Bounds::Weights);
        assert!(accepted(&problem, &plan.record()));
        let (plain, _) = planned(&problem, Bounds::Independent);
        assert_eq!(plan.claim, plain.claim);
        if dearest > 1 << 31 {
            assert_eq!(plan, plain);
        } else {
            linear += linear_steps(&plan).count();
        }
    }
    assert!(linear > 0, "weights reach costs of 100,000 here and there");
}

#[test]
fn variables_without_a_cost_and_sheets_without_an_assignment_are_planned_too() {
    let mut random = Random::new(0);
    let mut none = 0;
    for round in 0..300 {
        let (variables, positive) = (random.between(4, 10), random.between(20, 90));
        let mut problem = problem(&shape(variables, 8 * variables, positive, 3), &mut random);
        problem.loss = LOSSES[round % 4];
        problem.costs.iter_mut().for_each(|cost| *cost -= 1);
        let (plan, _) = planned(&problem, Bounds::Weights);
        assert!(accepted(&problem, &plan.record()), "{problem:?}");
        none += u32::from(plan.claim == NONE);
    }
    assert!(none > 10);
}
