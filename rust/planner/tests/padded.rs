//! Records of a wanted size are accepted, and have the steps that were asked for.

mod common;

use common::{accepted, problem, Shape, LOSSES};
use planner::bounds::{linear_total, remainders};
use planner::padding::{Kind, Mix, Padding};
use planner::random::Random;
use planner::{long, search, Problem, Reason, Step};

fn sheet(variables: usize, clauses: usize, lengths: [usize; 2], dearest: usize) -> Problem {
    let shape = Shape {
        variables,
        clauses,
        lengths,
        positive: 60,
        dearest,
    };
    problem(&shape, &mut Random::new(variables as u64))
}

fn roomy() -> Problem {
    sheet(200, 150, [3, 6], u32::MAX as usize)
}

fn lengthy() -> Problem {
    sheet(1_000, 200, [20, 40], u32::MAX as usize)
}

/// So many steps, each remembered as if a record had it.
fn padded(problem: &Problem, mix: Mix, count: u32) -> Vec<Step> {
    let mut padding = Padding::new(problem, Random::new(9), mix);
    let mut steps = Vec::new();
    for number in 1..=count {
        let step = padding.step();
        padding.remember(number, &step);
        steps.push(step);
    }
    steps
}

fn of_kind(steps: &[Step], kind: u8) -> Vec<&Step> {
    let held = steps.iter().filter(|step| step.reason.kind() == kind);
    held.collect()
}

#[test]
fn records_of_every_mix_are_accepted() {
    let (short, long_clauses) = (roomy(), lengthy());
    let mixes = [
        (&short, Mix::Mixed),
        (&short, Mix::Resolution),
        (&long_clauses, Mix::Long),
        (&long_clauses, Mix::LongOf(Kind::Independent)),
        (&long_clauses, Mix::LongOf(Kind::Linear)),
    ];
    for (problem, mix) in mixes {
        for loss in [None, Some(u32::MAX)] {
            let problem = Problem {
                loss,
                ..problem.clone()
            };
            let plan = search::plan(&problem);
            let record = long::record(&problem, &plan, 3, 300_000, mix);
            assert!((300_000..301_000).contains(&record.len()), "{mix:?}");
            assert!(accepted(&problem, &record), "{mix:?}, {loss:?}");
        }
    }
}

#[test]
fn mixed_records_of_small_sheets_are_accepted() {
    let mut random = Random::new(4);
    for round in 0..200 {
        let dearest = [1, 9, u32::MAX as usize][round % 3];
        let mut problem = sheet(
            random.between(4, 12),
            random.between(1, 20),
            [1, 4],
            dearest,
        );
        problem.loss = LOSSES[round / 2 % 4];
        if round % 2 == 0 {
            problem.costs[0] = 0;
        }
        let plan = search::plan(&problem);
        let record = long::record(&problem, &plan, round as u64, 3_000, Mix::Mixed);
        assert!(accepted(&problem, &record), "{problem:?}");
    }
}

/// A quarter of the variables cost nothing, as in the benchmark's sheets: only there are remainders below zero.
fn mixed_steps() -> (Problem, Vec<Step>) {
    let mut problem = roomy();
    problem
        .costs
        .iter_mut()
        .step_by(4)
        .for_each(|cost| *cost = 0);
    let steps = padded(&problem, Mix::Mixed, 20_000);
    (problem, steps)
}

#[test]
fn mixed_records_have_as_many_steps_of_kind_5_as_of_kind_3_and_as_long() {
    let (_, steps) = mixed_steps();
    let both = [of_kind(&steps, 3), of_kind(&steps, 5)];
    let literals = |steps: &Vec<&Step>| steps.iter().map(|step| step.literals.len()).sum::<usize>();
    let counts = both.each_ref().map(|steps| steps.len() as f64);
    let means = both
        .each_ref()
        .map(|steps| literals(steps) as f64 / steps.len() as f64);
    println!("of kinds 3 and 5: {counts:?} steps with {means:.1?} literals");
    assert!((0.9..1.1).contains(&(counts[1] / counts[0])));
    assert!((0.9..1.1).contains(&(means[1] / means[0])));
}

#[test]
fn mixed_records_have_steps_of_kind_5_of_every_sort() {
    let (problem, steps) = mixed_steps();
    let linear = of_kind(&steps, 5);
    let mut sorts = [0; 6];
    for step in &linear {
        let Reason::Linear { divisor, weights } = &step.reason else {
            continue;
        };
        let left = remainders(&problem, *divisor, weights);
        let total = linear_total(&problem, &step.literals, *divisor, weights);
        let met = [
            *divisor > 1,
            total <= 0,
            total > 0 && total % i64::from(*divisor) != 0,
            left.iter().any(|left| *left < 0),
            weights.len() > 1,
            weights.iter().any(|entry| entry.1 > 999),
        ];
        let counted = sorts.iter_mut().zip(met);
        counted.for_each(|(count, met)| *count += usize::from(met));
    }
    println!("divisor above 1, total not positive, rounded, remainder below 0, two weights, a large one: {sorts:?}");
    assert!(
        sorts.iter().all(|count| count * 25 > linear.len()),
        "{sorts:?}"
    );
}

#[test]
fn long_steps_of_kind_5_are_all_of_that_kind_and_length() {
    let problem = lengthy();
    let steps = padded(&problem, Mix::LongOf(Kind::Linear), 5_000);
    assert_eq!(of_kind(&steps, 5).len(), steps.len());
    let lengths = || steps.iter().map(|step| step.literals.len());
    assert_eq!((lengths().min(), lengths().max()), (Some(20), Some(40)));
    let independent = padded(&problem, Mix::LongOf(Kind::Independent), 5_000);
    println!(
        "mean bytes {:?}",
        [&steps, &independent].map(|steps| mean_bytes(steps))
    );
}

fn mean_bytes(steps: &[Step]) -> usize {
    let bodies = steps
        .iter()
        .map(|step| planner::format::step_body(step).len());
    bodies.sum::<usize>() / steps.len()
}

#[test]
fn long_records_of_the_first_four_kinds_have_none_of_kind_5() {
    let long_mixes = [Mix::Long, Mix::LongOf(Kind::Resolution)];
    for mix in long_mixes {
        assert!(of_kind(&padded(&lengthy(), mix, 2_000), 5).is_empty());
    }
    assert!(of_kind(&padded(&roomy(), Mix::Resolution, 2_000), 5).is_empty());
}
