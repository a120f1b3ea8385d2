//! What weights (kind 5) save the search beside independent clauses (kind 3) alone: a table, over random covering problems.
//!
//!     cargo run --release -p planner --example savings [VARIABLES]
//!
//! All of it takes about a minute; with a number, only problems of up to so many variables are planned. Each record is judged
//! by the reference checker.

#[path = "../tests/common/mod.rs"]
mod common;

use common::{accepted, problem, Shape};
use planner::random::Random;
use planner::search::{plan_by, Bounds};
use planner::Problem;
use std::time::Instant;

/// How many problems there are of each shape.
const SEEDS: u64 = 8;

/// After how many conflicts a search is cut off.
const CONFLICTS: u64 = 30_000;

const SIZES: [usize; 5] = [30, 40, 60, 80, 100];

/// What clauses look like: from how many literals to how many, how many of 100 are positive, and how many clauses there are
/// for each size, so that most searches end within a second.
struct Form {
    lengths: [usize; 2],
    positive: usize,
    clauses: [usize; SIZES.len()],
}

const POSITIVE: Form = Form {
    lengths: [3, 5],
    positive: 100,
    clauses: [90, 100, 90, 85, 85],
};
const MOSTLY_POSITIVE: Form = Form {
    lengths: [3, 5],
    positive: 85,
    clauses: [90, 120, 120, 120, 125],
};
const MIXED: Form = Form {
    lengths: [3, 4],
    positive: 60,
    clauses: [120, 160, 180, 160, 180],
};
const PAIRS: Form = Form {
    lengths: [2, 2],
    positive: 90,
    clauses: [60, 80, 120, 160, 200],
};

/// Forms with their greatest costs; the least is 1.
const FAMILIES: [(Form, usize); 10] = [
    (POSITIVE, 1),
    (MOSTLY_POSITIVE, 1),
    (MIXED, 1),
    (POSITIVE, 9),
    (PAIRS, 9),
    (MOSTLY_POSITIVE, 99),
    (MIXED, 99),
    (POSITIVE, 9_999),
    (POSITIVE, 300_000),
    (POSITIVE, u32::MAX as usize),
];

/// What searches took and wrote, added up.
#[derive(Clone, Copy, Default)]
struct Figures {
    nodes: f64,
    steps: f64,
    linear: f64,
    bytes: f64,
    milliseconds: f64,
}

impl Figures {
    fn add(&mut self, other: &Figures) {
        self.nodes += other.nodes;
        self.steps += other.steps;
        self.linear += other.linear;
        self.bytes += other.bytes;
        self.milliseconds += other.milliseconds;
    }
}

/// One search; nothing where it was cut off.
fn searched(problem: &Problem, bounds: Bounds) -> Option<(u64, Figures)> {
    let start = Instant::now();
    let (plan, effort) = plan_by(problem, bounds, CONFLICTS);
    let milliseconds = start.elapsed().as_secs_f64() * 1000.0;
    let plan = plan?;
    assert!(accepted(problem, &plan.record()));
    let linear = plan.steps.iter().filter(|step| step.reason.kind() == 5);
    let figures = Figures {
        nodes: effort.nodes as f64,
        steps: plan.steps.len() as f64,
        linear: linear.count() as f64,
        bytes: plan.record().len() as f64,
        milliseconds,
    };
    Some((plan.claim, figures))
}

/// The line of one shape. Where a search was cut off, its problem counts in no other column.
fn line(shape: &Shape) -> String {
    let (mut cut, mut more) = ([0, 0], 0);
    let (mut without, mut with) = (Figures::default(), Figures::default());
    for seed in 1..=SEEDS {
        let problem = problem(shape, &mut Random::new(seed));
        let plain = searched(&problem, Bounds::Independent);
        let weighted = searched(&problem, Bounds::Weights);
        cut[0] += u32::from(plain.is_none());
        cut[1] += u32::from(weighted.is_none());
        let (Some(plain), Some(weighted)) = (plain, weighted) else {
            continue;
        };
        assert_eq!(plain.0, weighted.0, "the least cost is one");
        more += u32::from(weighted.1.nodes > plain.1.nodes);
        without.add(&plain.1);
        with.add(&weighted.1);
    }
    [
        described(shape),
        format!("{}, {}", cut[0], cut[1]),
        compared(without.nodes, with.nodes),
        more.to_string(),
        compared(without.steps, with.steps),
        with.linear.to_string(),
        compared(without.bytes / 1000.0, with.bytes / 1000.0),
        compared(without.milliseconds, with.milliseconds),
    ]
    .join(" | ")
}

fn described(shape: &Shape) -> String {
    let [fewest, most] = shape.lengths;
    format!(
        "{} % positive, {fewest} to {most} literals, costs to {} | {} | {}",
        shape.positive, shape.dearest, shape.variables, shape.clauses
    )
}

fn compared(without: f64, with: f64) -> String {
    format!("{without:.0} | {with:.0} | {:.0} %", 100.0 * with / without)
}

fn main() {
    let given = std::env::args().nth(1);
    let most = given.map_or(usize::MAX, |text| {
        text.parse().expect("a number of variables")
    });
    println!("{SEEDS} problems in each line, cut off after {CONFLICTS} conflicts.");
    println!(
        "3: independent clauses alone. 5: weights too. More nodes: problems where 5 took more.\n"
    );
    println!(
        "| problems | variables | clauses | cut off 3, 5 | nodes 3 | nodes 5 | | more nodes | \
         steps 3 | steps 5 | | of kind 5 | kB 3 | kB 5 | | ms 3 | ms 5 | |"
    );
    println!("|{}", "---|".repeat(18));
    for (form, dearest) in FAMILIES {
        for (variables, clauses) in SIZES.into_iter().zip(form.clauses) {
            let shape = Shape {
                variables,
                clauses,
                lengths: form.lengths,
                positive: form.positive,
                dearest,
            };
            if variables <= most {
                println!("| {} |", line(&shape));
            }
        }
    }
}
