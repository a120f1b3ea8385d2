//! Kind 5 in the fast checker, both ways of it, beside the rule as docs/FORMATS.md words it: each variable's remainder on its
//! own, in wide integers, with nothing kept from step to step.

use bench::{judge, Marks, Merge};
use planner::format::{literal_bytes, record_from, sheet, Bodies};
use planner::random::Random;
use planner::{Literal, Problem, MOST_CLAUSES, MOST_VARIABLES, NONE};
use samples::sheets::some_loss;

const STEP_FORM: u64 = 8;
const CITATION: u64 = 9;
const CLOSE: u64 = 19;
const WEIGHTS: u64 = 23;
const LINEAR_BOUND: u64 = 24;

/// A step of kind 5 without its bound.
#[derive(Clone, Debug, Default)]
struct Step {
    literals: Vec<Literal>,
    divisor: u16,
    cited: Vec<(u32, u16)>,
}

impl Step {
    fn tail(&self) -> Vec<u8> {
        let mut tail = self.divisor.to_le_bytes().to_vec();
        for (clause, weight) in &self.cited {
            tail.extend(clause.to_le_bytes());
            tail.extend(weight.to_le_bytes());
        }
        tail
    }

    fn body(&self, bound: u64) -> Vec<u8> {
        body(&literal_bytes(&self.literals), bound, &self.tail())
    }
}

fn body(literals: &[u8], bound: u64, tail: &[u8]) -> Vec<u8> {
    let mut body = vec![5, 0];
    body.extend((literals.len() as u16 / 2).to_le_bytes());
    body.extend(bound.to_le_bytes());
    body.extend(literals);
    body.extend(tail);
    body
}

/// The bound that the rule gives.
fn bound(problem: &Problem, step: &Step) -> u64 {
    let cited = || {
        let clause = |number: u32| &problem.clauses[number as usize - 1];
        let entries = step.cited.iter();
        entries.map(move |(number, weight)| (clause(*number), i128::from(*weight)))
    };
    let negatives = |clause: &[Literal]| clause.iter().filter(|l| !l.is_positive()).count();
    let constants = cited().map(|(clause, weight)| weight * (1 - negatives(clause) as i128));
    let mut total: i128 = constants.sum();
    for variable in 1..=problem.variables() {
        let (up, down) = (Literal::positive(variable), Literal::negative(variable));
        let weight_of = |literal| {
            let holding = cited().filter(|(clause, _)| clause.contains(&literal));
            holding.map(|(_, weight)| weight).sum::<i128>()
        };
        let cost = i128::from(step.divisor) * i128::from(problem.cost_of(up));
        let remainder = cost - weight_of(up) + weight_of(down);
        total += match (step.literals.contains(&up), step.literals.contains(&down)) {
            (true, _) => 0,
            (_, true) => remainder,
            _ => remainder.min(0),
        };
    }
    with_loss(problem, total, step.divisor)
}

/// The total divided and rounded up, and then the standing loss.
fn with_loss(problem: &Problem, total: i128, divisor: u16) -> u64 {
    let rounded = (total.max(0) as u128).div_ceil(divisor.into());
    problem.standing_loss() + rounded as u64
}

/// What both ways say of a record that claims "none": no step of kind 5 closes it, so that 19 tells that all steps passed.
fn told(problem: &Problem, bodies: &[Vec<u8>]) -> (u64, u64) {
    let assignment = vec![0; problem.variables().div_ceil(8)];
    let bodies: Bodies = bodies.iter().collect();
    let (sheet, record) = (sheet(problem), record_from(NONE, &assignment, &bodies));
    let answer = judge::<Merge>(&sheet, &record);
    assert_eq!(judge::<Marks>(&sheet, &record), answer);
    (answer.number, answer.place)
}

fn literals(random: &mut Random, variables: usize, share: usize, positive: usize) -> Vec<Literal> {
    let drawn = (1..=variables).filter_map(|variable| {
        let literal = Literal::new(variable, random.percent(positive));
        random.percent(share).then_some(literal)
    });
    drawn.collect()
}

fn problem(random: &mut Random) -> Problem {
    let variables = match random.below(8) {
        0 => random.between(30, 60),
        1 => MOST_VARIABLES,
        _ => random.between(1, 10),
    };
    let any = [1, 4, 20, 1 << 20, u32::MAX][random.below(5)];
    let cost = |random: &mut Random| random.below(any as usize + 1) as u32;
    let costs = (0..variables).map(|_| cost(random)).collect();
    let share = [3, 20, 50, 90, 100][random.below(5)];
    let positive = [0, 30, 50, 80, 100][random.below(5)];
    let count = random.between(1, 12);
    let clauses = (0..count).map(|_| literals(random, variables, share, positive));
    let clauses = clauses.collect();
    Problem {
        loss: some_loss(random),
        costs,
        clauses,
    }
}

fn step(random: &mut Random, problem: &Problem) -> Step {
    let (share, positive) = ([0, 10, 30, 60][random.below(4)], random.below(101));
    let greatest = [1, 3, 30, 65_535][random.below(4)];
    let most = [1, 3, 65_535][random.below(3)];
    let divisor = random.between(1, most) as u16;
    let mut cited: Vec<(u32, u16)> = Vec::new();
    while cited.is_empty() {
        let taken = (1..=problem.clauses.len()).filter(|_| random.percent(50));
        let taken: Vec<usize> = taken.collect();
        let weigh = |number| (number as u32, random.between(1, greatest) as u16);
        cited = taken.into_iter().map(weigh).collect();
    }
    let literals = literals(random, problem.variables(), share, positive);
    Step {
        literals,
        divisor,
        cited,
    }
}

#[test]
fn the_bound_is_that_of_the_rule() {
    let mut random = Random::new(17);
    let (mut positive, mut lossy) = (0, 0);
    for _ in 0..1_500 {
        let problem = problem(&mut random);
        let count = random.between(1, 8);
        let steps: Vec<Step> = (0..count).map(|_| step(&mut random, &problem)).collect();
        let bounds: Vec<u64> = steps.iter().map(|step| bound(&problem, step)).collect();
        let both = steps.iter().zip(&bounds);
        let mut bodies: Vec<_> = both.map(|(step, bound)| step.body(*bound)).collect();
        let loss = problem.standing_loss();
        positive += bounds.iter().filter(|bound| **bound > loss).count();
        lossy += usize::from(loss > 0);
        assert_eq!(told(&problem, &bodies), (CLOSE, count as u64), "{steps:?}");
        let at = random.below(count);
        for wrong in [
            bounds[at].wrapping_add(1),
            bounds[at].wrapping_sub(1),
            bounds[at] ^ 1 << random.below(64),
            NONE,
        ] {
            bodies[at] = steps[at].body(wrong);
            assert_eq!(told(&problem, &bodies), (LINEAR_BOUND, at as u64 + 1));
        }
    }
    assert!(positive > 1_000, "only {positive} bounds above the loss");
    assert!(lossy > 300, "only {lossy} sheets with a loss above 0");
}

/// 001's example 3.
fn example() -> (Problem, Step) {
    let list = |codes: &[u16]| {
        let literals = codes.iter().map(|code| usize::from(*code));
        literals
            .map(|code| Literal::new(code / 2, code % 2 == 0))
            .collect()
    };
    let problem = Problem {
        loss: None,
        costs: (1..=6).collect(),
        clauses: vec![list(&[2, 6, 10]), list(&[4, 8, 10, 13]), list(&[3, 5])],
    };
    let step = Step {
        literals: list(&[10, 13]),
        divisor: 1,
        cited: vec![(1, 3), (2, 4), (3, 2)],
    };
    (problem, step)
}

#[test]
fn example_3_has_the_bound_11() {
    let (problem, step) = example();
    assert_eq!(bound(&problem, &step), 11);
    assert_eq!(told(&problem, &[step.body(11)]), (CLOSE, 1));
    for wrong in [0, 10, 12, NONE] {
        assert_eq!(told(&problem, &[step.body(wrong)]), (LINEAR_BOUND, 1));
    }
}

#[test]
fn a_quotient_is_rounded_up() {
    let (mut problem, mut step) = example();
    step.cited = vec![(1, 9), (2, 5), (3, 1)];
    for divisor in 1..200 {
        step.divisor = divisor;
        problem.loss = [None, Some(0), Some(3), Some(u32::MAX)][usize::from(divisor) % 4];
        let right = bound(&problem, &step);
        assert_eq!(told(&problem, &[step.body(right)]), (CLOSE, 1));
        assert_eq!(told(&problem, &[step.body(right + 1)]), (LINEAR_BOUND, 1));
    }
}

/// Below the loss there is no bound: what is left of it is no number above 0.
#[test]
fn a_bound_has_the_loss() {
    let (mut problem, mut step) = example();
    // The clauses take more from the costs than they bring.
    step.literals.clear();
    step.cited = vec![(1, 900), (2, 900), (3, 900)];
    for loss in [1, 5, u32::MAX] {
        problem.loss = Some(loss);
        let right = u64::from(loss);
        assert_eq!(bound(&problem, &step), right);
        assert_eq!(told(&problem, &[step.body(right)]), (CLOSE, 1));
        for wrong in [0, right - 1, right + 1, 2 * right, NONE] {
            assert_eq!(told(&problem, &[step.body(wrong)]), (LINEAR_BOUND, 1));
        }
    }
}

#[test]
fn a_tail_is_a_divisor_and_whole_entries() {
    let (problem, step) = example();
    let tail = step.tail();
    let literals = literal_bytes(&step.literals);
    for length in (0..tail.len()).filter(|length| *length < 8 || length % 6 != 2) {
        let cut = body(&literals, 11, &tail[..length]);
        assert_eq!(told(&problem, &[cut]), (STEP_FORM, 1), "{length} bytes");
    }
    // Before the citations: clause 4 is not there.
    let mut cited = tail.clone();
    cited[2] = 4;
    for length in (2..cited.len()).filter(|length| length % 6 != 2) {
        let cut = body(&literals, 11, &cited[..length]);
        assert_eq!(told(&problem, &[cut]), (STEP_FORM, 1), "{length} bytes");
    }
    let out_of_order = body(&[13, 0, 10, 0], 11, &cited);
    assert_eq!(told(&problem, &[out_of_order]), (STEP_FORM, 1));
    let unknown = body(&[10, 0, 14, 0], 11, &cited);
    assert_eq!(told(&problem, &[unknown]), (STEP_FORM, 1));
}

#[test]
fn the_refusals_come_in_their_order() {
    let (problem, step) = example();
    let with = |divisor: u16, cited: &[(u32, u16)]| {
        let cited = cited.to_vec();
        let step = Step {
            divisor,
            cited,
            ..step.clone()
        };
        told(&problem, &[step.body(NONE)]).0
    };
    for wrong in [
        &[(0, 3)][..],
        &[(4, 3)],
        &[(0x1_0001, 3)],
        &[(u32::MAX, 3)],
        &[(1, 3), (4, 2)],
        &[(1, 3), (1, 4)],
        &[(2, 3), (1, 4)],
        &[(1, 3), (3, 4), (2, 2)],
    ] {
        assert_eq!(with(1, wrong), CITATION, "{wrong:?}");
        assert_eq!(with(0, wrong), CITATION, "{wrong:?}");
        let mut weightless = wrong.to_vec();
        weightless[0].1 = 0;
        assert_eq!(with(1, &weightless), CITATION, "{weightless:?}");
    }
    assert_eq!(with(0, &[(1, 3), (2, 4)]), WEIGHTS);
    assert_eq!(with(1, &[(1, 0), (2, 4)]), WEIGHTS);
    assert_eq!(with(1, &[(1, 3), (2, 0)]), WEIGHTS);
    assert_eq!(with(256, &[(1, 256), (2, 0x8000)]), LINEAR_BOUND);
}

/// As many variables and clauses as there may be, and every number as great as it may be.
#[test]
fn the_greatest_numbers_fit() {
    let all = |value| (1..=MOST_VARIABLES).map(move |variable| Literal::new(variable, value));
    for (cost, divisor, value) in [
        (u32::MAX, u16::MAX, true),
        (u32::MAX, u16::MAX, false),
        (u32::MAX, 1, false),
        (0, 1, true),
        (0, 1, false),
        (5, u16::MAX, true),
    ] {
        let problem = Problem {
            loss: Some(cost),
            costs: vec![cost; MOST_VARIABLES],
            clauses: vec![all(value).collect(); MOST_CLAUSES],
        };
        let cited: Vec<_> = (1..=MOST_CLAUSES as u32).map(|k| (k, u16::MAX)).collect();
        for literals in [vec![], all(true).collect(), all(false).collect()] {
            let step = Step {
                literals,
                divisor,
                cited: cited.clone(),
            };
            let right = bound_of_equal_clauses(&problem, &step, value);
            let bodies = [step.body(right), step.body(right), step.body(right + 1)];
            assert_eq!(told(&problem, &bodies[..2]), (CLOSE, 2));
            assert_eq!(told(&problem, &bodies), (LINEAR_BOUND, 3));
        }
    }
}

/// The rule where every clause is cited and holds every variable, with the same sign: so all variables have one remainder.
fn bound_of_equal_clauses(problem: &Problem, step: &Step, value: bool) -> u64 {
    let (clauses, variables) = (problem.clauses.len() as i128, problem.variables() as i128);
    let weight = clauses * i128::from(step.cited[0].1);
    let cost = i128::from(step.divisor) * i128::from(problem.costs[0]);
    let (constant, remainder) = match value {
        true => (weight, cost - weight),
        false => (weight * (1 - variables), cost + weight),
    };
    let each = match step.literals.first() {
        None => remainder.min(0),
        Some(literal) if literal.is_positive() => 0,
        Some(_) => remainder,
    };
    with_loss(problem, constant + variables * each, step.divisor)
}
