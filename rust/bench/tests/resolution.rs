//! Kind 4 in the fast checker, both ways of it, beside the rule as docs/FORMATS.md words it: by plain sets of literals, with
//! nothing kept from step to step.

use bench::{judge, Marks, Merge};
use planner::bounds::cost_bound;
use planner::format::{record_from, sheet, step_body, Bodies};
use planner::random::Random;
use planner::{Literal, Problem, Reason, Step, MOST_VARIABLES, NONE};
use samples::sheets::some_loss;
use std::collections::{BTreeMap, BTreeSet};

const PIVOT: u64 = 16;
const RESOLVENT: u64 = 17;
const LESSER_BOUND: u64 = 18;
const CLOSE: u64 = 19;

/// A step that may hold any literals.
fn cost(problem: &Problem, literals: Vec<Literal>) -> Step {
    let bound = cost_bound(problem, &literals);
    Step {
        literals,
        bound,
        reason: Reason::Cost,
    }
}

fn resolution(literals: Vec<Literal>, bound: u64, cited: [u32; 2], pivot: u16) -> Step {
    let [positive, negative] = cited;
    Step {
        literals,
        bound,
        reason: Reason::Resolution {
            positive,
            negative,
            pivot,
        },
    }
}

/// What is left of two premises when each lost its pivot, the lesser of their bounds, and whether the pivots were there.
fn resolvent(steps: &[Step], reason: &Reason) -> (BTreeSet<Literal>, u64, bool) {
    let &Reason::Resolution {
        positive,
        negative,
        pivot,
    } = reason
    else {
        panic!("{reason:?} is no resolution");
    };
    let premise = |number: u32, value: bool| {
        let Step {
            literals, bound, ..
        } = &steps[number as usize - 1];
        let is_pivot =
            |held: &Literal| held.variable() == pivot.into() && held.is_positive() == value;
        let (lost, left): (Vec<_>, Vec<_>) = literals.iter().partition(|held| is_pivot(held));
        (left, *bound, lost.len() == 1)
    };
    let (a, b) = (premise(positive, true), premise(negative, false));
    let rest = a.0.into_iter().chain(b.0).collect();
    (rest, a.1.min(b.1), a.2 && b.2)
}

/// The refusal that the rule gives to a step after these.
fn refusal(steps: &[Step], step: &Step) -> Option<u64> {
    let (rest, lesser, pivots) = resolvent(steps, &step.reason);
    let held = step.literals.iter().copied().collect();
    if !pivots {
        Some(PIVOT)
    } else if !rest.is_subset(&held) {
        Some(RESOLVENT)
    } else {
        (step.bound > lesser).then_some(LESSER_BOUND)
    }
}

/// What both ways say of a record that claims "none". A step that closes nothing ends it, so that 19 there tells that all of
/// these passed.
fn told(problem: &Problem, steps: &[Step]) -> (u64, u64) {
    let assignment = vec![0; problem.variables().div_ceil(8)];
    let last = cost(problem, vec![]);
    let bodies: Bodies = steps.iter().chain([&last]).map(step_body).collect();
    let (sheet, record) = (sheet(problem), record_from(NONE, &assignment, &bodies));
    let answer = judge::<Merge>(&sheet, &record);
    assert_eq!(judge::<Marks>(&sheet, &record), answer, "{steps:?}");
    (answer.number, answer.place)
}

/// The same by the rule, where all steps but the last one are fine.
fn wanted(steps: &[Step]) -> (u64, u64) {
    let count = steps.len() as u64;
    let (last, before) = steps.split_last().expect("a resolution");
    match refusal(before, last) {
        Some(number) => (number, count),
        None => (CLOSE, count + 1),
    }
}

/// How often each answer was given.
#[derive(Default)]
struct Met(BTreeMap<u64, usize>);

impl Met {
    /// Gives the number that both ways and the rule say of the last step.
    fn check(&mut self, problem: &Problem, steps: &[Step]) -> u64 {
        let answer = told(problem, steps);
        assert_eq!(answer, wanted(steps), "{steps:?}");
        *self.0.entry(answer.0).or_default() += 1;
        answer.0
    }

    fn all_met(&self) {
        let met = &self.0;
        for number in [PIVOT, RESOLVENT, LESSER_BOUND, CLOSE] {
            let count = met.get(&number).copied().unwrap_or_default();
            assert!(count > 300, "{number} too seldom: {met:?}");
        }
    }
}

/// All lists of literals of these variables that are in form.
fn lists(variables: usize) -> Vec<Vec<Literal>> {
    let mut lists = vec![vec![]];
    for variable in 1..=variables {
        let with = |value: bool| {
            let literal = Literal::new(variable, value);
            let extend = move |list: &Vec<Literal>| [&list[..], &[literal]].concat();
            lists.iter().map(extend).collect::<Vec<_>>()
        };
        lists = [with(true), with(false), lists].concat();
    }
    lists
}

/// All pairs of one item of each.
fn pairs<'a, A, B>(a: &'a [A], b: &'a [B]) -> impl Iterator<Item = (&'a A, &'a B)> {
    a.iter().flat_map(|a| b.iter().map(move |b| (a, b)))
}

#[test]
fn every_statement_over_three_variables() {
    let problem = Problem {
        loss: None,
        costs: vec![1, 2, 4],
        clauses: vec![],
    };
    let lists = lists(3);
    let mut met = Met::default();
    for (a, b) in pairs(&lists, &lists) {
        let premises = [a, b].map(|literals| cost(&problem, literals.clone()));
        let lesser = premises[0].bound.min(premises[1].bound);
        // Two of the pivots are none of the sheet's.
        for (literals, pivot) in pairs(&lists, &[0, 1, 2, 3, 4]) {
            let state = |bound| resolution(literals.clone(), bound, [1, 2], *pivot);
            let steps = |bound| [&premises[..], &[state(bound)]].concat();
            met.check(&problem, &steps(lesser));
            met.check(&problem, &steps(lesser + 1));
            met.check(&problem, &steps(lesser / 2));
        }
    }
    met.all_met();
}

/// Premises, and statements that follow from two of them.
struct Draft {
    problem: Problem,
    /// The value with which each variable mostly stands, so that lists seldom hold one both ways.
    values: Vec<bool>,
    /// How many of 100 variables a list has.
    share: usize,
    steps: Vec<Step>,
}

impl Draft {
    fn new(random: &mut Random) -> Self {
        let variables = match random.below(8) {
            0 => random.between(30, 60),
            1 => MOST_VARIABLES,
            _ => random.between(1, 12),
        };
        let most = [1, 9, u32::MAX as usize][random.below(3)];
        Draft {
            problem: Problem {
                loss: some_loss(random),
                costs: (0..variables)
                    .map(|_| random.between(0, most) as u32)
                    .collect(),
                clauses: vec![],
            },
            values: (0..variables).map(|_| random.percent(50)).collect(),
            share: [2, 10, 40, 80][random.below(4)],
            steps: vec![],
        }
    }

    /// A premise with the literal: a copy of a clause, whose bound is none, or a cost.
    fn premise(&mut self, random: &mut Random, literal: Literal) -> u32 {
        let mut list = BTreeMap::from([(literal.variable(), literal)]);
        for variable in 1..=self.problem.variables() {
            let value = self.values[variable - 1] ^ random.percent(1);
            if random.percent(self.share) {
                list.entry(variable)
                    .or_insert(Literal::new(variable, value));
            }
        }
        let literals: Vec<Literal> = list.into_values().collect();
        let step = match random.percent(50) {
            true => self.copy(literals),
            false => cost(&self.problem, literals),
        };
        self.steps.push(step);
        self.steps.len() as u32
    }

    fn copy(&mut self, literals: Vec<Literal>) -> Step {
        self.problem.clauses.push(literals.clone());
        let clause = self.problem.clauses.len() as u32;
        Step {
            literals,
            bound: NONE,
            reason: Reason::Copy { clause },
        }
    }

    /// An earlier step with the literal, or a new premise.
    fn cited(&mut self, random: &mut Random, literal: Literal) -> u32 {
        let numbered = (1..).zip(&self.steps);
        let holders = numbered.filter(|(_, step)| step.literals.contains(&literal));
        let holders: Vec<u32> = holders.map(|(number, _)| number).collect();
        match random.pick(&holders) {
            Some(&number) if random.percent(60) => number,
            _ => self.premise(random, literal),
        }
    }

    /// A step with what it needs and, mostly, further literals and a lower bound. It may be one that holds a variable of its
    /// premises one way only, and so is refused.
    fn statement(&mut self, random: &mut Random) -> Step {
        let pivot = random.between(1, self.problem.variables());
        let cited = [true, false].map(|value| self.cited(random, Literal::new(pivot, value)));
        let mut step = resolution(vec![], 0, cited, pivot as u16);
        let (rest, lesser, _) = resolvent(&self.steps, &step.reason);
        let mut list = self.further(random);
        list.extend(
            rest.into_iter()
                .map(|literal| (literal.variable(), literal)),
        );
        step.literals = list.into_values().collect();
        step.bound = match random.below(4) {
            0 => lesser,
            1 => lesser.saturating_sub(1),
            2 => lesser >> random.below(64),
            _ => 0,
        };
        step
    }

    /// Literals of some variables, by these: of none, of a few, of many or of all.
    fn further(&self, random: &mut Random) -> BTreeMap<usize, Literal> {
        let share = [0, 5, 30, 100][random.below(4)];
        let drawn = (1..=self.problem.variables()).filter_map(|variable| {
            let literal = Literal::new(variable, random.percent(50));
            random.percent(share).then_some((variable, literal))
        });
        drawn.collect()
    }

    /// Adds a step, unless it is refused.
    fn add(&mut self, step: Step, met: &mut Met) {
        self.steps.push(step);
        if met.check(&self.problem, &self.steps) != CLOSE {
            self.steps.pop();
        }
    }
}

/// A resolution with one thing changed, for better or worse.
fn changed(random: &mut Random, step: &Step, variables: usize) -> Step {
    let mut step = step.clone();
    let Reason::Resolution {
        positive,
        negative,
        pivot,
    } = &mut step.reason
    else {
        panic!("{step:?} is no resolution");
    };
    let place = random.below(step.literals.len().max(1));
    match (random.below(8), step.literals.get_mut(place)) {
        (0, Some(literal)) => *literal = literal.negated(),
        (1..=3, Some(_)) => {
            step.literals.remove(place);
        }
        (4, _) => step.bound = step.bound.saturating_add(1),
        (5, _) => step.bound = random.next_u64() >> random.below(64),
        (6, _) => std::mem::swap(positive, negative),
        // The codes of the last three are those of the pivot where they are cut to fewer bits.
        _ => {
            let other = random.between(0, variables + 1) as u16;
            *pivot = [other, *pivot ^ 1 << 10, *pivot ^ 1 << 11, *pivot ^ 1 << 15][random.below(4)];
        }
    }
    step
}

#[test]
fn statements_with_further_literals() {
    let mut random = Random::new(23);
    let mut met = Met::default();
    for _ in 0..1_200 {
        let mut draft = Draft::new(&mut random);
        for _ in 0..random.between(1, 12) {
            let step = draft.statement(&mut random);
            let other = changed(&mut random, &step, draft.problem.variables());
            draft.add(other, &mut met);
            draft.add(step, &mut met);
        }
    }
    met.all_met();
}

/// A list by its codes.
fn list(codes: &[usize]) -> Vec<Literal> {
    let literals = codes
        .iter()
        .map(|code| Literal::new(code / 2, code.is_multiple_of(2)));
    literals.collect()
}

/// What a step has marked does not count in a later one, however many steps are between: numbers that are kept in 15 or 16
/// bits would come again.
#[test]
fn an_earlier_step_lends_no_literal_and_no_pivot() {
    let problem = Problem {
        loss: None,
        costs: vec![1, 2, 4],
        clauses: vec![],
    };
    let premises: [&[usize]; 5] = [&[2, 4], &[3], &[2, 6], &[7], &[6]];
    let premises = premises.map(|codes| cost(&problem, list(codes)));
    let wide = resolution(list(&[4, 6]), 0, [1, 2], 1);
    let on_third = resolution(list(&[2]), 0, [3, 4], 3);
    let plain = resolution(list(&[4]), 0, [1, 2], 1);
    let without_third = resolution(list(&[4]), 0, [3, 2], 1);
    let without_pivot = resolution(list(&[4]), 0, [5, 2], 1);
    let gaps = (0..=300).chain([32_766, 32_767, 65_534, 65_535]);
    for between in gaps {
        for (first, last, number) in [
            (&wide, &without_third, RESOLVENT),
            (&on_third, &without_pivot, PIVOT),
        ] {
            let mut steps = premises.to_vec();
            steps.push(first.clone());
            steps.extend(vec![plain.clone(); between]);
            steps.push(last.clone());
            assert_eq!(wanted(&steps), (number, steps.len() as u64));
            assert_eq!(told(&problem, &steps), wanted(&steps), "{between} between");
        }
    }
}

/// Long and short lists are gone through in different ways.
#[test]
fn no_literal_may_be_missing_at_any_place() {
    for length in 1..=80 {
        for pivot in [1, length / 2 + 1, length] {
            missing_anywhere(length, pivot, true);
            missing_anywhere(length, pivot, false);
        }
    }
}

/// One premise is the pivot alone, and the other has all variables with the value. The statement has these too, with and
/// without the pivot, and without each of the others.
fn missing_anywhere(length: usize, pivot: usize, value: bool) {
    let problem = Problem {
        loss: None,
        costs: vec![1; length],
        clauses: vec![],
    };
    let all: Vec<Literal> = (1..=length).map(|it| Literal::new(it, value)).collect();
    let mut premises = [vec![Literal::new(pivot, !value)], all.clone()];
    premises.rotate_left(value.into());
    let premises = premises.map(|literals| cost(&problem, literals));
    for missing in 0..=length {
        let left = all.iter().filter(|held| held.variable() != missing);
        let step = resolution(left.copied().collect(), 0, [1, 2], pivot as u16);
        let number = match missing == 0 || missing == pivot {
            true => CLOSE,
            false => RESOLVENT,
        };
        let steps = [&premises[..], &[step]].concat();
        assert_eq!(told(&problem, &steps).0, number, "{steps:?}");
    }
}
