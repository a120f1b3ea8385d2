//! Kind 4 against trying every assignment. Over 3 variables every statement is judged, with the sentence of document
//! 02's change 5 beside it; and what passes is true of every assignment that satisfies the sheet.

mod common;

use common::*;
use reference::judge;
use std::collections::BTreeSet;

/// What a step states.
struct Stated {
    codes: Vec<u16>,
    bound: u64,
}

/// A sheet as lists, and steps with what each of them states.
struct Case {
    costs: Vec<u32>,
    clauses: Vec<Vec<u16>>,
    bodies: Vec<Vec<u8>>,
    stated: Vec<Stated>,
}

impl Case {
    fn of(costs: &[u32]) -> Case {
        Case {
            costs: costs.to_vec(),
            clauses: vec![],
            bodies: vec![],
            stated: vec![],
        }
    }

    fn push(&mut self, body: Vec<u8>, codes: &[u16], bound: u64) {
        self.bodies.push(body);
        self.stated.push(Stated {
            codes: codes.to_vec(),
            bound,
        });
    }

    /// One more clause for the sheet, and a step that copies it.
    fn push_clause(&mut self, codes: &[u16]) {
        self.clauses.push(codes.to_vec());
        let body = clause_step(codes, self.clauses.len() as u32);
        self.push(body, codes, NONE);
    }

    fn push_cost(&mut self, codes: &[u16]) {
        let negative = codes.iter().filter(|code| !code.is_multiple_of(2));
        let costs = negative.map(|code| u64::from(self.costs[*code as usize / 2 - 1]));
        let bound = costs.sum();
        self.push(cost_step(codes, bound), codes, bound);
    }

    fn sheet(&self) -> Vec<u8> {
        let clauses: Vec<&[u16]> = self.clauses.iter().map(Vec::as_slice).collect();
        sheet(&self.costs, &clauses)
    }

    /// The number and the place of the answer to these steps. Under the claim "none" no assignment has to satisfy the
    /// clauses before the steps are reached.
    fn answer_to(&self, bodies: &[Vec<u8>]) -> (u32, u64) {
        let answer = judge(&self.sheet(), &record(NONE, &[0], bodies));
        (answer.number, answer.place)
    }

    fn cost(&self, x: u32) -> u64 {
        let costs = self.costs.iter().enumerate();
        let paid = costs.filter(|(index, _)| x >> index & 1 == 1);
        paid.map(|(_, cost)| u64::from(*cost)).sum()
    }

    /// Every model that makes the literals false costs at least the bound. No cost reaches "none".
    fn entails(&self, codes: &[u16], bound: u64) -> bool {
        let is_model = |x: &u32| {
            let satisfied = |clause: &Vec<u16>| clause.iter().any(|code| is_true(*code, *x));
            self.clauses.iter().all(satisfied)
        };
        let falsifies = |x: &u32| codes.iter().all(|code| !is_true(*code, *x));
        let all = 0..1_u32 << self.costs.len();
        let mut models = all.filter(is_model).filter(falsifies);
        models.all(|x| self.cost(x) >= bound)
    }
}

/// The answer to steps that all pass: acceptance of the claim "none", or 19.
fn answer_by_last(last: &Stated, step_count: usize) -> (u32, u64) {
    if last.codes.is_empty() && last.bound == NONE {
        (0, 0)
    } else {
        (19, step_count as u64)
    }
}

/// A list over few variables as a set: the literal of code c is bit c.
fn set(codes: &[u16]) -> u32 {
    codes.iter().fold(0, |set, code| set | 1 << code)
}

/// What is left of the premises without the pivot, as such a set. A variable may stand in it both ways.
fn left_of(premises: &[Stated], pivot: u16) -> u32 {
    let from_a = set(&premises[0].codes) & !set(&[pos(pivot)]);
    let from_b = set(&premises[1].codes) & !set(&[neg(pivot)]);
    from_a | from_b
}

/// The sentence, for step 3 and premises that have the pivot: what is left of them is in the statement, and the bound
/// is above neither of theirs.
fn sentence(premises: &[Stated], pivot: u16, statement: &Stated) -> (u32, u64) {
    let is_above = |premise: &Stated| statement.bound > premise.bound;
    if left_of(premises, pivot) & !set(&statement.codes) != 0 {
        (17, 3)
    } else if premises.iter().any(is_above) {
        (18, 3)
    } else {
        answer_by_last(statement, 3)
    }
}

/// How often the statements were such that a wrong rule would have shown.
#[derive(Default)]
struct Seen {
    /// Those that pass: the resolvent itself, with further literals, with a lower bound.
    exact: u32,
    further: u32,
    lower: u32,
    /// Those that are refused and that some model contradicts, by the number.
    false_17: u32,
    false_18: u32,
}

impl Seen {
    fn add(&mut self, case: &Case, pivot: u16, statement: &Stated, number: u32) {
        let has_further = set(&statement.codes) != left_of(&case.stated, pivot);
        let mut premises = case.stated.iter();
        let is_lower = premises.all(|premise| statement.bound < premise.bound);
        let is_false = !case.entails(&statement.codes, statement.bound);
        let passes = number == 0 || number == 19;
        self.exact += u32::from(passes && !has_further && !is_lower);
        self.further += u32::from(passes && has_further);
        self.lower += u32::from(passes && is_lower);
        self.false_17 += u32::from(number == 17 && is_false);
        self.false_18 += u32::from(number == 18 && is_false);
        assert!(!passes || !is_false);
    }
}

/// Bounds at the lesser and around it, the other one, and the ends.
fn bounds_around(premises: &[Stated]) -> BTreeSet<u64> {
    let bounds = [premises[0].bound, premises[1].bound];
    let [lesser, greater] = [bounds[0].min(bounds[1]), bounds[0].max(bounds[1])];
    BTreeSet::from([
        0,
        lesser.saturating_sub(1),
        lesser,
        lesser.saturating_add(1),
        greater,
        NONE - 1,
        NONE,
    ])
}

/// All lists and these bounds for the statement that two premises and a pivot come to.
fn assert_every_statement(case: &Case, pivot: u16, seen: &mut Seen) {
    for codes in every_list(3) {
        for bound in bounds_around(&case.stated) {
            let step = resolution_step(&codes, bound, 1, 2, pivot);
            let steps = [&case.bodies[..], &[step]].concat();
            let codes = codes.clone();
            let statement = Stated { codes, bound };
            let answer = case.answer_to(&steps);
            assert_eq!(answer, sentence(&case.stated, pivot, &statement));
            seen.add(case, pivot, &statement, answer.0);
        }
    }
}

/// The two premises, each as a copy of a clause or by the costs 1, 2 and 4.
fn every_case(a: &[u16], b: &[u16]) -> Vec<Case> {
    let push: [fn(&mut Case, &[u16]); 2] = [Case::push_clause, Case::push_cost];
    let mut cases = vec![];
    for push_a in push {
        for push_b in push {
            let mut case = Case::of(&[1, 2, 4]);
            push_a(&mut case, a);
            push_b(&mut case, b);
            cases.push(case);
        }
    }
    cases
}

/// The lists of two premises.
type Pair = [Vec<u16>; 2];

/// All pairs over 3 variables: those that have the pivot, positive in the first list and negative in the second, and
/// those that do not.
fn every_pair(pivot: u16) -> (Vec<Pair>, Vec<Pair>) {
    let lists = every_list(3);
    let pairs_with = |a: &Vec<u16>| {
        let a = a.clone();
        lists.iter().map(move |b| [a.clone(), b.clone()])
    };
    let has_pivot = |[a, b]: &Pair| a.contains(&pos(pivot)) && b.contains(&neg(pivot));
    lists.iter().flat_map(pairs_with).partition(has_pivot)
}

#[test]
fn every_statement_over_3_variables_by_the_sentence() {
    let mut seen = Seen::default();
    for pivot in 1..=3 {
        let (with_pivot, _) = every_pair(pivot);
        assert_eq!(with_pivot.len(), 81);
        for case in with_pivot.iter().flat_map(|[a, b]| every_case(a, b)) {
            assert_every_statement(&case, pivot, &mut seen);
        }
    }
    assert!(seen.exact > 400 && seen.further > 400 && seen.lower > 400);
    assert!(seen.false_17 > 400 && seen.false_18 > 400);
}

/// Neither a premise's own literals nor the least bound helps where one of the two lacks the pivot. Pivots 0 and 4 are
/// no variables, so all pairs lack them.
#[test]
fn no_statement_passes_without_the_pivot_in_both_premises() {
    for (pivot, count) in [(0, 729), (1, 648), (2, 648), (3, 648), (4, 729)] {
        let (_, without_pivot) = every_pair(pivot);
        assert_eq!(without_pivot.len(), count);
        for [a, b] in without_pivot {
            let case = every_case(&a, &b).swap_remove(0);
            for codes in [a, b] {
                let step = resolution_step(&codes, 0, 1, 2, pivot);
                let steps = [&case.bodies[..], &[step]].concat();
                assert_eq!(case.answer_to(&steps), (16, 3));
            }
        }
    }
}

/// A resolution in a case: the step, from 1, and its tail.
struct Resolution {
    step: usize,
    a: usize,
    b: usize,
    pivot: u16,
    /// What is left of the premises, and the lesser of their bounds.
    left: Vec<u16>,
    lesser: u64,
}

impl Resolution {
    fn body(&self, codes: &[u16], bound: u64) -> Vec<u8> {
        resolution_step(codes, bound, self.a as u32, self.b as u32, self.pivot)
    }
}

/// Any two steps so far, on any pivot that they have; `None` where they have none or hold a variable both ways.
fn random_resolution(numbers: &mut Numbers, case: &Case) -> Option<Resolution> {
    let count = case.stated.len();
    let (a, b) = (1 + numbers.below(count), 1 + numbers.below(count));
    let (in_a, in_b) = (&case.stated[a - 1], &case.stated[b - 1]);
    let variables = 1..=case.costs.len() as u16;
    let is_pivot = |v: &u16| in_a.codes.contains(&pos(*v)) && in_b.codes.contains(&neg(*v));
    let pivots: Vec<u16> = variables.filter(is_pivot).collect();
    // Two of them, and the resolvent on either holds the other both ways.
    let [pivot] = pivots[..] else {
        return None;
    };
    let kept_a = in_a.codes.iter().filter(|code| **code != pos(pivot));
    let kept_b = in_b.codes.iter().filter(|code| **code != neg(pivot));
    let left: BTreeSet<u16> = kept_a.chain(kept_b).copied().collect();
    let holds_both = |code: &u16| left.contains(&(code ^ 1));
    if left.iter().any(holds_both) {
        return None;
    }
    Some(Resolution {
        step: count + 1,
        a,
        b,
        pivot,
        left: left.into_iter().collect(),
        lesser: in_a.bound.min(in_b.bound),
    })
}

/// What is left, and by chance literals of other variables and a lower bound.
fn random_statement(numbers: &mut Numbers, case: &Case, resolution: &Resolution) -> Stated {
    let mut codes = vec![];
    for variable in 1..=case.costs.len() as u16 {
        let two = [pos(variable), neg(variable)];
        let kept = two.into_iter().find(|code| resolution.left.contains(code));
        let further = two.get(numbers.below(8)).copied();
        codes.extend(kept.or(further));
    }
    let lesser = resolution.lesser;
    let bound = match numbers.below(8) {
        0 => 0,
        1 => lesser.saturating_sub(1),
        2 => lesser.min(numbers.below(12) as u64),
        _ => lesser,
    };
    Stated { codes, bound }
}

/// Copies of random clauses, and random lists with what they cost.
fn random_leaves(numbers: &mut Numbers) -> Case {
    let variable_count = 2 + numbers.below(4);
    let costs = (0..variable_count).map(|_| numbers.below(10) as u32);
    let mut case = Case::of(&costs.collect::<Vec<u32>>());
    let lists = every_list(variable_count as u16);
    for _ in 0..2 + numbers.below(4) {
        case.push_clause(&lists[numbers.below(lists.len())]);
        case.push_cost(&lists[numbers.below(lists.len())]);
    }
    case
}

/// The same with resolutions after them, some of them of one another.
fn random_case(numbers: &mut Numbers) -> (Case, Vec<Resolution>) {
    let mut case = random_leaves(numbers);
    let mut resolutions = vec![];
    for _ in 0..60 {
        if let Some(resolution) = random_resolution(numbers, &case) {
            let Stated { codes, bound } = random_statement(numbers, &case, &resolution);
            case.push(resolution.body(&codes, bound), &codes, bound);
            resolutions.push(resolution);
        }
    }
    (case, resolutions)
}

/// The step without one literal that is left of the premises meets 17, and with one more than the lesser bound 18,
/// whatever follows it.
fn assert_faults(case: &Case, resolution: &Resolution) {
    let place = resolution.step as u64;
    let Stated { codes, bound } = &case.stated[resolution.step - 1];
    let answer_with = |codes: &[u16], bound| {
        let mut bodies = case.bodies.clone();
        bodies[resolution.step - 1] = resolution.body(codes, bound);
        case.answer_to(&bodies)
    };
    for missing in &resolution.left {
        let mut codes = codes.clone();
        codes.retain(|code| code != missing);
        assert_eq!(answer_with(&codes, *bound), (17, place));
        assert_eq!(answer_with(&codes, NONE), (17, place));
    }
    if resolution.lesser < NONE {
        assert_eq!(answer_with(codes, resolution.lesser + 1), (18, place));
        assert_eq!(answer_with(codes, NONE), (18, place));
    }
}

#[test]
fn random_resolutions_of_one_another_state_what_is_true_of_every_model() {
    let mut numbers = Numbers::from(10);
    let (mut resolved, mut cited_again, mut tight) = (0, 0, 0);
    for _ in 0..300 {
        let (case, resolutions) = random_case(&mut numbers);
        let last = &case.stated[case.stated.len() - 1];
        let answer = answer_by_last(last, case.stated.len());
        assert_eq!(case.answer_to(&case.bodies), answer);
        let leaf_count = case.stated.len() - resolutions.len();
        for resolution in &resolutions {
            let Stated { codes, bound } = &case.stated[resolution.step - 1];
            assert!(case.entails(codes, *bound));
            assert_faults(&case, resolution);
            resolved += 1;
            cited_again += u32::from(resolution.a.max(resolution.b) > leaf_count);
            tight += u32::from(*bound < NONE && !case.entails(codes, bound + 1));
        }
    }
    assert!(resolved > 1_000 && cited_again > 400 && tight > 100);
}
