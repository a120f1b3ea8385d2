//! Steps of kind 5 as the samples make them: their bounds against every assignment, what they are made of, and that faults
//! which show an order have all their parts.

mod common;

use common::{
    assert_each_met, changed_steps, count_seen, first_difference, is_entailed, is_true, judged,
    paid, settled, some_draft, FEW,
};
use planner::search;
use samples::damage::{self, Way};
use samples::draft::{code_bytes, read_u32, read_u64, Body, Draft};
use samples::examples::example;
use samples::random::Random;
use samples::sheets;
use samples::weights::steps::is_weighted;
use samples::weights::{branch, largest, sums, Sums, Weights, DIVISOR, ENTRY, KIND};
use std::collections::BTreeSet;

/// A total as 001 has it: what is paid times the divisor, less each weight times the true literals that its clause has beyond one,
/// where that is least among the assignments that make the step's literals false.
fn total_by_trying(draft: &Draft, step: &Body, weights: &Weights) -> i128 {
    let mut entries = Vec::new();
    for (number, weight) in &weights.entries {
        entries.push((draft.clause(*number).unwrap(), i128::from(*weight)));
    }
    let beyond_one = |clause: &[u16], assignment| {
        let held = clause.iter().filter(|code| is_true(assignment, **code));
        held.count() as i128 - 1
    };
    let less = |assignment| {
        let parts = entries
            .iter()
            .map(|(clause, weight)| weight * beyond_one(clause, assignment));
        i128::from(weights.divisor) * paid(draft, assignment) - parts.sum::<i128>()
    };
    settled(draft, step).map(less).min().unwrap()
}

/// The bound's only place: above the loss as high as the total asks, and no higher, from 0 on.
fn is_bound(draft: &Draft, bound: u64, total: i128, divisor: u16) -> bool {
    let reached = |bound: i128| total <= bound * i128::from(divisor);
    let bound = i128::from(bound) - i128::from(draft.loss.unwrap_or(0));
    bound >= 0 && reached(bound) && (bound == 0 || !reached(bound - 1))
}

fn weighted(draft: &Draft) -> Vec<Body> {
    let steps = draft.steps.iter().filter(|step| is_weighted(step));
    steps.map(|step| Body::read(step).unwrap()).collect()
}

#[test]
fn bounds_are_those_of_every_assignment() {
    let mut random = Random::new(51);
    let mut checked = 0;
    for _ in 0..600 {
        let draft = some_draft(&mut random);
        for step in weighted(&draft) {
            if draft.variables() > FEW {
                continue;
            }
            let weights = Weights::read(&step.tail).unwrap();
            let total = total_by_trying(&draft, &step, &weights);
            assert_eq!(sums(&draft, &step).unwrap().total(), total);
            assert!(
                is_bound(&draft, step.bound, total, weights.divisor),
                "{step:?} {draft:?}"
            );
            assert!(is_entailed(&draft, &step), "{step:?} {draft:?}");
            checked += 1;
        }
    }
    println!("{checked} steps checked");
    assert!(checked > 800);
}

/// A step of kind 5 with what it rests on.
struct Seen<'a> {
    draft: &'a Draft,
    step: Body,
    weights: Weights,
    sums: Sums,
}

impl Seen<'_> {
    /// A variable that is settled so has a remainder of this sign.
    fn some(&self, settled: Option<bool>, sign: i128) -> bool {
        let mut of = self.sums.shares.iter().filter(|v| v.settled == settled);
        of.any(|v| v.remainder().signum() == sign)
    }

    /// The total, and what is left when it is divided.
    fn total(&self) -> (i128, i128) {
        let total = self.sums.total();
        (total, total % self.sums.divisor)
    }

    fn cites_the_empty_clause(&self) -> bool {
        let mut numbers = self.weights.entries.iter().map(|entry| entry.0);
        numbers.any(|number| self.draft.clause(number).unwrap().is_empty())
    }

    fn has_weight(&self, weight: u16) -> bool {
        self.weights.entries.iter().any(|entry| entry.1 == weight)
    }
}

/// What a step may have, and how it is seen.
type Feature = (&'static str, fn(&Seen) -> bool);

const FEATURES: [Feature; 29] = [
    ("true, remainder above 0", |s| s.some(Some(true), 1)),
    ("true, remainder below 0", |s| s.some(Some(true), -1)),
    ("false, remainder above 0", |s| s.some(Some(false), 1)),
    ("false, remainder below 0", |s| s.some(Some(false), -1)),
    ("unsettled, remainder above 0", |s| s.some(None, 1)),
    ("unsettled, remainder 0", |s| s.some(None, 0)),
    ("unsettled, remainder below 0", |s| s.some(None, -1)),
    ("total 0", |s| s.total().0 == 0),
    ("total below 0", |s| s.total().0 < 0),
    ("total below 0 by a divisor", |s| {
        -s.total().0 >= s.sums.divisor
    }),
    ("rounded up", |s| s.total().0 > 0 && s.total().1 > 0),
    ("divided", |s| {
        s.total().0 > 0 && s.total().1 == 0 && s.weights.divisor > 1
    }),
    ("divisor 1", |s| s.weights.divisor == 1),
    ("largest divisor", |s| s.weights.divisor == u16::MAX),
    ("largest weight", |s| s.has_weight(u16::MAX)),
    ("largest cost", |s| s.draft.costs.contains(&u32::MAX)),
    ("bound over 32 bits", |s| s.step.bound > u64::from(u32::MAX)),
    ("negative literal", |s| s.sums.negatives > 0),
    ("empty clause", |s| s.cites_the_empty_clause()),
    ("one clause", |s| s.weights.entries.len() == 1),
    ("all clauses", |s| {
        s.weights.entries.len() == s.draft.clauses.len()
    }),
    ("no literal", |s| s.step.literals.is_empty()),
    ("all variables", |s| {
        s.step.literals.len() == s.draft.variables()
    }),
    ("bound of the claim", |s| {
        s.step.literals.is_empty() && s.step.bound == s.draft.claim
    }),
    ("last step", |s| {
        Body::read(s.draft.steps.last().unwrap()).unwrap().kind == KIND
    }),
    ("loss of 0", |s| s.draft.loss == Some(0)),
    ("largest loss", |s| s.draft.loss == Some(u32::MAX)),
    ("loss and rounded up", |s| {
        s.sums.loss > 0 && s.total().0 > 0 && s.total().1 > 0
    }),
    ("loss and total below 0", |s| {
        s.sums.loss > 0 && s.total().0 < 0
    }),
];

#[test]
fn steps_come_with_every_feature() {
    let mut random = Random::new(52);
    let mut met = [0; FEATURES.len()];
    for _ in 0..600 {
        let draft = &some_draft(&mut random);
        for step in weighted(draft) {
            let (weights, sums) = (Weights::read(&step.tail), sums(draft, &step));
            let (weights, sums) = (weights.unwrap(), sums.unwrap());
            let seen = Seen {
                draft,
                step,
                weights,
                sums,
            };
            count_seen(&mut met, FEATURES.map(|(_, is_seen)| is_seen(&seen)));
        }
    }
    assert_each_met(&met, &FEATURES.map(|(name, _)| name));
}

#[test]
fn certificates_of_weights_are_accepted() {
    let mut random = Random::new(53);
    let (mut made, mut single) = (0, 0);
    for _ in 0..1_500 {
        let problem = sheets::small(&mut random);
        let plan = search::plan(&problem);
        let mut draft = Draft::new(&problem, &plan.record()).unwrap();
        let Some(steps) = branch::certificate(&draft, &mut random) else {
            continue;
        };
        draft.steps = steps.iter().map(Body::bytes).collect();
        assert!(judged(&draft).accepts(), "{draft:?}");
        let rests = steps.iter().any(|step| step.kind == KIND);
        made += usize::from(rests);
        single += usize::from(rests && steps.len() == 1);
    }
    println!("{made} certificates with weights, {single} of one step");
    assert!(made > 500 && single > 100);
}

/// The draft of a plan of examples/, with one step.
fn one_step(costs: &[u32], clauses: &[&[u16]], plan: (u64, u8), step: (&[u16], Weights)) -> Draft {
    let mut draft = Draft {
        loss: None,
        costs: costs.to_vec(),
        clauses: clauses.iter().map(|clause| code_bytes(clause)).collect(),
        claim: plan.0,
        assignment: vec![plan.1],
        steps: Vec::new(),
    };
    let body = step.1.step(&draft, step.0.to_vec()).unwrap();
    draft.steps.push(body.bytes());
    draft
}

fn weights(divisor: u16, list: &[u16]) -> Weights {
    let entries = (1..).zip(list.iter().copied()).collect();
    Weights { divisor, entries }
}

#[test]
fn examples_with_weights() {
    let third = one_step(
        &[1, 2, 3, 4, 5, 6],
        &[&[2, 6, 10], &[4, 8, 10, 13], &[3, 5]],
        (1, 1),
        (&[10, 13], weights(1, &[3, 4, 2])),
    );
    assert_eq!(third.step(1).unwrap().bound, 11);
    let three = one_step(
        &[1, 1, 1],
        &[&[2, 4], &[2, 6], &[4, 6]],
        (2, 3),
        (&[], weights(2, &[1, 1, 1])),
    );
    assert_eq!(three.step(1).unwrap().bound, 2);
    for (name, draft) in [("W1", third), ("W2", three)] {
        let (example, files) = (example(name), draft.files());
        assert_eq!(files.sheet, example.sheet);
        assert_eq!(files.record, example.record);
        let answer = reference::judge(&files.sheet, &files.record);
        assert_eq!(reference::line(&answer) + "\n", example.line);
    }
}

/// The bounds of the first steps: 0, and 1,024 largest costs with what 4,096 largest weights add, divided by as much; and both
/// again with the largest loss, which is the claim then.
#[test]
fn largest_sums_are_accepted() {
    let largest = u64::from(u32::MAX);
    let above = 1_024 * largest + 4_096;
    let wanted = [
        (0, 0),
        (above, 0),
        (largest, largest),
        (above + largest, largest),
    ];
    for literals in [1, 4, 1_024] {
        for (sample, (wanted, claim)) in largest::samples(literals).iter().zip(wanted) {
            let first = read_u32(&sample.record, 12 + 128).unwrap() as usize;
            assert_eq!(read_u64(&sample.record, first + 4), Some(wanted));
            // The reference checker looks every variable up in every clause, however long.
            if literals == 4 {
                let answer = reference::judge(&sample.sheet, &sample.record);
                assert!(answer.accepts(), "{answer:?}");
                assert_eq!((answer.cost, answer.step_count), (claim, 2));
            }
        }
    }
}

/// The numbers of all that is wrong with a step of kind 5, where the bound has a meaning.
fn all_faults(draft: &Draft, step: &Body) -> BTreeSet<u32> {
    let (divisor, rest) = step.tail.split_at(DIVISOR);
    let whole = rest.len() / ENTRY * ENTRY;
    let read = Weights::read(&step.tail[..DIVISOR + whole]).unwrap();
    let rising = read.entries.windows(2).all(|pair| pair[0].0 < pair[1].0);
    let last = draft.clauses.len() as u32;
    let known = |entry: &(u32, u16)| (1..=last).contains(&entry.0);
    let is_zero = divisor == [0, 0] || read.entries.iter().any(|entry| entry.1 == 0);
    let wrong = read.divisor > 0 && {
        let total = total_by_trying(draft, step, &read);
        !is_bound(draft, step.bound, total, read.divisor)
    };
    let found = [
        (8, whole != rest.len()),
        (9, !rising || !read.entries.iter().all(known)),
        (23, is_zero),
        (24, wrong),
    ];
    let found = found.into_iter().filter(|(_, is_found)| *is_found);
    found.map(|(number, _)| number).collect()
}

/// The faults of each changed step, by what they are named after.
const WANTED: [(&str, &[&[u32]]); 16] = [
    ("8 tail and citation", &[&[8, 9]]),
    ("8 tail and weight", &[&[8, 23]]),
    ("8 tail and divisor", &[&[8, 23]]),
    ("8 tail and linear bound", &[&[8, 24]]),
    ("9 citation after a weight", &[&[9, 23]]),
    ("9 citation after the divisor", &[&[9, 23]]),
    ("9 citation and linear bound", &[&[9, 24]]),
    ("9 citation, weight and linear bound", &[&[9, 23, 24]]),
    ("23 weight and linear bound", &[&[23, 24]]),
    ("23 divisor and weight", &[&[23]]),
    ("9 citation before a later tail", &[&[9], &[8]]),
    ("23 weight before a later tail", &[&[23], &[8]]),
    ("23 weight before a later citation", &[&[23], &[9]]),
    ("24 bound before a later tail", &[&[24], &[8]]),
    ("24 bound before a later citation", &[&[24], &[9]]),
    ("24 bound before a later weight", &[&[24], &[23]]),
];

#[test]
fn faults_that_show_an_order_have_all_their_faults() {
    let ordered = damage::all_aimed().filter(|fault| matches!(fault.way, Way::Weigh(_)));
    assert_eq!(ordered.count(), WANTED.len());
    let mut random = Random::new(54);
    let mut made = [0; WANTED.len()];
    for _ in 0..100 {
        let draft = some_draft(&mut random);
        if draft.variables() > FEW {
            continue;
        }
        for (made, (name, numbers)) in made.iter_mut().zip(WANTED) {
            let fault = damage::all_aimed().find(|fault| fault.aimed == name);
            let (after, done) = damage::changed(&[*fault.unwrap()], &draft, &mut random);
            if !done {
                continue;
            }
            let changed = changed_steps(&draft, &after);
            let found: Vec<_> = changed
                .iter()
                .map(|step| all_faults(&after, step))
                .collect();
            let wanted = numbers.iter().map(|n| n.iter().copied().collect());
            assert_eq!(found, wanted.collect::<Vec<_>>(), "{name}: {after:?}");
            let files = after.files();
            let answer = reference::judge(&files.sheet, &files.record);
            let told = (numbers[0][0], first_difference(&draft.steps, &after.steps));
            assert_eq!((answer.number, answer.place), told, "{name}: {after:?}");
            *made += 1;
        }
    }
    println!("made {made:?}");
    assert!(made.iter().all(|made| *made > 0));
}
