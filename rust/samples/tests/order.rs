//! The faults that show which refusal of a cited clause is told first have every fault that they are named after: otherwise
//! meeting their number would show nothing.

mod common;

use common::{first_difference, some_draft};
use samples::damage::{self, Way};
use samples::draft::{Body, Draft};
use samples::random::Random;

/// The numbers of the faults of each faulty clause, as cited, and whether the bound is what the clauses add up to.
type Faults = (Vec<Vec<u32>>, bool);

const WANTED: [(&str, &[&[u32]], bool); 19] = [
    ("14 true and negative", &[&[14, 20]], true),
    ("14 true and nothing unsettled", &[&[14, 21]], true),
    ("14 true and shared", &[&[14, 22]], true),
    ("14 true, negative and shared", &[&[14, 20, 22]], true),
    ("20 negative and shared", &[&[20, 22]], true),
    ("20 negative of a shared variable", &[&[20, 22]], true),
    ("20 negative before true", &[&[20], &[14]], true),
    ("21 all settled before true", &[&[21], &[14]], true),
    ("21 all settled before negative", &[&[21], &[20]], true),
    ("22 shared before true", &[&[22], &[14]], true),
    ("22 shared before negative", &[&[22], &[20]], true),
    ("22 shared before all settled", &[&[22], &[21]], true),
    ("14 true before shared", &[&[14], &[22]], true),
    ("20 negative before shared", &[&[20], &[22]], true),
    ("21 all settled before shared", &[&[21], &[22]], true),
    ("14 true and wrong bound", &[&[14]], false),
    ("20 negative and wrong bound", &[&[20]], false),
    ("21 all settled and wrong bound", &[&[21]], false),
    ("22 shared and wrong bound", &[&[22]], false),
];

/// All faults of a clause, not the first alone. `before` has the literals of the clauses cited before.
fn faults(step: &Body, clause: &[u16], before: &[u16]) -> Vec<u32> {
    let free = unsettled(step, clause);
    let is_shared = |code: &u16| before.contains(code) || before.contains(&(code ^ 1));
    let found = [
        (14, clause.iter().any(|code| step.holds(code ^ 1))),
        (20, free.iter().any(|code| code % 2 == 1)),
        (21, free.is_empty()),
        (22, free.iter().any(is_shared)),
    ];
    let found = found.into_iter().filter(|(_, is_found)| *is_found);
    found.map(|(number, _)| number).collect()
}

fn unsettled(step: &Body, clause: &[u16]) -> Vec<u16> {
    let mut free = clause.to_vec();
    free.retain(|code| !step.holds(*code) && !step.holds(code ^ 1));
    free
}

/// What is wrong with a step of kind 3.
fn all_faults(draft: &Draft, step: &Body) -> Faults {
    let (mut found, mut before) = (Vec::new(), Vec::new());
    let paid = step.literals.iter().filter(|code| **code % 2 == 1);
    let paid = paid.map(|code| draft.cost_of(*code));
    let mut bound = draft.standing_loss() + paid.sum::<u64>();
    for number in step.cited() {
        let clause = draft.clause(number).unwrap();
        found.push(faults(step, &clause, &before));
        let free = unsettled(step, &clause).into_iter();
        bound += free.map(|code| draft.cost_of(code)).min().unwrap_or(0);
        before.extend(clause);
    }
    found.retain(|numbers| !numbers.is_empty());
    (found, bound == step.bound)
}

#[test]
fn faults_that_show_an_order_have_all_their_faults() {
    let cited = damage::all_aimed().filter(|fault| matches!(fault.way, Way::Cite(..)));
    assert_eq!(cited.count(), WANTED.len());
    let mut random = Random::new(12);
    let mut made = [0; WANTED.len()];
    for _ in 0..150 {
        let draft = some_draft(&mut random);
        for (made, (name, numbers, bound_fits)) in made.iter_mut().zip(WANTED) {
            let fault = damage::all_aimed().find(|fault| fault.aimed == name);
            let (after, done) = damage::changed(&[*fault.unwrap()], &draft, &mut random);
            if done {
                let step = first_difference(&draft.steps, &after.steps);
                let step = after.step(step as u32).unwrap();
                let wanted = (numbers.iter().map(|n| n.to_vec()).collect(), bound_fits);
                assert_eq!(all_faults(&after, &step), wanted, "{name}: {after:?}");
                *made += 1;
            }
        }
    }
    println!("made {made:?}");
    assert!(made.iter().all(|made| *made > 0));
}
