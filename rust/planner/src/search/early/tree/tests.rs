//! What a tree does whose splits are counted by hand, without the search for an assignment before it.

use super::*;
use crate::random::Random;
use crate::search;

const BOTH: [Bounds; 2] = [Bounds::Independent, Bounds::Weights];

/// 14 variables of costs up to 9, and clauses of three of them; three of four have a standing loss, which may be 0.
fn problem(random: &mut Random) -> Problem {
    let mut clause = |_| {
        let [first, second] = [0, 0].map(|_| random.between(1, 5));
        let variables = [first, first + second, first + second + random.between(1, 4)];
        let literal = |variable| Literal::new(variable, random.percent(65));
        variables.map(literal).to_vec()
    };
    let clauses = (0..40).map(&mut clause).collect();
    let costs = (0..14).map(|_| random.between(1, 9) as u32).collect();
    let loss = [None, Some(0), Some(7), Some(u32::MAX)][random.below(4)];
    Problem {
        loss,
        costs,
        clauses,
    }
}

#[test]
fn the_least_bound_never_falls_and_ends_at_the_least_cost() {
    let mut random = Random::new(6);
    for _ in 0..60 {
        let problem = problem(&mut random);
        let least = search::plan(&problem).claim;
        for bounds in BOTH {
            let mut tree = Tree::new(&problem, bounds, NONE);
            let mut before = 0;
            for splits in 1.. {
                assert!((before..=least).contains(&tree.least_leaf().0));
                before = tree.least_leaf().0;
                if !tree.grow_to(splits) {
                    break;
                }
            }
            assert_eq!((before, tree.least_found()), (least, least));
        }
    }
}

#[test]
fn a_tree_has_an_assignment_of_its_own_where_no_cheaper_one_is_known() {
    let problem = problem(&mut Random::new(2));
    let plan = search::plan(&problem);
    assert_ne!(plan.claim, NONE);
    for known in [NONE, plan.claim + 1, plan.claim] {
        let mut tree = Tree::new(&problem, Bounds::Weights, NONE);
        while tree.grow_to(tree.splits + 1) {}
        let nothing = vec![false; 14];
        let (cost, assignment) = tree.cheaper_than((known, nothing.clone()));
        assert_eq!(cost, plan.claim);
        assert_eq!(assignment == nothing, known == plan.claim);
        assert!(known == plan.claim || problem.satisfies(&assignment));
    }
}

/// A branch ends with the better one of two bounds, and by no more than is true of it.
#[test]
fn weights_are_taken_where_they_give_more() {
    let mut random = Random::new(4);
    let (mut plain_ends, mut better) = (0, 0);
    for _ in 0..200 {
        let problem = problem(&mut random);
        let [mut plain, mut weighted] = BOTH.map(|bounds| Branches::new(&problem, bounds, NONE));
        let decided: Vec<Literal> = (1..=14)
            .filter(|_| random.percent(45))
            .map(|variable| Literal::new(variable, variable % 2 == 0))
            .collect();
        let (plain, weighted) = (plain.end(&decided).step, weighted.end(&decided).step);
        assert!(weighted.bound >= plain.bound, "{problem:?}");
        better += u32::from(weighted.bound > plain.bound);
        plain_ends += u32::from(weighted == plain);
    }
    assert!(better > 20 && plain_ends > 20, "{better} {plain_ends}");
}
