//! The sheets for the search: each shape has what it is for, what a search may go wrong on is met, and what is damaged is
//! mostly refused as it is aimed.

mod common;

use common::{assert_each_met, count_seen, is_true};
use planner::{search, MOST_CLAUSES, NONE};
use reference::Found;
use samples::searching::small::{LONGEST, MOST_CLAUSES as FEW_CLAUSES, MOST_VARIABLES};
use samples::searching::{damaged, large, small, too_wide, MOST_SEARCHED};
use samples::sheets::{loss_sort, LOSS_SORTS};
use samples::writing::{Case, Listing};
use std::collections::{BTreeMap, BTreeSet};

const SHEETS: usize = 2_000;

fn listing(case: &Case) -> Listing {
    assert!(reference::sheet_is_valid(&case.sheet), "{case:?}");
    Listing::read(&case.sheet).unwrap()
}

/// The answer of a search with so great a budget that it comes to its end.
fn end(case: &Case) -> Found {
    let found = reference::search(&case.sheet, 10_000);
    assert!(found.ended, "{case:?}");
    found
}

/// The plans one after the other, as the budget grows.
fn plans(case: &Case) -> Vec<u64> {
    let budgets = 0..=end(case).choices;
    let found = budgets.filter_map(|budget| reference::search(&case.sheet, budget).plan);
    let mut plans: Vec<u64> = found.collect();
    plans.dedup();
    plans
}

#[test]
fn small_sheets_keep_to_their_size() {
    let mut most = 0;
    for case in small(1).take(SHEETS) {
        let listing = listing(&case);
        assert!((1..=MOST_VARIABLES).contains(&listing.costs.len()));
        assert!(listing.clauses.len() <= FEW_CLAUSES);
        assert!(listing.clauses.iter().all(|clause| clause.len() <= LONGEST));
        most = most.max(end(&case).choices);
    }
    println!("{most} choices at most");
    assert!((100..1_000).contains(&most), "every budget can be tried");
}

/// How many of the sheets of a shape have this.
fn share(what: &str, has: impl Fn(&Case) -> bool) -> (usize, usize) {
    let cases: Vec<Case> = small(2).take(SHEETS).filter(|c| c.what == what).collect();
    (cases.iter().filter(|case| has(case)).count(), cases.len())
}

fn assert_all(what: &str, has: impl Fn(&Case) -> bool) {
    let (having, all) = share(what, has);
    assert!(having == all && all == SHEETS / 8, "{having} {what}");
}

#[test]
fn shapes_have_what_they_are_for() {
    let costs = |case: &Case| listing(case).costs;
    assert_all("no costs", |case| costs(case).iter().all(|c| *c == 0));
    assert_all("equal costs", |case| costs(case).iter().all(|c| *c == 1));
    assert_all("few costs", |case| costs(case).iter().all(|c| *c < 3));
    assert_all("forced", |case| {
        let found = end(case);
        found.choices == 0 && found.plan.is_some()
    });
    assert_all("forced to a false clause", |case| {
        let found = end(case);
        found.choices == 0 && found.plan.is_none()
    });
    assert_all("contradictory", |case| end(case).plan.is_none());
    let (chosen, all) = share("contradictory", |case| end(case).choices > 2);
    assert!(chosen > all / 4, "{chosen}");
    let (improved, all) = share("dearer and dearer", |case| plans(case).len() > 2);
    assert!(improved > all / 10, "{improved}");
    let (free, all) = share("any", |case| end(case).choices > 4);
    assert!(free > all / 4, "{free}");
}

const FEATURES: [&str; 14] = [
    "one variable",
    "as many variables as a small sheet may have",
    "no clause",
    "as many clauses",
    "the empty clause",
    "a clause of one literal",
    "as many literals",
    "a clause twice",
    "a plan that nothing was chosen for",
    "a plan in which everything is false",
    "a plan in which everything is true",
    "a second plan of the least cost",
    "four plans, one cheaper than the other",
    "a search of more than 60 choices without a plan",
];

fn features(case: &Case) -> [bool; 14] {
    let listing = listing(case);
    let (variables, clauses) = (listing.costs.len(), &listing.clauses);
    let (found, plans) = (end(case), plans(case));
    let of_length = |length| clauses.iter().any(|clause| clause.len() == length);
    [
        variables == 1,
        variables == MOST_VARIABLES,
        clauses.is_empty(),
        clauses.len() == FEW_CLAUSES,
        of_length(0),
        of_length(1),
        of_length(LONGEST),
        listing.content().clauses.len() < clauses.len(),
        found.choices == 0 && found.plan.is_some(),
        found.plan == Some(0),
        found.plan == Some((1 << variables) - 1),
        found.plan.is_some_and(|plan| has_equal(&listing, plan)),
        plans.len() > 3,
        found.choices > 60 && found.plan.is_none(),
    ]
}

/// Whether another plan costs as much.
fn has_equal(listing: &Listing, plan: u64) -> bool {
    let cost = |plan: u64| {
        let costs = listing.costs.iter().enumerate();
        let paid = costs.filter(|(place, _)| plan >> place & 1 == 1);
        paid.map(|(_, cost)| u64::from(*cost)).sum::<u64>()
    };
    let satisfied = |clause: &Vec<u16>, other: u64| {
        let mut codes = clause.iter();
        codes.any(|code| is_true(other as u32, *code))
    };
    let mut others = (0..1 << listing.costs.len()).filter(|other| *other != plan);
    others.any(|other| {
        let mut clauses = listing.clauses.iter();
        clauses.all(|clause| satisfied(clause, other)) && cost(other) == cost(plan)
    })
}

#[test]
fn every_feature_is_met() {
    let mut met = [0; FEATURES.len()];
    let mut losses: BTreeMap<&str, usize> = BTreeMap::new();
    for case in small(4).take(SHEETS) {
        count_seen(&mut met, features(&case));
        let sort = loss_sort(listing(&case).loss);
        *losses.entry(sort).or_default() += 1;
    }
    assert_each_met(&met, &FEATURES);
    println!("{losses:?}");
    assert!(LOSS_SORTS.iter().all(|sort| losses[sort] > SHEETS / 20));
}

/// They are at a limit, and need few choices for that.
#[test]
fn large_sheets_are_soon_searched() {
    let mut met: BTreeMap<&str, BTreeSet<bool>> = BTreeMap::new();
    for case in large(3).take(140) {
        let (listing, found) = (listing(&case), end(&case));
        let (variables, clauses) = (listing.costs.len(), listing.clauses.len());
        assert!(variables <= MOST_SEARCHED);
        let is_full = clauses == MOST_CLAUSES;
        assert!(is_full || variables >= MOST_SEARCHED - 1, "{}", case.what);
        assert!(found.choices < 300, "{}: {}", case.what, found.choices);
        let ends = met.entry(case.what).or_default();
        ends.insert(found.plan.is_some());
        let least = search::plan(&listing.problem()).claim;
        assert_eq!(found.floor, least, "{}", case.what);
        assert_eq!(found.plan.is_some(), least != NONE, "{}", case.what);
    }
    println!("{met:?}");
    assert_eq!(met.len(), 7);
    assert_eq!(met["most clauses, with a plan"], BTreeSet::from([true]));
    assert_eq!(met["64 variables"].len(), 2);
    assert_eq!(met["most clauses"], BTreeSet::from([false]));
}

/// The search of the first large sheet of a shape.
fn first_large(what: &str) -> Found {
    end(&large(3).find(|case| case.what == what).unwrap())
}

#[test]
fn some_large_sheets_cost_as_much_as_they_may() {
    let found = first_large("64 variables, as dear as can be");
    assert_eq!(found.plan, Some(u64::MAX));
    assert_eq!(found.floor, 65 * u64::from(u32::MAX));
    assert_eq!(found.choices, 2);
}

#[test]
fn some_large_sheets_are_searched_to_the_last_variable() {
    let found = first_large("64 variables, hardly one forced");
    assert_eq!(found.plan, Some(0));
    assert!((100..=128).contains(&found.choices), "{found:?}");
}

#[test]
fn what_is_too_wide_is_nothing_else() {
    for case in too_wide(4).take(100) {
        assert!(listing(&case).costs.len() > MOST_SEARCHED);
        assert_eq!(reference::search(&case.sheet, 9).number, 26);
    }
}

/// Those that are aimed at 2, 3 or 4 mostly meet that, whether the sheet is too wide or not.
#[test]
fn most_damaged_sheets_are_refused_as_aimed() {
    let mut met: BTreeMap<(u32, bool), [usize; 2]> = BTreeMap::new();
    for Case { sheet, what } in damaged(5).take(SHEETS) {
        let number = reference::search(&sheet, 3).number;
        let first = what.split(' ').next().and_then(|word| word.parse().ok());
        let Some(aim) = first else {
            continue;
        };
        let is_wide = Listing::read(&sheet).is_some_and(|l| l.costs.len() > MOST_SEARCHED);
        met.entry((aim, is_wide)).or_default()[usize::from(number == aim)] += 1;
    }
    println!("by aim and whether it is too wide, missed and met: {met:?}");
    for key in [2, 3, 4]
        .into_iter()
        .flat_map(|aim| [(aim, false), (aim, true)])
    {
        let [missed, hit] = met[&key];
        assert!(hit > 5 * missed && hit > 50, "{key:?}");
    }
}

#[test]
fn same_seed_same_sheets() {
    assert!(small(5).take(100).eq(small(5).take(100)));
    assert!(small(5).take(10).ne(small(6).take(10)));
    assert!(large(5).take(10).eq(large(5).take(10)));
    assert!(damaged(5).take(100).eq(damaged(5).take(100)));
}
