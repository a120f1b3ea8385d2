//! The families of sheets for the writer: what says the same does, what says something else does, what is damaged is mostly
//! refused as it is aimed, and everything that a writer may go wrong on is met.

mod common;

use common::{assert_each_met, count_seen};
use planner::{MOST_CLAUSES, MOST_VARIABLES};
use samples::damage::{self, Aim};
use samples::draft::code_bytes;
use samples::random::Random;
use samples::writing::changes::CHANGES;
use samples::writing::contents::{
    about_256, bare, beginnings, long_beginning, many, of_count, short_beginning, single,
};
use samples::writing::listings::{filled_up, LISTINGS};
use samples::writing::{families, Case, Content, Family, Listing};
use std::collections::{BTreeMap, BTreeSet};

const FAMILIES: usize = 1_000;

/// What a good sheet says.
fn listing(case: &Case) -> Listing {
    assert!(reference::sheet_is_valid(&case.sheet), "{case:?}");
    let listing = Listing::read(&case.sheet).unwrap();
    assert_eq!(listing.sheet(), case.sheet);
    assert_eq!(Content::of(&listing.problem()), listing.content());
    listing
}

#[test]
fn what_says_the_same_does_and_what_says_something_else_does() {
    let mut met: BTreeMap<&str, usize> = BTreeMap::new();
    let mut same_bytes = 0;
    for family in families(1).take(FAMILIES) {
        let first = &family.same[0].sheet;
        for case in &family.same {
            assert_eq!(listing(case).content(), family.content, "{case:?}");
            same_bytes += usize::from(case.sheet == *first);
        }
        for case in &family.others {
            assert_ne!(listing(case).content(), family.content, "{case:?}");
        }
        for case in family.same.iter().chain(&family.others) {
            *met.entry(case.what).or_default() += 1;
        }
    }
    println!("{same_bytes} sheets as the first of their family, {met:?}");
    assert!(same_bytes < 3 * FAMILIES);
    for (what, few) in named() {
        assert!(met[what] >= few, "few of {what}");
    }
}

/// The name of each way to list and of each change, and how often it is met at least.
fn named() -> impl Iterator<Item = (&'static str, usize)> {
    let listings = LISTINGS.iter().map(|(what, _)| (*what, FAMILIES));
    let changes = CHANGES.iter().map(|(what, _)| (*what, FAMILIES / 5));
    listings.chain(changes).chain([("filled up", 5)])
}

/// Every listing of most clauses and of one that fills a sheet up keeps to what a sheet may have.
#[test]
fn repeats_stop_at_the_most_clauses() {
    let mut random = Random::new(3);
    for count in [MOST_CLAUSES - 3, MOST_CLAUSES] {
        let content = of_count(count, 200, &mut random);
        for (what, list) in LISTINGS {
            let clauses = list(&content.sorted(), &mut random);
            assert!((count..=MOST_CLAUSES).contains(&clauses.len()), "{what}");
            assert_eq!(content.listed(clauses).content(), content, "{what}");
        }
    }
    let full = filled_up(&[vec![2]], &mut random);
    assert_eq!(full, vec![vec![2]; MOST_CLAUSES]);
    assert!(filled_up(&[], &mut random).is_empty());
}

/// Each fault alone meets its aim in most cases, and each of them was made.
#[test]
fn most_damaged_sheets_are_refused_as_aimed() {
    let mut met: BTreeMap<&str, BTreeMap<u32, usize>> = BTreeMap::new();
    for case in families(2).take(FAMILIES).flat_map(|family| family.damaged) {
        // Of a good sheet and an empty record the answer is 5.
        let answer = reference::judge(&case.sheet, &[]);
        let numbers = met.entry(case.what).or_default();
        *numbers.entry(answer.number).or_default() += 1;
    }
    println!("{met:?}");
    for fault in damage::all_aimed() {
        let Some(Aim::Refused(aim @ 2..=4)) = fault.aim() else {
            continue;
        };
        let numbers = met.get(fault.aimed).expect("a fault that was made");
        let hits = numbers.get(&aim).copied().unwrap_or(0);
        let all: usize = numbers.values().sum();
        assert!(2 * hits > all, "not met: {}", fault.aimed);
    }
    let several = met["two faults"].keys().chain(met["blind"].keys());
    let several: BTreeSet<u32> = several.copied().collect();
    assert_eq!(several, BTreeSet::from([2, 3, 4, 5]));
}

const FEATURES: [&str; 14] = [
    "no clause",
    "one clause and its repeats",
    "the empty clause",
    "a list that begins another",
    "three lists of which each begins the next",
    "clauses that first differ after 200 literals",
    "another order by bytes than by numbers",
    "codes that differ by 2 at most, about a multiple of 256",
    "a repeat beside its clause",
    "a repeat with others between",
    "sorted already",
    "one variable",
    "as many variables as there may be",
    "as many clauses as there may be",
];

/// Whether the first of two clauses begins the second.
fn begins(pair: &[Vec<u16>]) -> bool {
    pair[1].starts_with(&pair[0])
}

fn differs_late(pair: &[Vec<u16>]) -> bool {
    let part = pair[0].get(..200);
    part.is_some_and(|part| pair[1].starts_with(part))
}

/// Whether the codes that tell two clauses apart differ by little, but in their high bytes.
fn is_about_256(pair: &[Vec<u16>]) -> bool {
    let mut both = pair[0].iter().zip(&pair[1]);
    let apart = both.find(|(a, b)| a != b);
    apart.is_some_and(|(a, b)| b - a <= 2 && a / 256 < b / 256)
}

fn features(listing: &Listing) -> [bool; 14] {
    let clauses = &listing.clauses;
    let sorted = listing.content().sorted();
    let mut by_bytes = sorted.clone();
    by_bytes.sort_by_key(|clause| code_bytes(clause));
    let beside = clauses.windows(2).filter(|pair| pair[0] == pair[1]).count();
    [
        clauses.is_empty(),
        sorted.len() == 1 && clauses.len() > 1,
        sorted.first().is_some_and(Vec::is_empty),
        sorted.windows(2).any(begins),
        sorted.windows(3).any(|three| three.windows(2).all(begins)),
        sorted.windows(2).any(differs_late),
        by_bytes != sorted,
        sorted.windows(2).any(is_about_256),
        beside > 0,
        clauses.len() - sorted.len() > beside,
        *clauses == sorted,
        listing.costs.len() == 1,
        listing.costs.len() == MOST_VARIABLES,
        clauses.len() == MOST_CLAUSES,
    ]
}

#[test]
fn every_feature_is_met() {
    let mut met = [0; FEATURES.len()];
    for Family { same, .. } in families(4).take(FAMILIES) {
        for case in &same {
            count_seen(&mut met, features(&listing(case)));
        }
    }
    assert_each_met(&met, &FEATURES);
}

/// How many of a hundred contents of a shape have two neighbours of this sort among their sorted clauses.
fn hundred(shape: fn(&mut Random) -> Content, sort: fn(&[Vec<u16>]) -> bool) -> usize {
    let mut random = Random::new(100);
    let contents = (0..100).map(|_| shape(&mut random).sorted());
    contents.filter(|all| all.windows(2).any(sort)).count()
}

/// Several clauses, and all begin with the same literal.
fn begins_alike(content: &Content) -> bool {
    let mut firsts = content.clauses.iter().map(|clause| clause.first());
    let first = firsts.next().flatten();
    first.is_some() && content.clauses.len() > 1 && firsts.all(|other| other == first)
}

#[test]
fn shapes_have_what_they_are_for() {
    assert!(hundred(beginnings, begins) > 80);
    assert!(hundred(long_beginning, differs_late) > 90);
    assert!(hundred(about_256, is_about_256) > 70);
    let mut random = Random::new(101);
    for _ in 0..100 {
        assert_eq!(bare(&mut random).clauses.len(), 0);
        assert_eq!(single(&mut random).clauses.len(), 1);
    }
    let short = (0..100).map(|_| short_beginning(&mut random));
    assert!(short.filter(begins_alike).count() > 80);
    let counts: BTreeSet<usize> = (0..40).map(|_| many(&mut random).clauses.len()).collect();
    assert!(counts.len() > 5 && counts.first() >= Some(&127));
    assert_eq!(counts.last(), Some(&MOST_CLAUSES));
}

#[test]
fn same_seed_same_families() {
    assert!(families(5).take(100).eq(families(5).take(100)));
    assert!(families(5).take(10).ne(families(6).take(10)));
}
