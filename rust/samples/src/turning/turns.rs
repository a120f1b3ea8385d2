//! Lists of turns, for a sheet of so many variables.

use crate::random::Random;
use crate::writing::listings::shuffle;

/// How a list is made, by a name.
pub type List = (&'static str, fn(u16, &mut Random) -> Vec<u16>);

/// Every turn is of a variable.
pub const GOOD: &[List] = &[
    ("none", |_, _| Vec::new()),
    ("one", |variables, random| vec![variable(variables, random)]),
    ("the first variable", |_, _| vec![1]),
    ("the last variable", |variables, _| vec![variables]),
    ("one twice", |variables, random| {
        vec![variable(variables, random); 2]
    }),
    ("one three times", |variables, random| {
        vec![variable(variables, random); 3]
    }),
    ("some", some),
    ("each variable", |variables, random| {
        let mut turns: Vec<u16> = (1..=variables).collect();
        shuffle(&mut turns, random);
        turns
    }),
    ("some and back", |variables, random| {
        let mut turns = some(variables, random);
        turns.extend_from_within(..);
        shuffle(&mut turns, random);
        turns
    }),
];

/// One turn or more is of no variable.
pub const WRONG: &[List] = &[
    ("wrong alone", |variables, random| {
        vec![wrong(variables, random)]
    }),
    ("wrong first", |variables, random| {
        let first = wrong(variables, random);
        [vec![first], some(variables, random)].concat()
    }),
    ("wrong last", |variables, random| {
        let last = wrong(variables, random);
        [some(variables, random), vec![last]].concat()
    }),
    ("wrong in the middle", in_the_middle),
    ("wrong more than once", |variables, random| {
        let turns = in_the_middle(variables, random);
        [turns, in_the_middle(variables, random)].concat()
    }),
];

fn variable(variables: u16, random: &mut Random) -> u16 {
    random.between(1, variables.into()) as u16
}

/// Up to a dozen, of which some may come again.
fn some(variables: u16, random: &mut Random) -> Vec<u16> {
    let count = random.between(1, 12);
    (0..count).map(|_| variable(variables, random)).collect()
}

fn in_the_middle(variables: u16, random: &mut Random) -> Vec<u16> {
    let mut turns = some(variables, random);
    turns.push(wrong(variables, random));
    turns.extend(some(variables, random));
    turns
}

/// What is no variable: 0, one too many, the greatest number, or one that is a variable but for its high bits.
fn wrong(variables: u16, random: &mut Random) -> u16 {
    let any = random.between(usize::from(variables) + 1, 65_535) as u16;
    let marked = 0x8000 | variable(variables, random);
    [0, variables + 1, u16::MAX, marked, any][random.below(5)]
}
