//! Ways to list a set of clauses, in another order or some of them repeated. Each gets the clauses sorted.

use crate::random::Random;
use planner::MOST_CLAUSES;

type Way = fn(&[Vec<u16>], &mut Random) -> Vec<Vec<u16>>;

pub const LISTINGS: &[(&str, Way)] = &[
    ("sorted", |sorted, _| sorted.to_vec()),
    ("reversed", |sorted, _| {
        sorted.iter().rev().cloned().collect()
    }),
    ("shuffled", shuffled),
    ("one out of place", one_out_of_place),
    ("turned at a place", turned),
    ("each twice", each_twice),
    ("twice over", twice_over),
    ("repeated here and there", repeated),
];

pub fn shuffle<T>(list: &mut [T], random: &mut Random) {
    for end in (1..list.len()).rev() {
        list.swap(end, random.below(end + 1));
    }
}

fn shuffled(sorted: &[Vec<u16>], random: &mut Random) -> Vec<Vec<u16>> {
    let mut list = sorted.to_vec();
    shuffle(&mut list, random);
    list
}

fn one_out_of_place(sorted: &[Vec<u16>], random: &mut Random) -> Vec<Vec<u16>> {
    let mut list = sorted.to_vec();
    if !list.is_empty() {
        let moved = list.remove(random.below(sorted.len()));
        list.insert(random.below(sorted.len()), moved);
    }
    list
}

/// Two sorted parts, the greater clauses first.
fn turned(sorted: &[Vec<u16>], random: &mut Random) -> Vec<Vec<u16>> {
    let mut list = sorted.to_vec();
    list.rotate_left(random.below(sorted.len().max(1)));
    list
}

/// How many clauses may come to the list yet.
fn room(list: &[Vec<u16>]) -> usize {
    MOST_CLAUSES - list.len()
}

/// Sorted, with repeats side by side; of the first clauses only where there is no room for more.
fn each_twice(sorted: &[Vec<u16>], _: &mut Random) -> Vec<Vec<u16>> {
    let mut list = sorted.to_vec();
    let again = room(sorted).min(sorted.len());
    list.extend_from_slice(&sorted[..again]);
    list.sort_unstable();
    list
}

/// One shuffled list after the other, so that a repeat may stand anywhere.
fn twice_over(sorted: &[Vec<u16>], random: &mut Random) -> Vec<Vec<u16>> {
    let mut list = shuffled(sorted, random);
    let mut again = shuffled(sorted, random);
    again.truncate(room(sorted));
    list.extend(again);
    list
}

/// Some clauses come again, and some of these often.
fn repeated(sorted: &[Vec<u16>], random: &mut Random) -> Vec<Vec<u16>> {
    let mut list = sorted.to_vec();
    for _ in 0..random.below(8).min(room(sorted)) {
        list.extend(random.pick(&list).cloned());
    }
    shuffle(&mut list, random);
    list
}

/// Repeats until there are as many clauses as a sheet may have.
pub fn filled_up(sorted: &[Vec<u16>], random: &mut Random) -> Vec<Vec<u16>> {
    let mut list = sorted.to_vec();
    while let Some(again) = random.pick(sorted).filter(|_| room(&list) > 0) {
        list.push(again.clone());
    }
    shuffle(&mut list, random);
    list
}
