//! Changes made without looking at what the bytes mean.

use super::independence::one_more;
use super::linear::bounds::one_more as one_more_weighed;
use super::losses::turn_mark;
use super::statements::{literal_extra, literal_missing};
use super::{damage, Damage, Way};
use crate::draft::{Body, Draft, Files};
use crate::random::Random;
use crate::weights::KIND;

pub const BLIND: &[Damage] = &[
    damage(
        "blind bit",
        Way::Files(|files, random| flip(some_file(files, random), random)),
    ),
    damage(
        "blind byte",
        Way::Files(|files, random| byte(some_file(files, random), random)),
    ),
    damage(
        "blind cut",
        Way::Files(|files, random| cut(some_file(files, random), random)),
    ),
    damage(
        "blind insertion",
        Way::Files(|files, random| insert(some_file(files, random), random)),
    ),
    damage(
        "blind removal",
        Way::Files(|files, random| remove(some_file(files, random), random)),
    ),
    damage(
        "blind splice",
        Way::Files(|files, random| splice(some_file(files, random), random)),
    ),
    damage(
        "blind bit in a body",
        Way::Draft(|draft, random| flip(some_body(draft, random)?, random)),
    ),
    damage(
        "blind byte in a body",
        Way::Draft(|draft, random| byte(some_body(draft, random)?, random)),
    ),
    damage(
        "blind insertion in a body",
        Way::Draft(|draft, random| insert(some_body(draft, random)?, random)),
    ),
    damage(
        "blind removal in a body",
        Way::Draft(|draft, random| remove(some_body(draft, random)?, random)),
    ),
    damage(
        "blind splice in a body",
        Way::Draft(|draft, random| splice(some_body(draft, random)?, random)),
    ),
    damage(
        "blind bit in the assignment",
        Way::Draft(|draft, random| flip(&mut draft.assignment, random)),
    ),
    damage("blind cheaper assignment", Way::Draft(cheaper)),
    damage("blind cost literal", Way::Step(2, literal_extra)),
    damage("blind cost literal left out", Way::Step(2, literal_missing)),
    damage("blind clause cited", Way::Step(3, one_more)),
    damage("blind resolved literal", Way::Step(4, literal_extra)),
    damage(
        "blind resolved literal left out",
        Way::Step(4, literal_missing),
    ),
    damage("blind resolved bound", Way::Step(4, resolved_bound)),
    damage("blind clause weighed", Way::Step(KIND, one_more_weighed)),
    damage("blind weighed literal", Way::Step(KIND, literal_extra)),
    damage(
        "blind byte among the weights",
        Way::Step(KIND, |_, _, body, random| byte(&mut body.tail, random)),
    ),
    damage("blind mark turned round", Way::Files(turn_mark)),
    damage("blind bodies exchanged", Way::Draft(exchanged)),
    damage("blind body left out", Way::Draft(left_out)),
    damage("blind body repeated", Way::Draft(repeated)),
    damage("blind random files", Way::Files(random_files)),
];

fn some_file<'a>(files: &'a mut Files, random: &mut Random) -> &'a mut Vec<u8> {
    if random.percent(40) {
        &mut files.sheet
    } else {
        &mut files.record
    }
}

fn some_body<'a>(draft: &'a mut Draft, random: &mut Random) -> Option<&'a mut Vec<u8>> {
    let bodies = some_bodies(draft, random);
    let place = random.below(bodies.len().max(1));
    bodies.get_mut(place)
}

fn some_bodies<'a>(draft: &'a mut Draft, random: &mut Random) -> &'a mut Vec<Vec<u8>> {
    if random.percent(30) {
        &mut draft.clauses
    } else {
        &mut draft.steps
    }
}

/// A part of at most 8 bytes.
fn range(bytes: &[u8], random: &mut Random) -> Option<std::ops::Range<usize>> {
    if bytes.is_empty() {
        return None;
    }
    let start = random.below(bytes.len());
    let length = random.between(1, 8).min(bytes.len() - start);
    Some(start..start + length)
}

fn flip(bytes: &mut [u8], random: &mut Random) -> Option<()> {
    let place = random.below(bytes.len().max(1));
    *bytes.get_mut(place)? ^= 1 << random.below(8);
    Some(())
}

fn byte(bytes: &mut [u8], random: &mut Random) -> Option<()> {
    let place = random.below(bytes.len().max(1));
    let any = random.next_u64() as u8;
    *bytes.get_mut(place)? = *random.pick(&[0, 1, 255, any, any])?;
    Some(())
}

fn cut(bytes: &mut Vec<u8>, random: &mut Random) -> Option<()> {
    bytes.truncate(random.below(bytes.len().max(1)));
    Some(())
}

fn insert(bytes: &mut Vec<u8>, random: &mut Random) -> Option<()> {
    let place = random.below(bytes.len() + 1);
    let count = random.between(1, 8);
    let fresh = random.next_u64().to_le_bytes();
    bytes.splice(place..place, fresh.into_iter().take(count));
    Some(())
}

fn remove(bytes: &mut Vec<u8>, random: &mut Random) -> Option<()> {
    let part = range(bytes, random)?;
    bytes.drain(part);
    Some(())
}

/// Puts a copy of one part over another.
fn splice(bytes: &mut Vec<u8>, random: &mut Random) -> Option<()> {
    let (from, to) = (range(bytes, random)?, range(bytes, random)?);
    let copy = bytes[from].to_vec();
    bytes.splice(to, copy);
    Some(())
}

/// A variable that is paid for costs one less, and the claim follows: then the last bound, if it was the claim, is above it.
fn cheaper(draft: &mut Draft, random: &mut Random) -> Option<()> {
    let paid = (0..draft.variables()).filter(|place| draft.value(place + 1));
    let paid: Vec<usize> = paid.filter(|place| draft.costs[*place] > 0).collect();
    let place = *random.pick(&paid)?;
    draft.costs[place] -= 1;
    draft.claim = draft.assignment_cost();
    Some(())
}

/// A bit of the bound changes. Where it is lower then, the step is good still, but those that cite it may not be.
fn resolved_bound(_: &Draft, _: u32, body: &mut Body, random: &mut Random) -> Option<()> {
    body.bound ^= 1 << random.below(64);
    Some(())
}

fn exchanged(draft: &mut Draft, random: &mut Random) -> Option<()> {
    let bodies = some_bodies(draft, random);
    if bodies.len() < 2 {
        return None;
    }
    let (this, that) = (random.below(bodies.len()), random.below(bodies.len()));
    bodies.swap(this, that);
    Some(())
}

fn left_out(draft: &mut Draft, random: &mut Random) -> Option<()> {
    let bodies = some_bodies(draft, random);
    if bodies.is_empty() {
        return None;
    }
    bodies.remove(random.below(bodies.len()));
    Some(())
}

fn repeated(draft: &mut Draft, random: &mut Random) -> Option<()> {
    let bodies = some_bodies(draft, random);
    let body = random.pick(bodies)?.clone();
    let place = random.below(bodies.len() + 1);
    bodies.insert(place, body);
    Some(())
}

fn random_files(files: &mut Files, random: &mut Random) -> Option<()> {
    let length = random.below(64);
    *some_file(files, random) = (0..length).map(|_| random.next_u64() as u8).collect();
    Some(())
}
