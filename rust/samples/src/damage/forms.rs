//! The form of clauses and step bodies, and what they cite.
// All have one signature, so that a table can hold them, though few change a length.
#![allow(clippy::ptr_arg)]

use super::{damage, Damage, Way};
use crate::draft::{overwrite, read_u16, Body, Draft};
use crate::random::Random;
use planner::format::STEP_HEAD;

pub const FORMS: &[Damage] = &[
    damage("4 odd length", Way::Draft(odd_clause)),
    damage("4 variable 0", Way::ClauseList(variable_zero)),
    damage("4 variable past the last", Way::ClauseList(past_the_last)),
    damage("4 largest code", Way::ClauseList(largest_code)),
    damage("4 literal twice", Way::ClauseList(literal_twice)),
    damage("4 variable both ways", Way::ClauseList(both_ways)),
    damage("4 falling variables", Way::ClauseList(falling)),
    damage("8 variable 0", Way::StepList(variable_zero)),
    damage("8 variable past the last", Way::StepList(past_the_last)),
    damage("8 largest code", Way::StepList(largest_code)),
    damage("8 literal twice", Way::StepList(literal_twice)),
    damage("8 variable both ways", Way::StepList(both_ways)),
    damage("8 falling variables", Way::StepList(falling)),
    damage("8 body too short", Way::Bytes(short_body)),
    damage("8 literals beyond the body", Way::Bytes(many_literals)),
    damage("8 literal count off by one", Way::Bytes(literal_count)),
    damage("8 unknown kind", Way::Bytes(unknown_kind)),
    damage("8 second byte set", Way::Bytes(second_byte)),
    damage("8 tail too short", Way::Bytes(short_tail)),
    damage("8 tail too long", Way::Bytes(long_tail)),
    damage("8 copy with two clauses", Way::Step(1, number_appended)),
    damage("8 cost step with a clause", Way::Step(2, number_appended)),
    damage("8 no independent clause", Way::Step(3, no_clause)),
    damage(
        "8 resolution with a third step",
        Way::Step(4, number_appended),
    ),
    damage("8 kind of another tail", Way::Bytes(other_kind)),
    damage("9 copied clause", Way::Step(1, outside_clause)),
    damage("9 first independent clause 0", Way::Step(3, first_zero)),
    damage("9 last independent clause", Way::Step(3, last_outside)),
    damage("9 independent clause twice", Way::Step(3, clause_twice)),
    damage(
        "9 falling independent clauses",
        Way::Step(3, falling_clauses),
    ),
    damage(
        "9 step 0",
        Way::Step(4, |_, _, body, random| body.cite(random.below(2), 0)),
    ),
    damage(
        "9 step itself",
        Way::Step(4, |_, own, body, random| body.cite(random.below(2), own)),
    ),
    damage("9 later step", Way::Step(4, later_step)),
    damage("9 step past the last", Way::Step(4, step_past_the_last)),
];

fn odd_clause(draft: &mut Draft, random: &mut Random) -> Option<()> {
    let place = random.below(draft.clauses.len().max(1));
    let clause = draft.clauses.get_mut(place)?;
    if clause.is_empty() || random.percent(50) {
        clause.push(random.below(4) as u8);
    } else {
        clause.pop();
    }
    Some(())
}

fn variable_zero(list: &mut Vec<u16>, _: usize, random: &mut Random) -> Option<()> {
    list.insert(0, random.below(2) as u16);
    Some(())
}

fn past_the_last(list: &mut Vec<u16>, variables: usize, random: &mut Random) -> Option<()> {
    list.push((2 * variables + 2 + random.below(2)) as u16);
    Some(())
}

fn largest_code(list: &mut Vec<u16>, _: usize, random: &mut Random) -> Option<()> {
    list.push(u16::MAX - random.below(2) as u16);
    Some(())
}

fn literal_twice(list: &mut Vec<u16>, _: usize, random: &mut Random) -> Option<()> {
    let place = random.below(list.len().max(1));
    let code = *list.get(place)?;
    list.insert(place, code);
    Some(())
}

fn both_ways(list: &mut Vec<u16>, _: usize, random: &mut Random) -> Option<()> {
    let place = random.below(list.len().max(1));
    let code = *list.get(place)?;
    // Placed so that the codes still rise: only the variables repeat.
    list.insert(place + usize::from(code % 2 == 0), code ^ 1);
    Some(())
}

fn falling(list: &mut Vec<u16>, _: usize, random: &mut Random) -> Option<()> {
    let place = random.below(list.len().max(2) - 1);
    list.get(place + 1)?;
    list.swap(place, place + 1);
    Some(())
}

fn short_body(body: &mut Vec<u8>, random: &mut Random) -> Option<()> {
    body.truncate(if random.percent(30) {
        STEP_HEAD - 1
    } else {
        random.below(STEP_HEAD)
    });
    Some(())
}

fn many_literals(body: &mut Vec<u8>, random: &mut Random) -> Option<()> {
    let room = body.len().checked_sub(STEP_HEAD)? / 2 + 1;
    let count = *random.pick(&[room, room + 1, 0x8000, 0xFFFF])?;
    overwrite(body, 2, &(count as u16).to_le_bytes())
}

fn literal_count(body: &mut Vec<u8>, random: &mut Random) -> Option<()> {
    let count = read_u16(body, 2)?;
    let more = count == 0 || random.percent(50);
    let count = if more {
        count.checked_add(1)?
    } else {
        count - 1
    };
    overwrite(body, 2, &count.to_le_bytes())
}

fn unknown_kind(body: &mut Vec<u8>, random: &mut Random) -> Option<()> {
    *body.first_mut()? = *random.pick(&[0, 6, 7, 0x85, 255])?;
    Some(())
}

fn other_kind(body: &mut Vec<u8>, random: &mut Random) -> Option<()> {
    let (kind, other) = (body.first_mut()?, random.between(1, 5) as u8);
    (*kind != other).then(|| *kind = other)
}

fn second_byte(body: &mut Vec<u8>, random: &mut Random) -> Option<()> {
    *body.get_mut(1)? = 1 << random.below(8);
    Some(())
}

fn short_tail(body: &mut Vec<u8>, random: &mut Random) -> Option<()> {
    let length = Body::read(body)?.tail.len();
    if length == 0 {
        return None;
    }
    let less = random.between(1, length.min(3));
    body.truncate(body.len() - less);
    Some(())
}

fn long_tail(body: &mut Vec<u8>, random: &mut Random) -> Option<()> {
    let more = random.between(1, 3);
    body.resize(body.len() + more, 0);
    Some(())
}

fn number_appended(_: &Draft, _: u32, body: &mut Body, _: &mut Random) -> Option<()> {
    body.tail.extend_from_slice(&1_u32.to_le_bytes());
    Some(())
}

fn no_clause(_: &Draft, _: u32, body: &mut Body, _: &mut Random) -> Option<()> {
    body.tail.clear();
    Some(())
}

/// A number that no clause has, past the last.
pub fn outside(draft: &Draft, random: &mut Random) -> Option<u32> {
    let past = draft.clauses.len() as u32 + 1;
    random
        .pick(&[past, past, past + 0x1_0000, u32::MAX])
        .copied()
}

fn outside_clause(draft: &Draft, _: u32, body: &mut Body, random: &mut Random) -> Option<()> {
    let number = if random.percent(40) {
        0
    } else {
        outside(draft, random)?
    };
    body.cite(0, number)
}

fn first_zero(_: &Draft, _: u32, body: &mut Body, random: &mut Random) -> Option<()> {
    if random.percent(50) {
        return body.cite(0, 0);
    }
    body.tail.splice(0..0, [0; 4]);
    Some(())
}

fn last_outside(draft: &Draft, _: u32, body: &mut Body, random: &mut Random) -> Option<()> {
    let number = outside(draft, random)?;
    if random.percent(50) {
        return body.cite((body.tail.len() / 4).checked_sub(1)?, number);
    }
    body.tail.extend_from_slice(&number.to_le_bytes());
    Some(())
}

fn clause_twice(_: &Draft, _: u32, body: &mut Body, random: &mut Random) -> Option<()> {
    let number = *random.pick(&body.cited())?;
    let place = 4 * body.cited().iter().position(|other| *other == number)?;
    body.tail.splice(place..place, number.to_le_bytes());
    Some(())
}

fn falling_clauses(_: &Draft, _: u32, body: &mut Body, random: &mut Random) -> Option<()> {
    let cited = body.cited();
    let place = random.below(cited.len().max(2) - 1);
    let (this, next) = (*cited.get(place)?, *cited.get(place + 1)?);
    body.cite(place, next)?;
    body.cite(place + 1, this)
}

fn later_step(draft: &Draft, own: u32, body: &mut Body, random: &mut Random) -> Option<()> {
    let count = draft.steps.len() as u32;
    if own >= count {
        return None;
    }
    let later = random.between(own as usize + 1, count as usize) as u32;
    body.cite(random.below(2), later)
}

fn step_past_the_last(draft: &Draft, _: u32, body: &mut Body, random: &mut Random) -> Option<()> {
    let number = *random.pick(&[draft.steps.len() as u32 + 1, 1 << 31, u32::MAX])?;
    body.cite(random.below(2), number)
}
