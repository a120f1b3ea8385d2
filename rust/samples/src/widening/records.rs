//! Records with wider resolutions that stay accepted. What a step holds beyond need, all that cite it have to hold too, unless
//! they resolve it away, and their bounds may not be above its own. So a record is gone through from its end: a step takes
//! literals that all who cite it hold already, and no bound below theirs.

use super::{cited_before, resolution_at, Needed, KIND};
use crate::damage::places;
use crate::draft::{Body, Draft};
use crate::random::Random;
use crate::weights::branch::resolution;

/// Brings wider resolutions into an accepted record, which stays accepted.
pub fn join(draft: &mut Draft, random: &mut Random) {
    for _ in 0..random.below(3) {
        split_some(draft, random);
    }
    for _ in 0..random.below(3) {
        insert(draft, random);
    }
    widen(draft, random);
}

/// What those that cite a step leave it free to become.
#[derive(Clone, Debug, Default)]
struct Leave {
    /// What all of them hold; nothing where nobody cites the step, so that it may hold anything.
    literals: Option<Vec<u16>>,
    /// The greatest of their bounds.
    bound: u64,
}

impl Leave {
    /// One more step cites it.
    fn narrow(&mut self, citing: &Body) {
        match &mut self.literals {
            Some(literals) => literals.retain(|code| citing.holds(*code)),
            None => self.literals = Some(citing.literals.clone()),
        }
        self.bound = self.bound.max(citing.bound);
    }

    /// Has the step use some of its freedom.
    fn take(&self, body: &mut Body, variables: usize, random: &mut Random) {
        let further = match &self.literals {
            Some(held) => some_of(held, random),
            None => some_literals(body, variables, random),
        };
        for code in further {
            if body.has_room_for(code) {
                body.add(code);
            }
        }
        if random.percent(50) {
            body.bound = some_bound(self.bound, body.bound, random);
        }
    }
}

fn some_of(held: &[u16], random: &mut Random) -> Vec<u16> {
    let share = [0, 40, 100][random.below(3)];
    let mut some = held.to_vec();
    some.retain(|_| random.percent(share));
    some
}

/// Often the pivot's own, in either way; then none, a few, or, seldom, one of every variable.
fn some_literals(body: &Body, variables: usize, random: &mut Random) -> Vec<u16> {
    let pivot = body.pivot().and_then(|pivot| pivot.checked_mul(2));
    let own = pivot.filter(|_| random.percent(40));
    let mut drawn: Vec<u16> = own.into_iter().collect();
    if random.percent(3) {
        drawn.extend((1..=variables as u16).map(|variable| 2 * variable));
    } else {
        let count = [0, 1, 1, 2, 4][random.below(5)];
        drawn.extend((0..count).map(|_| 2 * random.between(1, variables) as u16));
    }
    drawn
        .iter_mut()
        .for_each(|code| *code += random.below(2) as u16);
    drawn
}

/// A bound in this range: an end of it, one off an end, or any, small ones as likely as large ones.
pub fn some_bound(low: u64, high: u64, random: &mut Random) -> u64 {
    let Some(range) = high.checked_sub(low).filter(|range| *range > 0) else {
        return high;
    };
    let any = (random.next_u64() % range) >> random.below(64);
    low + [0, 1, range - 1, range, any, any][random.below(6)]
}

/// Has the resolutions hold more and state less, all but the last step, as far as those that cite them allow.
pub fn widen(draft: &mut Draft, random: &mut Random) -> Option<()> {
    let (variables, count) = (draft.variables(), draft.steps.len());
    let mut leaves = vec![Leave::default(); count];
    let mut changed = false;
    for place in (0..count).rev() {
        let Some(mut body) = resolution_at(draft, place) else {
            continue;
        };
        if place + 1 < count {
            leaves[place].take(&mut body, variables, random);
        }
        let premises = cited_before(&body, place).into_iter();
        premises.for_each(|premise| leaves[premise].narrow(&body));
        let bytes = body.bytes();
        changed |= draft.steps[place] != bytes;
        draft.steps[place] = bytes;
    }
    changed.then_some(())
}

/// One resolution once more, as wide as may be, since nobody cites it.
pub fn insert(draft: &mut Draft, random: &mut Random) -> Option<()> {
    let place = *places(KIND, draft, random).first()?;
    let mut body = resolution_at(draft, place)?;
    Leave::default().take(&mut body, draft.variables(), random);
    draft.insert(place, body.bytes());
    Some(())
}

/// Puts two wider resolutions of its premises before a resolution, one with each literal of this variable, and has it resolve
/// these two instead: it states what it did. Nothing where it holds the variable.
pub fn split(draft: &mut Draft, place: usize, variable: u16) -> Option<()> {
    let body = resolution_at(draft, place)?;
    let code = variable.checked_mul(2)?;
    if !body.has_room_for(code) {
        return None;
    }
    let wider = [code, code + 1].map(|code| {
        let mut wider = body.clone();
        wider.add(code);
        wider
    });
    let premises = [(&wider[0], place + 1), (&wider[1], place + 2)];
    let joined = resolution(premises, variable, body.literals);
    draft.insert_all(wider.iter().map(|wider| (place, wider.bytes())).collect());
    draft.steps[place + 2] = joined.bytes();
    Some(())
}

/// Splits one, half of the time on its own pivot.
fn split_some(draft: &mut Draft, random: &mut Random) -> Option<()> {
    let place = *places(KIND, draft, random).first()?;
    let pivot = resolution_at(draft, place)?.pivot()?;
    let any = random.between(1, draft.variables()) as u16;
    split(draft, place, *random.pick(&[pivot, any])?)
}

/// Has every resolution hold what its premises ask for by now, and no bound above theirs. Nothing where one would have to hold
/// a variable both ways.
pub fn carry(draft: &mut Draft) -> Option<()> {
    for place in 0..draft.steps.len() {
        let Some(mut body) = resolution_at(draft, place) else {
            continue;
        };
        let needed = Needed::of(draft, &body)?;
        hold_all(&mut body, &needed.literals)?;
        body.bound = body.bound.min(needed.bound);
        draft.steps[place] = body.bytes();
    }
    Some(())
}

/// Adds those that are missing; nothing where one of them is there turned round.
pub fn hold_all(body: &mut Body, literals: &[u16]) -> Option<()> {
    for code in literals {
        if body.has_room_for(*code) {
            body.add(*code);
        } else if !body.holds(*code) {
            return None;
        }
    }
    Some(())
}
