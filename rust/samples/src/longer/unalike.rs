//! Sheets that are not the shorter one with clauses behind it, though little has changed: nothing is promised of their records.

use super::Longer;
use crate::draft::code_bytes;
use crate::random::Random;

/// A change to a longer sheet, by a name; nothing where it does not apply.
pub type Change = (&'static str, fn(&mut Longer, &mut Random) -> Option<()>);

pub const CHANGES: &[Change] = &[
    ("another cost", another_cost),
    ("another loss", another_loss),
    ("a clause removed", clause_removed),
    ("a clause moved", clause_moved),
    ("a clause with a literal less", literal_removed),
    ("the added ones in front", added_in_front),
];

/// Of a true variable, or the claim would stay what it was.
fn another_cost(pair: &mut Longer, random: &mut Random) -> Option<()> {
    let variables = 1..=pair.draft.variables();
    let open: Vec<usize> = variables.filter(|v| pair.draft.value(*v)).collect();
    let variable = *random.pick(&open)?;
    pair.draft.costs[variable - 1] ^= 1;
    Some(())
}

fn another_loss(pair: &mut Longer, _: &mut Random) -> Option<()> {
    pair.loss = Some(pair.loss.unwrap_or(0) ^ 1);
    Some(())
}

/// One that is not the last, so that others get its number.
fn clause_removed(pair: &mut Longer, random: &mut Random) -> Option<()> {
    let count = pair.draft.clauses.len();
    let place = random.below(count.checked_sub(1).filter(|last| *last > 0)?);
    pair.draft.clauses.remove(place);
    Some(())
}

/// From its place to another.
fn clause_moved(pair: &mut Longer, random: &mut Random) -> Option<()> {
    let clauses = &mut pair.draft.clauses;
    let from = random.below(clauses.len().max(1));
    let places: Vec<usize> = (0..clauses.len()).filter(|to| *to != from).collect();
    let to = *random.pick(&places)?;
    let moved = clauses.remove(from);
    clauses.insert(to, moved);
    Some(())
}

fn literal_removed(pair: &mut Longer, random: &mut Random) -> Option<()> {
    let place = random.below(pair.draft.clauses.len().max(1));
    let clause = pair.draft.clauses.get_mut(place)?;
    let length = clause.len().checked_sub(2)?;
    clause.truncate(length);
    Some(())
}

/// The same clauses in all, but each of the sheet's own has another number.
fn added_in_front(pair: &mut Longer, _: &mut Random) -> Option<()> {
    let added = std::mem::take(&mut pair.added);
    let bodies = added.iter().map(|clause| code_bytes(clause));
    pair.draft.clauses.splice(0..0, bodies.collect::<Vec<_>>());
    (!added.is_empty()).then_some(())
}
