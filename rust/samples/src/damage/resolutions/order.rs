//! Several faults of a step of kind 4, and faults of two such steps: which of them is told.

use crate::damage::{damage, places, two_places, Damage, Way};
use crate::draft::Draft;
use crate::random::Random;
use crate::widening::records::hold_all;
use crate::widening::{cited_before, resolution_at, Needed, KIND};
use Fault::{Bound, Form, Literal, Pivot};

/// What may be wrong with a step of kind 4.
#[derive(Clone, Copy, Debug, PartialEq, Eq)]
pub enum Fault {
    /// It holds its pivot both ways: 8.
    Form,
    /// One step is cited twice, so that it lacks the pivot in one way: 16. The step holds all of its literals, so that
    /// nothing is missing.
    Pivot,
    /// A literal is missing: 17.
    Literal,
    /// One above the lesser bound: 18.
    Bound,
}

/// The faults of one step, and those of a later one.
pub type Faults = (&'static [Fault], &'static [Fault]);

const fn order(aimed: &'static str, faults: &'static [Fault]) -> Damage {
    damage(aimed, Way::Resolve((faults, &[])))
}

const fn later(aimed: &'static str, first: &'static [Fault], later: &'static [Fault]) -> Damage {
    damage(aimed, Way::Resolve((first, later)))
}

pub const RESOLUTION_ORDER: &[Damage] = &[
    order("8 both ways and pivot", &[Form, Pivot]),
    order("8 both ways and literal missing", &[Form, Literal]),
    order("8 both ways and bound above", &[Form, Bound]),
    order("16 pivot, and nothing missing", &[Pivot]),
    order("16 pivot and literal missing", &[Pivot, Literal]),
    order("16 pivot and bound above", &[Pivot, Bound]),
    order("16 pivot, literal and bound", &[Pivot, Literal, Bound]),
    order("17 literal missing and bound above", &[Literal, Bound]),
    // Of two steps the first decides, though the fault of the second would come first in one step.
    later("16 pivot before a later form", &[Pivot], &[Form]),
    later("17 literal before a later form", &[Literal], &[Form]),
    later("17 literal before a later pivot", &[Literal], &[Pivot]),
    later("18 bound before a later form", &[Bound], &[Form]),
    later("18 bound before a later pivot", &[Bound], &[Pivot]),
    later("18 bound before a later literal", &[Bound], &[Literal]),
];

/// Makes the faults in one step of kind 4, and the later ones in another behind it.
pub fn resolve((first, later): Faults, draft: &mut Draft, random: &mut Random) -> Option<()> {
    if later.is_empty() {
        let mut tried = places(KIND, draft, random).into_iter();
        return tried.find_map(|place| make(first, place, draft, random));
    }
    let [before, behind] = two_places(KIND, draft, random)?;
    // What is wrong with a premise may be wrong with the step, too.
    if cited_before(&resolution_at(draft, behind)?, behind).contains(&before) {
        return None;
    }
    make(first, before, draft, random)?;
    make(later, behind, draft, random)
}

/// What no fault is made of is right for what the other faults leave.
fn make(faults: &[Fault], place: usize, draft: &mut Draft, random: &mut Random) -> Option<()> {
    let mut body = resolution_at(draft, place)?;
    if faults.contains(&Pivot) {
        let from = random.below(2);
        body.cite(1 - from, body.citation(from)?)?;
    }
    let needed = Needed::of(draft, &body)?;
    hold_all(&mut body, &needed.literals)?;
    body.bound = body.bound.min(needed.bound);
    if faults.contains(&Literal) {
        body.remove(*random.pick(&needed.literals)?);
    }
    if faults.contains(&Bound) {
        body.bound = needed.bound.checked_add(1)?;
    }
    if faults.contains(&Form) {
        let code = body.pivot()?.checked_mul(2)?;
        body.remove(code + 1);
        body.remove(code);
        body.add(code);
        body.add(code + 1);
    }
    draft.steps[place] = body.bytes();
    Some(())
}
