//! Several faults of a step of kind 5, and faults of two such steps: which of them is told.

use super::{mend_bound, reweigh};
use crate::damage::statements::bound_off_by_one;
use crate::damage::{damage, places, two_places, Damage, Way};
use crate::draft::{Body, Draft};
use crate::random::Random;
use crate::weights::KIND;
use Fault::{Bound, Citation, Divisor, Tail, Weight};

/// What may be wrong with a step of kind 5.
#[derive(Clone, Copy, Debug, PartialEq, Eq)]
pub enum Fault {
    /// A byte too many: 8.
    Tail,
    /// The last clause does not rise: 9. It stands behind the weights and the divisor that may be 0.
    Citation,
    /// The first weight is 0: 23.
    Weight,
    /// 0: 23.
    Divisor,
    /// One off: 24.
    Bound,
}

/// The faults of one step, and those of a later one.
pub type Faults = (&'static [Fault], &'static [Fault]);

const fn order(aimed: &'static str, faults: &'static [Fault]) -> Damage {
    damage(aimed, Way::Weigh((faults, &[])))
}

const fn later(aimed: &'static str, first: &'static [Fault], later: &'static [Fault]) -> Damage {
    damage(aimed, Way::Weigh((first, later)))
}

pub const LINEAR_ORDER: &[Damage] = &[
    order("8 tail and citation", &[Tail, Citation]),
    order("8 tail and weight", &[Tail, Weight]),
    order("8 tail and divisor", &[Tail, Divisor]),
    order("8 tail and linear bound", &[Tail, Bound]),
    // Every citation comes before every weight, though the weight stands in front of it.
    order("9 citation after a weight", &[Citation, Weight]),
    order("9 citation after the divisor", &[Citation, Divisor]),
    order("9 citation and linear bound", &[Citation, Bound]),
    order(
        "9 citation, weight and linear bound",
        &[Citation, Weight, Bound],
    ),
    order("23 weight and linear bound", &[Weight, Bound]),
    order("23 divisor and weight", &[Divisor, Weight]),
    // Of two steps the first decides, though the fault of the second would come first in one step.
    later("9 citation before a later tail", &[Citation], &[Tail]),
    later("23 weight before a later tail", &[Weight], &[Tail]),
    later("23 weight before a later citation", &[Weight], &[Citation]),
    later("24 bound before a later tail", &[Bound], &[Tail]),
    later("24 bound before a later citation", &[Bound], &[Citation]),
    later("24 bound before a later weight", &[Bound], &[Weight]),
];

/// Makes the faults in one step of kind 5, and the later ones in another behind it.
pub fn weigh((first, later): Faults, draft: &mut Draft, random: &mut Random) -> Option<()> {
    if later.is_empty() {
        let place = *places(KIND, draft, random).first()?;
        return make(first, place, draft, random);
    }
    let [before, behind] = two_places(KIND, draft, random)?;
    make(first, before, draft, random)?;
    make(later, behind, draft, random)
}

/// The bound is right for what the other faults leave, unless it is a fault itself.
fn make(faults: &[Fault], place: usize, draft: &mut Draft, random: &mut Random) -> Option<()> {
    let mut body = Body::read(&draft.steps[place])?;
    reweigh(&mut body, |weights| {
        if faults.contains(&Citation) {
            let (number, _) = *random.pick(&weights.entries)?;
            weights.entries.push((number, 1));
        }
        if faults.contains(&Weight) {
            weights.entries.first_mut()?.1 = 0;
        }
        if faults.contains(&Divisor) {
            weights.divisor = 0;
        }
        Some(())
    })?;
    mend_bound(draft, &mut body);
    if faults.contains(&Bound) {
        bound_off_by_one(draft, place as u32 + 1, &mut body, random)?;
    }
    if faults.contains(&Tail) {
        body.tail.push(0);
    }
    draft.steps[place] = body.bytes();
    Some(())
}
