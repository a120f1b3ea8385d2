//! A step's body and the step that it stores, where it stores one.

use crate::bodies::{u16_at, u32_at, u64_at};
use crate::sheet;
use planner::format::{self, STEP_HEAD};
use planner::{Reason, Step};

/// The step of a body. Nothing where another body is written for that step, so that what can be read can be written back.
pub fn read(body: &[u8]) -> Option<Step> {
    let count = usize::from(u16_at(body, 2)?);
    let bound = u64_at(body, 4)?;
    let tail = STEP_HEAD + 2 * count;
    let step = Step {
        literals: sheet::literals(body.get(STEP_HEAD..tail)?)?,
        bound,
        reason: reason(body[0], &body[tail..])?,
    };
    (format::step_body(&step) == body).then_some(step)
}

fn reason(kind: u8, tail: &[u8]) -> Option<Reason> {
    match kind {
        1 => u32_at(tail, 0).map(|clause| Reason::Copy { clause }),
        2 => Some(Reason::Cost),
        3 => {
            let clauses = tail
                .chunks(4)
                .map(|chunk| Some(u32::from_le_bytes(chunk.try_into().ok()?)));
            let clauses = clauses.collect::<Option<_>>()?;
            Some(Reason::Independent { clauses })
        }
        4 => Some(Reason::Resolution {
            positive: u32_at(tail, 0)?,
            negative: u32_at(tail, 4)?,
            pivot: u16_at(tail, 8)?,
        }),
        5 => {
            let entries = tail.get(2..)?.chunks(6);
            let weights = entries.map(|entry| Some((u32_at(entry, 0)?, u16_at(entry, 4)?)));
            let weights: Vec<_> = weights.collect::<Option<_>>()?;
            let divisor = u16_at(tail, 0)?;
            (!weights.is_empty()).then_some(Reason::Linear { divisor, weights })
        }
        _ => None,
    }
}
