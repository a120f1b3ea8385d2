//! The judgement: the refusals in their order, and what is answered where none of them applies.

use crate::plan;
use crate::read::{fault, Fault};
use crate::record::Record;
use crate::refusal;
use crate::resolve::Resolve;
use crate::sheet::Sheet;
use crate::step::CostClause;
use crate::walk::Walk;
use proved::{Answer, NONE};

/// As many bytes as a file may have.
pub(crate) const LONGEST: u64 = 4_294_967_295;

/// The answer to a sheet and a record of any bytes.
pub fn judge<R: Resolve>(sheet: &[u8], record: &[u8]) -> Answer {
    unrefused::<R>(sheet, record).unwrap_or_else(|Fault { number, place }| Answer {
        number,
        place,
        cost: 0,
        open_count: 0,
        step_count: 0,
        gap: 0,
    })
}

/// An acceptance or an answer with a gap.
fn unrefused<R: Resolve>(sheet: &[u8], record: &[u8]) -> Result<Answer, Fault> {
    if sheet.len().max(record.len()) as u64 > LONGEST {
        return fault(refusal::OVERSIZE, 0);
    }
    let sheet = Sheet::read(sheet)?;
    let record = Record::read(record, sheet.variable_count())?;
    let plan = plan::check(&sheet, &record);
    let last = Walk::<R>::new(&sheet, &record).run(plan)?;
    let step_count = record.pairs.len();
    let Some(gap) = gap(&last, record.claim) else {
        return fault(refusal::CLOSE, step_count);
    };
    Ok(Answer {
        number: 0,
        place: 0,
        cost: record.claim,
        open_count: record.open_count(),
        step_count: step_count as u64,
        gap,
    })
}

/// What the last step leaves between its bound and the claim; nothing where it has literals, or where the claim is "none" and
/// the bound is not.
fn gap(last: &CostClause, claim: u64) -> Option<u64> {
    let closes = last.bound >= claim;
    let is_refused = !last.literals.is_empty() || (claim == NONE && !closes);
    (!is_refused).then(|| claim.saturating_sub(last.bound))
}
