//! What is answered to a sheet and a record. Number 0 alone does not say that the record is accepted: it may be that
//! the steps leave a gap. The [`Verdict`] tells the two apart.

use crate::NONE;

/// The judgement on a sheet and a record.
#[derive(Clone, Copy, Debug, PartialEq, Eq)]
pub struct Answer {
    /// The refusal's number; 0 where nothing is refused, with a gap or without.
    pub number: u32,
    /// The clause or step that the refusal names; 0 where nothing is refused and where there is none to name.
    pub place: u64,
    /// The claim, [`NONE`] included; 0 with a refusal.
    pub cost: u64,
    /// How many variables the assignment makes true; 0 with a refusal and under the claim "none".
    pub open_count: u64,
    /// How many steps the record has; 0 with a refusal.
    pub step_count: u64,
    /// How far the last bound stays below a claim that is a cost; 0 with an acceptance and with a refusal.
    pub gap: u64,
}

/// The four kinds of answer. The first two are the acceptances.
#[derive(Clone, Copy, Debug, PartialEq, Eq)]
pub enum Verdict {
    /// The assignment satisfies the sheet and none that does is cheaper.
    Least,
    /// No assignment satisfies the sheet.
    NoneExists,
    /// The assignment satisfies the sheet and none that does is cheaper by more than the gap. Whether one is cheaper
    /// at all is left open, so this is no acceptance; and nothing is at fault, so it is no refusal.
    Within,
    /// Something is at fault.
    Refused,
}

impl Answer {
    /// Which kind of answer this is. Nothing else tells an acceptance from a gap.
    pub fn verdict(&self) -> Verdict {
        if self.number != 0 {
            Verdict::Refused
        } else if self.gap != 0 {
            Verdict::Within
        } else if self.cost == NONE {
            Verdict::NoneExists
        } else {
            Verdict::Least
        }
    }

    /// The record's claim is borne out: least or none. An answer with a gap is not among them.
    pub fn accepts(&self) -> bool {
        matches!(self.verdict(), Verdict::Least | Verdict::NoneExists)
    }

    /// Something is at fault. This is not the opposite of [`accepts`](Answer::accepts): an answer with a gap is
    /// neither.
    pub fn refuses(&self) -> bool {
        self.verdict() == Verdict::Refused
    }
}
