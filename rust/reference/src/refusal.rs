//! The refusals, under the words of document 01's table. Document 02 adds numbers to the table without words; from
//! 20 on the words are the project's own.

/// A refusal with the clause or step it is told at.
#[derive(Clone, Copy, Debug, PartialEq, Eq)]
pub(crate) struct Refusal {
    pub number: u32,
    pub place: u64,
}

/// A refusal with its place, for the right-hand side of a failed test.
pub(crate) fn refuse<T>(number: u32, place: u64) -> Result<T, Refusal> {
    Err(Refusal { number, place })
}

pub(crate) const OVERSIZE: u32 = 1;
pub(crate) const SHEET_HEAD: u32 = 2;
pub(crate) const SHEET_PAIRS: u32 = 3;
pub(crate) const RULE_FORM: u32 = 4;
pub(crate) const RECORD_HEAD: u32 = 5;
pub(crate) const STRAY_BIT: u32 = 6;
pub(crate) const RECORD_PAIRS: u32 = 7;
pub(crate) const STEP_FORM: u32 = 8;
pub(crate) const CITATION: u32 = 9;
pub(crate) const BROKEN_RULE: u32 = 10;
pub(crate) const CLAIMED_COST: u32 = 11;
pub(crate) const COPY: u32 = 12;
pub(crate) const COST_BOUND: u32 = 13;
pub(crate) const DEPENDENCE: u32 = 14;
pub(crate) const INDEPENDENT_BOUND: u32 = 15;
pub(crate) const PIVOT: u32 = 16;
pub(crate) const RESOLVENT: u32 = 17;
pub(crate) const LESSER_BOUND: u32 = 18;
pub(crate) const CLOSE: u32 = 19;
pub(crate) const UNSETTLED_SHUT: u32 = 20;
pub(crate) const ALL_SETTLED: u32 = 21;
pub(crate) const SHARED_PADDLE: u32 = 22;
pub(crate) const WEIGHTS: u32 = 23;
pub(crate) const LINEAR_BOUND: u32 = 24;
pub(crate) const SHORT_BUFFER: u32 = 25;
pub(crate) const MANY_PADDLES: u32 = 26;
pub(crate) const FEW_MARKS: u32 = 27;
pub(crate) const SHORT_OUTPUT: u32 = 28;
/// "Short buffer" like 25, of another call.
pub(crate) const SHORT_TURN_BUFFER: u32 = 29;
pub(crate) const WRONG_TURN: u32 = 30;
