//! The reference checker: document 01, with changes 1, 2, 3, 5, 6, 7, 8, 9 and 11 of document 02, in the plainest
//! Rust there is. Changes 4 and 10 alter no answer.
//!
//! It exists to be compared with the proved checker, so it shares nothing with it and prefers sets, copies and
//! wide numbers to speed. Each function is meant to be held beside one row of document 01's refusal table,
//! or beside those that one kind of step has.
//!
//! The code uses the field's words; document 01 uses the trade's:
//!
//! | here | document 01 |
//! |---|---|
//! | variable, true or false | paddle, open or shut |
//! | positive or negative literal | "v open" or "v shut" |
//! | clause | rule |
//! | assignment, satisfies | arrangement, keeps |
//! | cost clause (001, definition 2) | statement |
//! | independent set (001, 5.1.1) | kind 3 |
//! | cost resolution (001, definition 8), with weakening | kind 4 |
//! | weighted clauses (001, 5.1.2) | kind 5 |
//!
//! There are four kinds of answer, and a [`Verdict`] names them: two acceptances, "within", and the refusals. Writing a
//! sheet judges nothing, and answers with [`Written`]; nor does searching one for a plan, which answers with [`Found`].
//! Trimming a record judges it first, and answers with [`Written`] too. Turning variables answers with [`Turned`].

#![forbid(unsafe_code)]
#![warn(missing_docs)]

mod answer;
mod assignment;
pub mod brute;
mod cost_clause;
mod independent;
mod judge;
mod layout;
mod literal;
mod record;
mod refusal;
mod resolution;
mod search;
mod sheet;
mod show;
mod steps;
mod trim;
mod turn;
mod weighted;
mod write;

pub use answer::{Answer, Verdict};
pub use judge::{judge, oversize, sheet_is_valid};
pub use search::{search, Found};
pub use show::{line, show};
pub use trim::trim;
pub use turn::{turn, Turned};
pub use write::{write_sheet, Written};

/// The bound, or the claim, "none". No sum of a sheet's costs comes near it, its standing loss included.
pub const NONE: u64 = u64::MAX;
