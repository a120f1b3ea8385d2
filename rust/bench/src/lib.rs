//! A checker written for speed in safe Rust, to measure the proved one by. It answers every pair of files as
//! docs/FORMATS.md says, so that it does the same work; the tests hold it to the reference checker. So it is with two writers
//! of a sheet in its one order, with three searches for a plan, with two trimmers of a record, and with two turners of
//! variables.
//!
//! Nothing is allocated for a step. The pairs of the record are gone through once, and each step is checked as its pair is
//! read: a fault of a step waits until the pairs after it are seen, because theirs is told before it.

#![forbid(unsafe_code)]

mod again;
mod copy;
mod independent;
mod judge;
mod linear;
mod masks;
mod plan;
mod read;
mod record;
mod refusal;
mod resolve;
mod search;
pub mod searched;
pub mod sets;
mod sheet;
mod sliced;
mod step;
mod trim;
pub mod trimmed;
mod turn;
pub mod turned;
mod walk;
mod watched;
mod write;

pub use again::search_again;
pub use judge::judge;
pub use resolve::{Marks, Merge, Resolve};
pub use sliced::search_sliced;
pub use trim::{trim_listed, trim_runs};
pub use turn::{turn_afresh, turn_last, turn_looked, turn_signed, Turn};
pub use watched::search_watched;
pub use write::{write_decoded, write_stored};
