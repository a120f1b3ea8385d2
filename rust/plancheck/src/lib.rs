//! The plan checker's command line: everything around the proved checker that a person needs to use it.
//!
//! Nothing here judges. Every verdict is `proved::judge`'s; what a canonical sheet is, `proved::write_sheet` says, what a search
//! finds, `proved::search`, what is left of a trimmed record, `proved::trim`, and which clauses a turn breaks, `proved::turn`. The
//! readers below take files apart to show them.
#![forbid(unsafe_code)]

pub mod args;
pub mod bodies;
pub mod commands;
pub mod dependence;
pub mod explain;
pub mod failure;
pub mod files;
pub mod help;
pub mod import;
pub mod pack;
pub mod places;
pub mod record;
pub mod refusals;
pub mod resolution;
pub mod search;
pub mod sheet;
pub mod stats;
pub mod steps;
pub mod text;
pub mod trim;
pub mod turns;
pub mod weighted;
pub mod weights;
pub mod words;
