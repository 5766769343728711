//! An independent checker of yield marks, written from document 01's words alone.
//!
//! It is naive on purpose: each part is meant to be seen to be right by reading it beside
//! the sentence of document 01 that it follows. It shares nothing with the proved checker.

pub mod conflict;
pub mod dot;
pub mod graph;
mod judge;
pub mod machine;
pub mod propose;
pub mod record;
mod report;
pub mod swaps;
pub mod text;
pub mod transactions;
pub mod why;
pub mod words;

pub use judge::{faults, judge, possible_history, Answer, Refusal, MOST_BYTES, WORK_AREA};
pub use report::{report, MOST_READ};
