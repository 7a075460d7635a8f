//! Compares a `heapscript` program with a reference of its own on random scripts.

#![forbid(unsafe_code)]

pub mod check;
pub mod generate;
pub mod heap;
pub mod random;
pub mod reference;
pub mod refusal;
pub mod report;
pub mod run;
pub mod shrink;
pub mod tally;
pub mod text;
