//! A Rust program with the proved library's method, written for speed: the same answers, the same
//! numbers in the run's slice, the same checks. Nothing of it is proved.

pub mod run;
pub mod sheet;
pub mod slot;
pub mod verdict;

/// A refusal's number and place.
pub type Refused = (u32, u32);
