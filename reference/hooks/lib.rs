//! Root for the planner's sources, with every module open to the comparison driver.

// The analyzer and the adjusting of given cuts are not run here.
#![allow(dead_code)]

extern crate alloc;

pub mod analyze;
pub mod candidates;
pub mod dp;
pub mod errors;
mod filter;
mod math;
pub mod plan;
pub mod sample;
pub mod segment;
