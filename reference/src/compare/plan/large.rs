//! Plans of many frames: by length up to the limit, by count as far as time and a parent list of
//! some megabytes allow.

use super::{Caller, ask_accepted};
use crate::compare::Amount;
use crate::domain::MOST_FRAMES;
use crate::plan_job::Job;
use crate::rng::Rng;
use crate::tally::Tally;

/// The smaller of the two sizes that always come, and the least of those below it.
const SMALLER: u64 = 65_536;
const LEAST: u64 = 600;

/// Entries of a parent list at most: each takes the Rust up to two microseconds, in each of two
/// paths.
const PARENTS: u64 = 1 << 18;

/// The same, of 16 MB, for one input in so many.
const GREAT_PARENTS: u64 = 1 << 22;
const GREAT: u64 = 36;

/// The same, of 128 MB, for one in so many, which alone takes more than a minute.
const GREATEST_PARENTS: u64 = 1 << 25;
const GREATEST: u64 = 144;

/// By length and by count in turn, three sizes of each.
pub fn large(amount: Amount, rng: &mut Rng, tally: &mut Tally) {
    let mut caller = Caller::new();
    for i in 0..amount.large(36, 6) {
        let frames = match i / 2 % 3 {
            0 => SMALLER,
            1 => LEAST + rng.below(SMALLER - LEAST),
            _ => MOST_FRAMES,
        };
        let job = Job::long_to_plan(rng, frames, i % 2 == 1, parents(i));
        ask_accepted(&mut caller, &job, rng, tally);
    }
}

/// Entries of the parent list of input `i`, at most.
fn parents(i: u64) -> u64 {
    if i % GREATEST == GREATEST - 1 {
        GREATEST_PARENTS
    } else if i % GREAT == GREAT - 1 {
        GREAT_PARENTS
    } else {
        PARENTS
    }
}
