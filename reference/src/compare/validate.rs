//! The recording's tests: which recordings are covered, which refusal comes first, and flags byte by byte.

pub(super) mod changes;
mod flags;

use super::Subject;
use crate::case::Case;
use crate::domain::MOST_FRAMES;
use crate::first_refusal;
use crate::ours;
use crate::recording::{self, Recording};
use crate::rng::Rng;
use crate::tally::Tally;

/// One recording in so many is large: it takes as long as thousands of small ones.
const LARGE: u64 = 10_000;

pub fn subjects() -> impl Iterator<Item = Subject> {
    let coverage = Subject::new("coverage", |amount, rng, tally| {
        let trials = [601, 799, 600, 800].map(Case::trial);
        each(amount.inputs, tally, &trials, |i| edge_of_coverage(rng, i));
    });
    let refusals = Subject::new("refusals", |amount, rng, tally| {
        let trials = [(768_001, 700), (192_001, 700), (768_000, 537_600)].map(|(rate, len)| {
            let mut trial = Case::trial(len);
            trial.sample_rate = rate;
            trial
        });
        each(amount.inputs, tally, &trials, |i| changed(rng, i));
    });
    let flags = Subject::new("flags", |amount, rng, tally| {
        each(amount.inputs, tally, &[], |i| flags::with_flags(rng, i));
    });
    [coverage, refusals, flags].into_iter()
}

/// Compares document 01's trial cuts first, then what `make` gives for each index.
fn each(n: u64, tally: &mut Tally, trials: &[Case], mut make: impl FnMut(u64) -> Case) {
    for i in 0..n {
        let case = trials.get(i as usize).cloned().unwrap_or_else(|| make(i));
        let ours = ours::validate(&case.lent());
        let expected = first_refusal::of_recording(&case);
        let covers = ours::covers(&case.lent());
        let covered = match expected {
            0 => covers,
            6 => !covers,
            _ => true,
        };
        let flags = ours::are_flags(&case.flags);
        let flagged = flags == case.flags.iter().all(|flag| *flag <= 1);
        let same = ours == expected && covered && flagged;
        tally.take(same, case.weight(), || {
            let case = case.show();
            format!("{case}: ours {ours}, covers {covers}, flags {flags}, expected {expected}")
        });
    }
}

/// Scores whose length is one below, at or one above an edge of what the frames cover.
fn edge_of_coverage(rng: &mut Rng, i: u64) -> Case {
    if rng.one_in(64) {
        return Case::silent_scores(&Recording::at_greatest_len(rng));
    }
    let frames = recording::frames(rng, i % LARGE == 10);
    let mut made = Recording::accepted(rng, frames);
    made.len = recording::edge_len(rng, &made);
    Case::silent_scores(&made)
}

/// An accepted recording, up to three things about it changed.
fn changed(rng: &mut Rng, i: u64) -> Case {
    let frames = match i % LARGE {
        10 => MOST_FRAMES,
        11 => MOST_FRAMES + 1,
        _ => rng.magnitude(40),
    };
    let mut case = Case::accepted(rng, frames);
    match rng.below(8) {
        0 => {}
        1..=3 => changes::apply(&mut case, rng, &[1 + i % 6]),
        4..=6 => changes::apply(&mut case, rng, &[1 + i % 5, 2 + i % 5]),
        _ => {
            let three = [1 + rng.below(6), 1 + rng.below(6), 1 + rng.below(6)];
            changes::apply(&mut case, rng, &three);
        }
    }
    case
}
