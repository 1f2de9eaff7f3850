//! Whole plans with the Rust's own settings: the port's function beside the Rust's `plan`, on a
//! recording that already stands, which ours also tests.
//!
//! For decibels the Rust also smooths the levels, which are lent to the port. By count the parent
//! list is as long as it has to be.

use std::hint::black_box;

use silence_split::plan::plan;

use super::candidates::{KINDS, job, without_smoothing};
use super::cleared::{GROWN_FROM, Times, both_with_parent, grow};
use super::recordings;
use crate::domain::MOST_FRAMES;
use crate::ours::{self, plan::Answer};
use crate::plan_job::Job;

const SIZES: [u64; 3] = [1_000, GROWN_FROM, MOST_FRAMES];

/// Pieces by count.
const COUNTS: [u32; 3] = [10, 100, 699];

pub fn run() {
    for (kind, make) in KINDS {
        for (gaps, drop_gaps) in [("keep", false), ("drop", true)] {
            let name = format!("plan_length_{kind}_{gaps}");
            grow(&name, &SIZES, |name, frames| {
                times(name, &job(frames, make, drop_gaps))
            });
        }
    }
    for frames in SIZES {
        for count in COUNTS {
            for (gaps, drop_gaps) in [("keep", false), ("drop", true)] {
                let mut job = job(frames, recordings::speech, drop_gaps);
                (job.plan.by_count, job.plan.count) = (true, count);
                times(&format!("plan_count_speech_{gaps}_{frames}_{count}"), &job);
            }
        }
    }
}

fn times(name: &str, job: &Job) -> Times {
    let (case, settings) = (&job.recording.case, &job.recording.settings);
    let analysis = case.analysis().expect("accepted");
    let (segment, config) = (settings.config(), job.plan.config().expect("accepted"));
    let needed = job.course().parents(job.plan.count);
    let parent = if job.plan.by_count {
        needed.into_iter().max()
    } else {
        None
    };
    let frames = case.values.len();
    let (mut pieces, mut cuts) = (vec![1; 3 * frames], vec![1; 3 * frames]);
    let (mut found, mut expected) = (0, 0);
    let times = both_with_parent(
        name,
        frames as u64,
        parent.unwrap_or(0),
        |work, parent| {
            let answer = Answer {
                pieces: &mut pieces,
                cuts: &mut cuts,
                found: &mut found,
            };
            let lent = black_box(case).lent();
            ours::plan::plan(&lent, settings, &job.plan, work, parent, answer)
        },
        || {
            let answer = black_box(plan(black_box(&analysis), &segment, &config));
            expected = answer.pieces.len() as u64;
        },
    );
    assert_eq!(found, expected, "{name}: as many pieces");
    without_smoothing(name, case, &analysis, &times);
    times
}
