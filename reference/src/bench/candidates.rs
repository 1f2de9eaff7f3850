//! The candidates of a plan: the port's function beside the Rust's `Context::new`, `ends` and
//! `candidates` on a recording that already stands, which ours also tests.
//!
//! For decibels the Rust also smooths the levels, which are lent to the port. The line `without
//! clearing and smoothing` has the best time of that taken off the Rust's as well.

use std::hint::black_box;
use std::time::Duration;

use silence_split::analyze::Analysis;
use silence_split::candidates::hook_smoothed;
use silence_split::plan::hook_candidates;

use super::cleared::{GROWN_FROM, Times, both, calls, grow};
use super::recordings::{self, Make};
use super::{RUNS, line, time};
use crate::case::Case;
use crate::domain::MOST_FRAMES;
use crate::ours::{self, candidates::Answer};
use crate::plan_job::{Job, Settings};
use crate::silence_job;

pub const KINDS: [(&str, Make); 2] = [
    ("speech", recordings::speech),
    ("decibels", recordings::decibels),
];

pub fn run() {
    for (kind, make) in KINDS {
        for (gaps, drop_gaps) in [("keep", false), ("drop", true)] {
            let name = format!("candidates_{kind}_{gaps}");
            let sizes = [1_000, GROWN_FROM, MOST_FRAMES];
            grow(&name, &sizes, |name, frames| {
                times(name, &job(frames, make, drop_gaps))
            });
        }
    }
}

/// A job with the Rust's own settings.
pub fn job(frames: u64, make: Make, drop_gaps: bool) -> Job {
    let recording = silence_job::Job {
        case: recordings::case(frames, make),
        settings: silence_job::Settings::usual(),
    };
    let plan = Settings {
        drop_gaps,
        ..Settings::usual()
    };
    let mut job = Job { recording, plan };
    job.lend_levels();
    job
}

fn times(name: &str, job: &Job) -> Times {
    let (case, settings) = (&job.recording.case, &job.recording.settings);
    let frames = case.values.len();
    let analysis = case.analysis().expect("accepted");
    let (segment, plan) = (settings.config(), job.plan.config().expect("accepted"));
    let (mut ends, mut costs) = (vec![1; 3 * (frames + 1)], vec![1.0; frames + 1]);
    let mut count = 0;
    let times = both(
        name,
        frames as u64,
        |work| {
            let answer = Answer {
                ends: &mut ends,
                costs: &mut costs,
                found: &mut count,
            };
            let lent = black_box(case).lent();
            ours::candidates::candidates(&lent, settings, &job.plan, work, answer)
        },
        || _ = black_box(hook_candidates(black_box(&analysis), &segment, &plan)),
    );
    let expected = hook_candidates(&analysis, &segment, &plan) as u64;
    assert_eq!(count, expected, "{name}: as many candidates");
    without_smoothing(name, case, &analysis, &times);
    times
}

/// For decibels, prints the line with the Rust's smoothing taken off its time.
pub fn without_smoothing(name: &str, case: &Case, analysis: &Analysis, times: &Times) {
    if case.decibels {
        let rust = times.rust.saturating_sub(smoothing(analysis));
        let name = format!("{name} without clearing and smoothing");
        line(&name, times.ours, rust.max(Duration::from_nanos(1)));
    }
}

/// The Rust's best time for the smoothing of as many calls as a case has.
fn smoothing(analysis: &Analysis) -> Duration {
    let calls = calls(analysis.hook_frames() as u64);
    let once = || _ = black_box(hook_smoothed(black_box(analysis)));
    let runs = (0..RUNS).map(|_| time(&mut || (0..calls).for_each(|_| once())));
    runs.min().expect("some runs")
}
