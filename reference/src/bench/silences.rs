//! The silences: the operation beside the Rust's thresholds and `silence_runs` on a recording that
//! already stands, which the operation also tests.

use std::hint::black_box;

use silence_split::segment::hook_silence_runs;

use super::cleared::{GROWN_FROM, Times, both, grow};
use super::recordings::{self, Make};
use crate::domain::MOST_FRAMES;
use crate::ours;
use crate::silence_job::{Job, Settings};

const KINDS: [(&str, Make); 5] = [
    ("speech", recordings::speech),
    ("decibels", recordings::decibels),
    ("noise", recordings::noise),
    ("alternating", recordings::alternating),
    ("silent", |_, _| {}),
];

pub fn run() {
    for (i, (kind, make)) in KINDS.iter().enumerate() {
        // The first two kinds show the growth, all of them the largest size.
        let sizes: &[u64] = if i < 2 {
            &[1_000, GROWN_FROM, MOST_FRAMES]
        } else {
            &[MOST_FRAMES]
        };
        grow(&format!("silences_{kind}"), sizes, |name, frames| {
            let case = recordings::case(frames, *make);
            let settings = Settings::usual();
            times(name, &Job { case, settings })
        });
    }
}

fn times(name: &str, job: &Job) -> Times {
    let frames = job.case.values.len();
    let (analysis, config) = (
        job.case.analysis().expect("accepted"),
        job.settings.config(),
    );
    let (mut out, mut count) = (vec![1; frames + 2], 0);
    both(
        name,
        frames as u64,
        |work| {
            let job = black_box(job);
            ours::silences::list(&job.case.lent(), &job.settings, work, &mut out, &mut count)
        },
        || _ = black_box(hook_silence_runs(black_box(&analysis), &config)),
    )
}
