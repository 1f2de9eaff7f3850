//! The recording's tests, over as many frames as are allowed. The Rust's side is its `validate`
//! alone on a recording that already stands; it has no levels to test. Nor has it flag bytes: beside
//! the test of these stands one byte after another, with no early exit.

use std::hint::black_box;

use silence_split::analyze::Analysis;

use super::case;
use super::grid::full_recording;
use crate::ours::{self, Lent};
use crate::recording::Recording;
use crate::rng::Rng;

/// Flags alone are so quick that a time is of so many passes over them.
const PASSES: u32 = 64;

pub fn run() {
    let r = full_recording();
    let mut rng = Rng::new(1);
    let scores: Vec<f32> = (0..r.frames).map(|_| part(&mut rng)).collect();
    let decibels: Vec<f32> = scores.iter().map(|v| -80.0 * v).collect();
    let levels: Vec<f64> = decibels.iter().map(|v| f64::from(*v)).collect();
    let none = vec![0; scores.len()];
    let flags: Vec<u8> = scores.iter().map(|v| u8::from(*v < 0.1)).collect();
    let marks = flags.iter().map(|f| *f != 0).collect();

    flags_alone(&flags);

    let (layout, frames) = (r.layout(), r.score_frames());
    let analysis = Analysis::from_scores(layout, r.len, frames, scores.clone());
    let lent = lend(&r, false, &scores, &none, &[]);
    both("validate_scores", &lent, &analysis.expect("accepted"));

    let analysis = Analysis::from_decibels(layout, r.len, frames, decibels.clone(), marks);
    let lent = lend(&r, true, &decibels, &flags, &levels);
    both("validate_decibels", &lent, &analysis.expect("accepted"));
}

fn flags_alone(flags: &[u8]) {
    let singly = |flags: &[u8]| flags.iter().fold(true, |ok, flag| ok & (*flag <= 1));
    // From the second pass on the flags come from a cache.
    case(
        "flags",
        || {
            for _ in 0..PASSES {
                assert!(ours::are_flags(black_box(flags)));
            }
        },
        || {
            for _ in 0..PASSES {
                assert!(singly(black_box(flags)));
            }
        },
    );
}

fn part(rng: &mut Rng) -> f32 {
    rng.below(1 << 24) as f32 / (1 << 24) as f32
}

fn lend<'a>(
    r: &Recording,
    decibels: bool,
    values: &'a [f32],
    flags: &'a [u8],
    levels: &'a [f64],
) -> Lent<'a> {
    Lent {
        sample_rate: r.sample_rate,
        channels: 1,
        frame_rate: r.frame_rate,
        hop: r.hop,
        len: r.len,
        decibels,
        values,
        flags,
        levels,
    }
}

fn both(name: &str, lent: &Lent<'_>, analysis: &Analysis) {
    // A refusal would be quick and would say nothing.
    assert_eq!(ours::validate(lent), 0, "{name}: accepted by the Rust");
    case(
        name,
        || {
            black_box(ours::validate(black_box(lent)));
        },
        || {
            let _ = black_box(black_box(analysis).hook_validate());
        },
    );
}
