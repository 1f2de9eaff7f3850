//! Recordings that pass but for their flags: every byte at every place of a short list, then longer lists at random.

use crate::case::Case;
use crate::recording::Recording;
use crate::rng::Rng;

/// A list up to this length is short: two words of eight bytes and all that can remain.
const SHORT: u64 = 23;

/// How many bytes there are, and as many again for the other domain.
const BYTES: u64 = 512;

/// Decibels or scores with the flags of the input of this index.
pub fn with_flags(rng: &mut Rng, i: u64) -> Case {
    let decibels = i % 2 == 0;
    match place(i / BYTES) {
        Some((frames, at)) => {
            let mut case = accepted(rng, frames, decibels);
            case.flags[at] = (i / 2) as u8;
            case
        }
        None => {
            let frames = rng.magnitude(2_000);
            let mut case = accepted(rng, frames, decibels);
            for _ in 0..frames.min(rng.below(3)) {
                case.flags[rng.below(frames) as usize] = rng.word() as u8;
            }
            case
        }
    }
}

/// The length of a short list and the place in it, of all such pairs the one of this index.
fn place(index: u64) -> Option<(u64, usize)> {
    let mut left = index;
    for frames in 1..=SHORT {
        if left < frames {
            return Some((frames, left as usize));
        }
        left -= frames;
    }
    None
}

fn accepted(rng: &mut Rng, frames: u64, decibels: bool) -> Case {
    let mut case = Case::silent_scores(&Recording::accepted(rng, frames));
    case.decibels = decibels;
    case.fill(rng);
    case
}
