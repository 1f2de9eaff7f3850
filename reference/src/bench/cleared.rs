//! Operations that clear work lists of 16 × (frames + 1) entries and a parent list at their end,
//! whatever they used of them; the Rust does not.
//!
//! The line `clearing` has the port's own clearing of the same lists, called by itself, beside the
//! machine's fill of them. The line `without clearing` has the best time of that clearing taken off
//! the best of the operation. The line `growth` compares two sizes, by what is left and by the whole.
//! Few frames are asked many times, and the times are of all the calls.

use std::hint::black_box;
use std::time::{Duration, Instant};

use super::{ENOUGH, RUNS, line, time};
use crate::domain::MOST_FRAMES;
use crate::ours::{self, Work};

/// Frames, or entries of the parent list if those are more, asked for in a case at least, by as
/// many calls as that takes.
const ASKED: u64 = 131_072;

/// The smaller size of the growth.
pub const GROWN_FROM: u64 = 65_536;

/// The best times of all the calls of a case.
pub struct Times {
    /// Without the clearing.
    pub ours: Duration,
    /// With it.
    pub whole: Duration,
    #[cfg_attr(not(feature = "candidates"), allow(dead_code))]
    pub rust: Duration,
}

/// How often a case of so many frames asks.
pub fn calls(frames: u64) -> u64 {
    ASKED.div_ceil(frames)
}

/// Runs a case for each size and prints the growth between the two that show it.
pub fn grow(name: &str, sizes: &[u64], mut case: impl FnMut(&str, u64) -> Times) {
    let mut from: Option<[f64; 2]> = None;
    for &frames in sizes {
        let times = case(&format!("{name}_{frames}"), frames);
        let asked = (calls(frames) * frames) as f64;
        let each = [times.ours, times.whole].map(|time| time.as_nanos() as f64 / asked);
        match (frames, from) {
            (GROWN_FROM, _) => from = Some(each),
            (MOST_FRAMES, Some([ours, whole])) => {
                let (left, all) = (each[0] / ours, each[1] / whole);
                println!(
                    "bench {name} growth from {GROWN_FROM} to {MOST_FRAMES} frames: {left:.2} of linear, with clearing {all:.2}"
                );
            }
            _ => {}
        }
    }
}

/// Times both sides and prints the case's lines. `ours` answers with document 01's refusal or 0.
pub fn both(
    name: &str,
    frames: u64,
    mut ours: impl FnMut(Work<'_>) -> u32,
    rust: impl FnMut(),
) -> Times {
    both_with_parent(name, frames, 0, |work, _| ours(work), rust)
}

/// The same with a parent list of so many entries, which is cleared with the others.
pub fn both_with_parent(
    name: &str,
    frames: u64,
    parent: usize,
    mut ours: impl FnMut(Work<'_>, &mut [u32]) -> u32,
    mut rust: impl FnMut(),
) -> Times {
    let mut lists = Lists::new(frames as usize, parent);
    let mut ours = |lists: &mut Lists| {
        let (work, parent) = lists.lend();
        ours(work, parent)
    };
    // A refusal would be quick and would say nothing.
    assert_eq!(ours(&mut lists), 0, "{name}: accepted by the Rust");
    let [mut best, mut best_rust, mut clearing, mut fill] = [Duration::MAX; 4];
    let start = Instant::now();
    // In turn, so that all meet the same disturbances.
    for _ in 0..RUNS {
        let each = || 0..calls(frames.max(parent as u64));
        best = best.min(time(&mut || {
            each().for_each(|_| _ = black_box(ours(&mut lists)))
        }));
        clearing = clearing.min(time(&mut || each().for_each(|_| lists.clear())));
        fill = fill.min(time(&mut || each().for_each(|_| lists.fill())));
        best_rust = best_rust.min(time(&mut || each().for_each(|_| rust())));
        if start.elapsed() > ENOUGH {
            break;
        }
    }
    line(name, best, best_rust);
    let (x, y) = (clearing.as_nanos(), fill.as_nanos());
    let ratio = x as f64 / y as f64;
    println!("bench {name} clearing: ours {x} ns, the machine's fill {y} ns, ratio {ratio:.2}");
    let left = best.saturating_sub(clearing).max(Duration::from_nanos(1));
    line(&format!("{name} without clearing"), left, best_rust);
    Times {
        ours: left,
        whole: best,
        rust: best_rust,
    }
}

struct Lists {
    u32s: Vec<u32>,
    u64s: Vec<u64>,
    f64s: Vec<f64>,
    parent: Vec<u32>,
}

impl Lists {
    fn new(frames: usize, parent: usize) -> Self {
        let entries = 16 * (frames + 1);
        // Not zeros, which the system hands out without touching them.
        Self {
            u32s: vec![1; entries],
            u64s: vec![1; entries],
            f64s: vec![1.0; entries],
            parent: vec![1; parent],
        }
    }

    fn lend(&mut self) -> (Work<'_>, &mut [u32]) {
        let work = Work {
            u32s: &mut self.u32s,
            u64s: &mut self.u64s,
            f64s: &mut self.f64s,
        };
        (work, &mut self.parent)
    }

    fn clear(&mut self) {
        let (work, parent) = self.lend();
        ours::silences::clear(work);
        // Only the first list has entries.
        ours::silences::clear(Work {
            u32s: parent,
            u64s: &mut [],
            f64s: &mut [],
        });
        black_box(&mut *self);
    }

    fn fill(&mut self) {
        self.u32s.fill(0);
        self.u64s.fill(0);
        self.f64s.fill(0.0);
        self.parent.fill(0);
        black_box(&mut *self);
    }
}
