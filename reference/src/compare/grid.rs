//! The frame grid: boundaries and conversions.

use std::iter;

use super::{Amount, Subject};
use crate::conversions::{CONVERSIONS, Conversion, Words, is_tie};
use crate::domain::{BAT_RATES, FRAME_RATES, HOPS, Kind, MOST_FRAMES, MOST_SAMPLES, SAMPLE_RATES};
use crate::ours;
use crate::recording::{self, Recording};
use crate::rng::Rng;
use crate::tally::Tally;

/// Boundaries asked of one recording, since making it takes far longer than one of them.
const ASKED: u64 = 64;

pub fn subjects() -> impl Iterator<Item = Subject> {
    let first = Subject::new("boundary", boundary);
    let others = CONVERSIONS.iter().map(|c| {
        Subject::new(c.name, |amount, rng, tally| {
            conversion(c, amount.inputs, rng, tally);
        })
    });
    iter::once(first).chain(others)
}

fn conversion(c: &Conversion, n: u64, rng: &mut Rng, tally: &mut Tally) {
    for _ in 0..n {
        let words = (c.make)(rng);
        let inside = (c.inside)(&words);
        let expected = if inside {
            (c.rust)(&words)
        } else {
            c.kind.marker()
        };
        if let Some(product) = c.product {
            count(tally, &words, inside.then(|| product(&words)));
        }
        take(tally, c.kind, &words, (c.ours)(&words), expected);
    }
}

/// What a sample rate above 192,000 Hz brings. There is no product outside the domain.
fn count(tally: &mut Tally, words: &Words, product: Option<u128>) {
    let bats = product.is_some() && BAT_RATES.contains(&words[0]);
    let beyond = product.is_some_and(|p| p > u64::MAX.into());
    let tie = product.is_some_and(is_tie);
    tally.occurs("a rate above 192,000 Hz", bats);
    tally.occurs("a product beyond 64 bits", beyond);
    tally.occurs("a product halfway between two floats", tie);
    tally.occurs("both", beyond && tie);
}

fn take(tally: &mut Tally, kind: Kind, words: &Words, ours: u64, expected: u64) {
    let weight = words
        .iter()
        .map(|w| u64::from(64 - w.leading_zeros()))
        .sum();
    tally.take(ours == expected, weight, || {
        let (ours, expected) = (kind.show(ours), kind.show(expected));
        format!("{words:?}: ours {ours}, expected {expected}")
    });
}

fn boundary(amount: Amount, rng: &mut Rng, tally: &mut Tally) {
    while tally.inputs() < amount.inputs {
        let asked = ASKED.min(amount.inputs - tally.inputs());
        match rng.below(8) {
            0 => on_any_grid(tally, rng, asked),
            1 => on_no_grid(tally, rng, asked),
            _ => on_accepted(tally, rng, asked),
        }
    }
}

/// On a recording that the Rust accepts, against its `position`.
fn on_accepted(tally: &mut Tally, rng: &mut Rng, asked: u64) {
    let large = rng.one_in(16);
    let frames = recording::frames(rng, large);
    let made = Recording::accepted(rng, frames);
    let analysis = made.analysis();
    for _ in 0..asked {
        let k = recording::any_boundary(rng, made.frames);
        ask(tally, &made, k, analysis.hook_position(k as usize));
    }
}

/// On any grid inside the limits, covered or not, against the formula.
fn on_any_grid(tally: &mut Tally, rng: &mut Rng, asked: u64) {
    for _ in 0..asked {
        let made = any_grid(rng);
        let k = recording::any_boundary(rng, made.frames);
        let expected = if k < made.frames {
            made.start(k) as u64
        } else {
            made.len
        };
        ask(tally, &made, k, expected);
    }
}

/// With one number outside its limits, against the marker.
fn on_no_grid(tally: &mut Tally, rng: &mut Rng, asked: u64) {
    for _ in 0..asked {
        let mut made = any_grid(rng);
        match rng.below(5) {
            0 => made.sample_rate = outside(rng, *SAMPLE_RATES.end()),
            1 => made.frame_rate = outside(rng, *FRAME_RATES.end()),
            2 => made.hop = outside(rng, *HOPS.end()),
            3 => made.len = rng.choose(&[MOST_SAMPLES + 1, u64::MAX]),
            _ => made.frames = rng.choose(&[MOST_FRAMES + 1, u64::MAX]),
        }
        let k = recording::any_boundary(rng, made.frames);
        ask(tally, &made, k, Kind::Whole.marker());
    }
}

fn outside(rng: &mut Rng, most: u64) -> u32 {
    rng.choose(&[0, most as u32 + 1, u32::MAX])
}

fn any_grid(rng: &mut Rng) -> Recording {
    let large = rng.one_in(2);
    let limits = [0, 1, MOST_SAMPLES];
    Recording {
        sample_rate: recording::sample_rate(rng),
        frame_rate: recording::frame_rate(rng),
        hop: recording::hop(rng),
        frames: recording::frames(rng, large),
        len: if rng.one_in(4) {
            rng.near(&limits, MOST_SAMPLES)
        } else {
            rng.magnitude(MOST_SAMPLES)
        },
    }
}

fn ask(tally: &mut Tally, r: &Recording, k: u64, expected: u64) {
    let ours = ours::boundary(r.sample_rate, r.frame_rate, r.hop, r.len, r.frames, k);
    let (rate, frame_rate) = (r.sample_rate.into(), r.frame_rate.into());
    let words = [rate, frame_rate, r.hop.into(), r.len, r.frames, k];
    take(tally, Kind::Whole, &words, ours, expected);
}
