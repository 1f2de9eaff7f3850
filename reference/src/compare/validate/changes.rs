//! Changes that bring a recording to a refusal, one function for each number.

use crate::case::Case;
use crate::domain::{FRAME_RATES, HOPS, MOST_SAMPLES, SAMPLE_RATES};
use crate::recording::{self, Recording};
use crate::rng::Rng;

const ABOVE_SAMPLE_RATES: u32 = *SAMPLE_RATES.end() as u32 + 1;
const ABOVE_FRAME_RATES: u32 = *FRAME_RATES.end() as u32 + 1;
const ABOVE_HOPS: u32 = *HOPS.end() as u32 + 1;

/// The float next above 1 and the one next below 0.
const ABOVE_ONE: f32 = 1.0 + f32::EPSILON;
const BELOW_ZERO: f32 = -f32::from_bits(1);

/// Changes for each of the refusals, in this order. A change to an empty list does nothing.
pub fn apply(case: &mut Case, rng: &mut Rng, refusals: &[u64]) {
    for refusal in refusals {
        match refusal {
            1 => case.sample_rate = rng.choose(&[0, ABOVE_SAMPLE_RATES, u32::MAX]),
            2 => case.channels = 0,
            3 => frame_grid(case, rng),
            4 => lists(case, rng),
            5 => entry(case, rng),
            _ => length(case, rng),
        }
    }
}

fn frame_grid(case: &mut Case, rng: &mut Rng) {
    match rng.below(3) {
        0 => case.frame_rate = rng.choose(&[0, ABOVE_FRAME_RATES, u32::MAX]),
        1 => case.hop = rng.choose(&[0, ABOVE_HOPS, u32::MAX]),
        _ => {
            // A frame of exactly one sample, or just under one.
            case.sample_rate = case.sample_rate.clamp(2, *FRAME_RATES.end() as u32);
            case.hop = 1;
            case.frame_rate = case.sample_rate + rng.below(2) as u32;
        }
    }
}

fn lists(case: &mut Case, rng: &mut Rng) {
    match rng.below(5) {
        0 => case.flags.push(0),
        1 => drop(case.flags.pop()),
        2 => case.levels.push(0.0),
        3 => drop(case.levels.pop()),
        _ => case.levels.clear(),
    }
}

fn entry(case: &mut Case, rng: &mut Rng) {
    let bad_scores = [ABOVE_ONE, BELOW_ZERO, 2.0, -1.0];
    let never = [f32::NAN, -f32::NAN, f32::INFINITY, f32::NEG_INFINITY];
    let bad_levels = [f64::NAN, -f64::NAN, f64::INFINITY, f64::NEG_INFINITY];
    match rng.below(4) {
        0 if !case.decibels => put(&mut case.values, rng, &bad_scores),
        0 | 1 => put(&mut case.values, rng, &never),
        2 if case.decibels => put(&mut case.levels, rng, &bad_levels),
        _ if case.decibels => put(&mut case.flags, rng, &[2, 3, 128, 255]),
        _ => put(&mut case.flags, rng, &[1, 2, 255]),
    }
}

/// One of `entries` at the first place, the last or any.
fn put<T: Copy>(list: &mut [T], rng: &mut Rng, entries: &[T]) {
    let Some(last) = list.len().checked_sub(1) else {
        return;
    };
    let any = rng.below(list.len() as u64) as usize;
    let at = rng.choose(&[0, last, any]);
    list[at] = rng.choose(entries);
}

fn length(case: &mut Case, rng: &mut Rng) {
    if case.frame_rate == 0 || rng.one_in(4) {
        case.len = rng.near(&[MOST_SAMPLES, u64::MAX], u64::MAX);
        return;
    }
    let made = Recording {
        sample_rate: case.sample_rate,
        frame_rate: case.frame_rate,
        hop: case.hop,
        frames: case.values.len() as u64,
        len: case.len,
    };
    case.len = recording::edge_len(rng, &made);
}
