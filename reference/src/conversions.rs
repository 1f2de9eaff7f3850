//! The conversions of the frame grid, each as a function from words to a word: the comparison and
//! the stored sample go through them all alike.

use std::time::Duration;

use silence_split::analyze::{Analysis, ScoreFrames};
use silence_split::sample::Layout;

use crate::domain::{FRAME_RATES, HOPS, Kind, MOST_NANOS, SAMPLE_RATES};
use crate::ours;
use crate::recording::{any_frame_rate, any_hop, any_sample_rate};
use crate::rng::Rng;

/// The arguments in the order of the C function, then zeros.
pub type Words = [u64; 6];

pub struct Conversion {
    pub name: &'static str,
    pub kind: Kind,
    /// Random arguments, also outside the domain.
    pub make: fn(&mut Rng) -> Words,
    pub inside: fn(&Words) -> bool,
    /// The Rust's answer inside the domain.
    pub rust: fn(&Words) -> u64,
    pub ours: fn(&Words) -> u64,
    /// The exact product that is rounded or divided, where 64 bits may not hold it.
    pub product: Option<fn(&Words) -> u128>,
}

/// In the order of the stored sample, where the first is number 1.
pub const CONVERSIONS: [Conversion; 7] = [
    Conversion {
        name: "frames_in",
        kind: Kind::Whole,
        make: frame_words,
        inside: frame_domain,
        rust: |w| frame_grid(w).hook_frames_in(duration(w[2])) as u64,
        ours: |w| ours::frames_in(w[0] as u32, w[1] as u32, w[2]),
        product: None,
    },
    Conversion {
        name: "frames_ceil",
        kind: Kind::Whole,
        make: frame_words,
        inside: frame_domain,
        rust: |w| frame_grid(w).hook_frames_ceil(duration(w[2])) as u64,
        ours: |w| ours::frames_ceil(w[0] as u32, w[1] as u32, w[2]),
        product: None,
    },
    Conversion {
        name: "frames_floor",
        kind: Kind::Whole,
        make: frame_words,
        inside: frame_domain,
        rust: |w| frame_grid(w).hook_frames_floor(duration(w[2])) as u64,
        ours: |w| ours::frames_floor(w[0] as u32, w[1] as u32, w[2]),
        product: None,
    },
    Conversion {
        name: "samples_floor",
        kind: Kind::Whole,
        make: sample_words,
        inside: sample_domain,
        rust: |w| sample_grid(w).hook_samples_floor(duration(w[1])),
        ours: |w| ours::samples_floor(w[0] as u32, w[1]),
        product: Some(sample_product),
    },
    Conversion {
        name: "samples_in",
        kind: Kind::Real,
        make: sample_words,
        inside: sample_domain,
        rust: |w| sample_grid(w).hook_samples_in(duration(w[1])).to_bits(),
        ours: |w| ours::samples_in(w[0] as u32, w[1]).to_bits(),
        product: Some(sample_product),
    },
    Conversion {
        name: "seconds",
        kind: Kind::Real,
        make: |rng| [any_nanos(rng, 1), 0, 0, 0, 0, 0],
        inside: |w| w[0] <= MOST_NANOS,
        rust: |w| duration(w[0]).as_secs_f64().to_bits(),
        ours: |w| ours::seconds(w[0]).to_bits(),
        product: None,
    },
    Conversion {
        name: "frame_secs",
        kind: Kind::Real,
        make: |rng| [any_frame_rate(rng).into(), any_hop(rng).into(), 0, 0, 0, 0],
        inside: |w| FRAME_RATES.contains(&w[0]) && HOPS.contains(&w[1]),
        rust: |w| frame_grid(w).hook_frame_secs().to_bits(),
        ours: |w| ours::frame_secs(w[0] as u32, w[1] as u32).to_bits(),
        product: None,
    },
];

/// At the highest sample rate: the longest duration, and two whose products lie halfway between two
/// floats, of which one is rounded down and one up.
const FASTEST: [Words; 3] = [
    [768_000, 86_400_000_000_000, 0, 0, 0, 0],
    [768_000, 86_399_999_999_998, 0, 0, 0, 0],
    [768_000, 86_399_999_999_994, 0, 0, 0, 0],
];

/// A duration: close to a limit, close to where `per_second` of something tick or stand midway
/// between two ticks, or anything.
fn any_nanos(rng: &mut Rng, per_second: u64) -> u64 {
    match rng.below(8) {
        0 => rng.near(&[0, 1, 1_000_000_000, MOST_NANOS, u64::MAX], u64::MAX),
        1..=3 => tick(rng, 1, per_second),
        _ => rng.magnitude(MOST_NANOS),
    }
}

/// A duration within a nanosecond of a whole or a half number of ticks, of which `rate` take
/// `hop` seconds.
fn tick(rng: &mut Rng, hop: u64, rate: u64) -> u64 {
    let halves = u128::from(rng.magnitude(1 << 24));
    let nanos = halves * u128::from(hop) * 500_000_000 / u128::from(rate);
    rng.near(&[nanos.min(MOST_NANOS.into()) as u64], u64::MAX)
}

fn frame_words(rng: &mut Rng) -> Words {
    let (rate, hop) = (u64::from(any_frame_rate(rng)), u64::from(any_hop(rng)));
    let nanos = if rng.one_in(3) {
        tick(rng, hop, rate.max(1))
    } else {
        any_nanos(rng, rate.max(1))
    };
    [rate, hop, nanos, 0, 0, 0]
}

fn sample_words(rng: &mut Rng) -> Words {
    let rate = u64::from(any_sample_rate(rng));
    let nanos = match rng.below(16) {
        0 => return rng.choose(&FASTEST),
        1..=3 => tie(rng, rate),
        _ => any_nanos(rng, rate.max(1)),
    };
    [rate, nanos, 0, 0, 0, 0]
}

/// A duration of half a day or more whose product with `rate` lies halfway between two floats,
/// where the rate is not a multiple of too many twos for that.
fn tie(rng: &mut Rng, rate: u64) -> u64 {
    let nanos = MOST_NANOS - rng.below(MOST_NANOS / 2);
    let product = sample_product(&[rate, nanos, 0, 0, 0, 0]);
    // The rate has some of the digits below those of a float; the duration has the others.
    match below_float(product).checked_sub(1 + rate.trailing_zeros()) {
        Some(digits) => ((nanos >> digits) | 1) << digits,
        None => nanos,
    }
}

/// Duration times sample rate.
fn sample_product(w: &Words) -> u128 {
    u128::from(w[0]) * u128::from(w[1])
}

/// Whether a product lies halfway between two floats.
pub fn is_tie(product: u128) -> bool {
    let digits = below_float(product);
    digits > 0 && product & ((1 << digits) - 1) == 1 << (digits - 1)
}

/// How many binary digits a product has below those that a float of its size holds.
fn below_float(product: u128) -> u32 {
    (u128::BITS - product.leading_zeros()).saturating_sub(f64::MANTISSA_DIGITS)
}

fn frame_domain(w: &Words) -> bool {
    FRAME_RATES.contains(&w[0]) && HOPS.contains(&w[1]) && w[2] <= MOST_NANOS
}

fn sample_domain(w: &Words) -> bool {
    SAMPLE_RATES.contains(&w[0]) && w[1] <= MOST_NANOS
}

fn duration(nanos: u64) -> Duration {
    Duration::from_nanos(nanos)
}

/// An empty recording with the frame rate and hop of `w`. At the highest sample rate every hop
/// spans a sample, so it is accepted.
fn frame_grid(w: &Words) -> Analysis {
    empty(*SAMPLE_RATES.end() as u32, w[0] as u32, w[1] as u32)
}

/// An empty recording with the sample rate of `w`.
fn sample_grid(w: &Words) -> Analysis {
    empty(w[0] as u32, 1, 1)
}

fn empty(sample_rate: u32, frame_rate: u32, hop: u32) -> Analysis {
    let layout = Layout {
        sample_rate,
        channels: 1,
    };
    let frames = ScoreFrames {
        sample_rate: frame_rate,
        hop,
    };
    Analysis::from_scores(layout, 0, frames, Vec::new()).expect("empty and inside the limits")
}
