//! The benchmark: both sides in one process on the same inputs, one file for each part.
//!
//! A case asks one question of the port and the same of the Rust, each through a call; the printed
//! times are of the whole case.

#[cfg(feature = "candidates")]
mod candidates;
#[cfg(feature = "silences")]
mod cleared;
mod grid;
#[cfg(feature = "path")]
mod path;
#[cfg(feature = "plan")]
mod plan;
#[cfg(feature = "silences")]
mod recordings;
#[cfg(feature = "silences")]
mod silences;
mod validate;

use std::time::{Duration, Instant};

/// Runs of each side, of which the best counts.
const RUNS: u32 = 9;

/// No run starts once a case has taken this long.
const ENOUGH: Duration = Duration::from_secs(2);

type Part = (&'static str, fn());

const PARTS: &[Part] = &[
    ("grid", grid::run),
    ("validate", validate::run),
    #[cfg(feature = "silences")]
    ("silences", silences::run),
    #[cfg(feature = "candidates")]
    ("candidates", candidates::run),
    #[cfg(feature = "path")]
    ("path", path::run),
    #[cfg(feature = "plan")]
    ("plan", plan::run),
];

/// Times the named parts, or all where none is named.
pub fn run(names: &[String]) -> Result<(), String> {
    for name in names {
        if PARTS.iter().all(|(part, _)| part != name) {
            return Err(format!("{name}: no such part in this build"));
        }
    }
    for (part, run) in PARTS {
        if names.is_empty() || names.iter().any(|name| name == part) {
            run();
        }
    }
    Ok(())
}

/// Times both sides and prints the case's line.
fn case(name: &str, ours: impl FnMut(), rust: impl FnMut()) {
    let (ours, rust) = measure(ours, rust);
    line(name, ours, rust);
}

/// The best time of each side. They run in turn, so that both meet the same disturbances.
fn measure(mut ours: impl FnMut(), mut rust: impl FnMut()) -> (Duration, Duration) {
    let (mut best_ours, mut best_rust) = (Duration::MAX, Duration::MAX);
    let start = Instant::now();
    for _ in 0..RUNS {
        best_ours = best_ours.min(time(&mut ours));
        best_rust = best_rust.min(time(&mut rust));
        if start.elapsed() > ENOUGH {
            break;
        }
    }
    (best_ours, best_rust)
}

fn line(name: &str, ours: Duration, rust: Duration) {
    let (x, y) = (ours.as_nanos(), rust.as_nanos());
    let ratio = x as f64 / y as f64;
    println!("bench {name}: ours {x} ns, rust {y} ns, ratio {ratio:.2}");
}

fn time(side: &mut impl FnMut()) -> Duration {
    let start = Instant::now();
    side();
    start.elapsed()
}
