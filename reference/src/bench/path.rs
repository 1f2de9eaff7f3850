//! The path over lent candidates, by length and by count, beside `solve` and `solve_count`.
//!
//! Our side also tests the candidates, adds up the score and clears the lent lists; the Rust's side
//! allocates its own. By length the line `clearing` has the machine's fill of these lists, which no
//! search of ours can undercut.

use std::hint::black_box;

use silence_split::dp::Preferences;

use super::{line, measure};
use crate::ours::{self, Work};
use crate::path_job::{Job, Score};
use crate::rng::Rng;

/// Samples from one candidate to the next, on average.
const STEP: u64 = 1_000;

/// What is special about a job.
type Change = fn(&mut Job);

const KINDS: [(&str, Change); 5] = [
    ("equal_costs", |job| job.cost.fill(0.5)),
    ("low_limit", |job| job.preferences.max = 0),
    ("high_limit", |job| job.preferences.max = 1 << 40),
    ("far_target", |job| {
        job.preferences.target = (1u64 << 60) as f64
    }),
    ("overflow", |job| {
        job.preferences.target_weight = f64::MAX;
        job.preferences.short_weight = f64::MAX;
        job.cost.fill(f64::MAX);
    }),
];

/// Candidates and pieces by count; the Rust takes about a microsecond for each candidate of a row.
const COUNTS: [(usize, u32); 6] = [
    (1_000, 10),
    (1_000, 100),
    (2_000, 700),
    (5_000, 100),
    (20_000, 10),
    (10_000, 700),
];

pub fn run() {
    for candidates in [100, 1_000, 10_000, 100_000] {
        both("path_length_random", &job(candidates, None));
    }
    for (kind, change) in KINDS {
        // With a high limit the search is quadratic on both sides.
        let mut job = job(10_000, None);
        change(&mut job);
        both(&format!("path_length_{kind}"), &job);
    }
    for (candidates, pieces) in COUNTS {
        both("path_count_random", &job(candidates, Some(pieces)));
    }
    for (kind, change) in KINDS {
        let mut job = job(2_000, Some(50));
        change(&mut job);
        both(&format!("path_count_{kind}"), &job);
    }
}

/// Candidates at random distances. By count the target is an equal share, by length 30 candidates;
/// the limit is twice that.
fn job(candidates: usize, pieces: Option<u32>) -> Job {
    let mut rng = Rng::new(1);
    let ends = (0..candidates).scan(0, |at, _| {
        *at += 1 + rng.below(2 * STEP);
        Some(*at)
    });
    let left: Vec<u64> = ends.collect();
    let cost = (0..candidates).map(|_| rng.below(1 << 20) as f64 / (1 << 20) as f64);
    let share = pieces.map_or(30, |pieces| candidates as u64 / u64::from(pieces));
    let target = (STEP * share) as f64;
    Job {
        right: left.clone(),
        left,
        cost: cost.collect(),
        preferences: Preferences {
            min: target / 3.0,
            target,
            max: 2 * STEP * share,
            target_weight: 1.0,
            short_weight: 4.0,
        },
        by_count: pieces.is_some(),
        count: pieces.unwrap_or(0),
    }
}

fn both(name: &str, job: &Job) {
    let candidates = job.left.len();
    let name = if job.by_count {
        format!("{name}_{candidates}_{}", job.count)
    } else {
        format!("{name}_{candidates}")
    };
    let mut lists = Lists::new(job);
    // A refusal would be quick and would say nothing.
    assert_eq!(lists.ask(job), 0, "{name}: accepted by the Rust");
    let (ours, rust) = measure(
        || {
            black_box(lists.ask(black_box(job)));
        },
        || {
            black_box(black_box(job).path());
        },
    );
    line(&name, ours, rust);
    if !job.by_count {
        let (fill, _) = measure(|| lists.fill(), || ());
        line(&format!("{name} clearing"), fill, rust);
    }
}

struct Lists {
    u32s: Vec<u32>,
    u64s: Vec<u64>,
    f64s: Vec<f64>,
    parent: Vec<u32>,
    path: Vec<u32>,
}

impl Lists {
    fn new(job: &Job) -> Self {
        let candidates = job.left.len();
        let rows = if job.by_count { job.pieces() } else { 0 };
        // Not zeros, which the system hands out without touching them.
        Self {
            u32s: vec![1; 16 * candidates],
            u64s: vec![1; 16 * candidates],
            f64s: vec![1.0; 16 * candidates],
            parent: vec![1; rows * candidates],
            path: vec![1; candidates],
        }
    }

    /// The machine's own fill of what the operation clears.
    fn fill(&mut self) {
        self.u32s.fill(0);
        self.u64s.fill(0);
        self.f64s.fill(0.0);
        self.parent.fill(0);
        black_box(&mut *self);
    }

    fn ask(&mut self, job: &Job) -> u32 {
        let work = Work {
            u32s: &mut self.u32s,
            u64s: &mut self.u64s,
            f64s: &mut self.f64s,
        };
        let (mut length, mut score) = (0, Score::NONE);
        let places = ours::path::Answer {
            path: &mut self.path,
            length: &mut length,
            score: &mut score,
        };
        ours::path::path(job, work, &mut self.parent, places)
    }
}
