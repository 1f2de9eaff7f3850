//! The refusals of the path: inputs on both sides of every limit, alone and two at once.

use super::{Caller, Sizes, WORK, take};
use crate::compare::Amount;
use crate::compare::aims::aims;
use crate::compare::lists::enough;
use crate::domain::{LEAST_TARGET, MOST_CANDIDATES, MOST_COUNT, MOST_SAMPLES, MOST_TARGET};
use crate::path_job::Job;
use crate::rng::Rng;
use crate::tally::Tally;

/// Document 01's order for this operation.
const ORDER: [u32; 7] = [15, 16, 17, 8, 13, 14, 12];

/// One list in so many is large: it takes as long as thousands of small ones.
const LARGE: u64 = 20_000;

pub fn refusals(amount: Amount, rng: &mut Rng, tally: &mut Tally) {
    let mut caller = Caller::new();
    for i in 0..amount.inputs {
        let mut job = match i % LARGE {
            10 => Job::long(rng, MOST_CANDIDATES, false),
            11 => Job::long(rng, MOST_CANDIDATES + 1, false),
            _ => any_job(rng),
        };
        let aims = aims(&ORDER, rng, i);
        for number in &aims {
            change(&mut job, rng, *number);
        }
        let refusal = before_lists(&job);
        // A large job is refused by its lists, and its path would take long.
        let path = if refusal == 0 && job.left.len() < MOST_CANDIDATES {
            job.path()
        } else {
            Vec::new()
        };
        let sizes = sizes(rng, &job, path.len(), &aims);
        let refusal = match refusal {
            0 => by_lists(&job, &sizes, path.len()),
            first => first,
        };
        let fault = caller.ask(&job, &sizes, refusal, &path, rng);
        take(tally, &job, &sizes, fault);
    }
}

fn any_job(rng: &mut Rng) -> Job {
    let candidates = 1 + rng.magnitude(20) as usize;
    Job::random(rng, candidates)
}

/// Brings `job` to the limit of this refusal; the lent lists have their own sizes.
fn change(job: &mut Job, rng: &mut Rng, number: u32) {
    match number {
        15 => lists(job, rng),
        16 => order(job, rng),
        17 => floats(job, rng),
        8 => {
            job.by_count = !rng.one_in(8);
            let most = MOST_COUNT as u32;
            job.count = rng.choose(&[0, 0, 1, most, most + 1, most + 1, u32::MAX]);
        }
        14 => job.by_count = !rng.one_in(8),
        _ => {}
    }
}

fn lists(job: &mut Job, rng: &mut Rng) {
    match rng.below(7) {
        0 => (job.left, job.right, job.cost) = Default::default(),
        1 => drop(job.left.pop()),
        2 => drop(job.right.pop()),
        3 => drop(job.cost.pop()),
        4 => job.left.push(MOST_SAMPLES),
        5 => job.right.push(MOST_SAMPLES),
        _ => job.cost.push(0.0),
    }
}

fn order(job: &mut Job, rng: &mut Rng) {
    let least = job.left.len().min(job.right.len());
    let above = rng.near(&[MOST_SAMPLES, MOST_SAMPLES, u64::MAX], u64::MAX);
    if least == 0 || rng.one_in(4) {
        job.preferences.max = above;
        return;
    }
    let any = rng.below(least as u64) as usize;
    let i = rng.choose(&[0, least - 1, any]);
    match rng.below(3) {
        0 => job.left[i] = rng.near(&[job.right[i]], u64::MAX),
        1 if i + 1 < least => job.right[i] = rng.near(&[job.left[i + 1]], u64::MAX),
        // Only the last end can be above the greatest length and nothing else be wrong.
        1 => job.right[least - 1] = above,
        _ => {
            job.left[least - 1] = above;
            job.right[least - 1] = above;
        }
    }
}

fn floats(job: &mut Job, rng: &mut Rng) {
    let tiny = f64::from_bits(1);
    let any = [
        0.0,
        -0.0,
        -tiny,
        -1.0,
        f64::MAX,
        f64::INFINITY,
        f64::NEG_INFINITY,
        f64::NAN,
    ];
    let targets = [
        LEAST_TARGET,
        LEAST_TARGET.next_down(),
        MOST_TARGET,
        MOST_TARGET.next_up(),
    ];
    let p = &mut job.preferences;
    match rng.below(5) {
        0 => p.target_weight = rng.choose(&any),
        1 => p.short_weight = rng.choose(&any),
        2 => p.target = rng.choose(&[targets, [0.0, -1.0, f64::NAN, f64::INFINITY]].concat()),
        3 => p.min = rng.choose(&[&any[..4], &any[5..], &targets[2..]].concat()),
        _ if job.cost.is_empty() => {}
        _ => {
            let last = job.cost.len() - 1;
            let inside = rng.below(job.cost.len() as u64) as usize;
            job.cost[rng.choose(&[0, last, inside])] = rng.choose(&any);
        }
    }
}

/// The first refusal for what the candidates and numbers are, or 0.
fn before_lists(job: &Job) -> u32 {
    let candidates = job.left.len();
    let unequal = job.right.len() != candidates || job.cost.len() != candidates;
    let p = &job.preferences;
    let positive = |x: f64| x >= 0.0 && x.is_finite();
    let floats = job.cost.iter().all(|c| positive(*c))
        && positive(p.target_weight)
        && positive(p.short_weight)
        && (LEAST_TARGET..=MOST_TARGET).contains(&p.target)
        && (0.0..=MOST_TARGET).contains(&p.min);
    if candidates == 0 || unequal || candidates > MOST_CANDIDATES {
        15
    } else if !ordered(job) || p.max > MOST_SAMPLES {
        16
    } else if !floats {
        17
    } else if job.by_count && !(1..=MOST_COUNT).contains(&job.count.into()) {
        8
    } else {
        0
    }
}

/// Whether the ends rise, left before right, up to the greatest length.
fn ordered(job: &Job) -> bool {
    let ends = job.left.iter().zip(&job.right).flat_map(|(l, r)| [*l, *r]);
    let ends: Vec<u64> = ends.chain([MOST_SAMPLES]).collect();
    ends.is_sorted()
}

fn by_lists(job: &Job, sizes: &Sizes, answer: usize) -> u32 {
    let candidates = job.left.len();
    if sizes.work.iter().any(|n| *n < WORK * candidates) {
        13
    } else if job.by_count && sizes.parent < job.pieces() * candidates {
        14
    } else if sizes.path < answer {
        12
    } else {
        0
    }
}

fn sizes(rng: &mut Rng, job: &Job, answer: usize, aims: &[u32]) -> Sizes {
    let candidates = job.left.len();
    // Large work lists are the large paths' matter; here they are then too short.
    let least = WORK * candidates.min(4_000);
    let mut work = enough(rng, least);
    if aims.contains(&13) {
        let short = rng.near(&[least as u64], u64::MAX) as usize;
        work[rng.below(3) as usize] = if rng.one_in(8) { 0 } else { short };
    }
    let mut parent = 8 + rng.below(8) as usize;
    if answer > 0 && job.by_count {
        let needed = job.pieces() * candidates;
        parent = needed + rng.below(8) as usize;
        if aims.contains(&14) {
            parent = rng.near(&[needed as u64, needed as u64, 0], u64::MAX) as usize;
        }
    }
    let mut path = answer + rng.below(8) as usize;
    if aims.contains(&12) {
        path = rng.near(&[answer as u64, answer as u64, 0], u64::MAX) as usize;
    }
    Sizes { work, parent, path }
}
