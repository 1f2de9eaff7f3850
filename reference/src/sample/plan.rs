//! The plan. A record, all its fields little-endian and without padding between them:
//!
//! | Field | Type |
//! |---|---|
//! | the recording's numbers and the segment settings, as with the silences; frames n, at most 30 | 72 bytes |
//! | min, target, max, in nanoseconds | u64 each |
//! | 0 by length, 1 by count | u32 |
//! | count, not read by length | u32 |
//! | gaps: 0 kept, 1 dropped | u32 |
//! | placement: 0 quietest, 1 center, 2 ratio | u32 |
//! | the ratio, read by placement 2 alone | f32 |
//! | cut, level, pause | f64 each |
//! | pause reference, in nanoseconds | u64 |
//! | target weight, short weight | f64 each |
//! | refusal, 0 where the plan was made | u32 |
//! | pieces p, cuts c, none where refused | u32 each |
//! | entries of each work list, at most 496 | u32 |
//! | entries of the parent list, at most 930 | u32 |
//! | entries of the lists for pieces and for cuts, at most 96 | u32 each |
//! | values | n × f32 |
//! | flags | n × u8 |
//! | levels, for decibels alone | n × f64 |
//! | start, end and flags of each piece: 1 short, 2 long | 3p × u64 |
//! | previous end, next start and reason of each cut: 0 silence, 1 quiet, 2 forced | 3c × u64 |
//!
//! The first three are document 01's trial cuts, and five with short pieces follow. Of eight records one is refused by its parent list
//! or its output, and one otherwise; none by 4. Spoiled are, of the second: each number of a piece
//! and of a cut, one piece less, one more, a cut less, and a refusal; and the number of a refusal; a
//! tail that is flagged short, and a piece alone that is not.

use super::Bytes;
use super::candidates::put_settings;
use super::silences::{put_lists, put_recording};
use crate::domain::{MOST_SAMPLES, SAMPLE_RATES};
use crate::plan_job::planned::Planned;
use crate::plan_job::{Job, trials};
use crate::rng::Rng;

const MOST_FRAMES: u64 = 30;

/// Refusals for what the job or its work lists are, in document 01's order.
const REFUSALS: [u32; 11] = [1, 2, 3, 5, 6, 7, 8, 9, 10, 11, 13];

/// Entries of the lent lists.
struct Lists {
    /// Of each of the three.
    work: usize,
    parent: usize,
    pieces: usize,
    cuts: usize,
}

impl Lists {
    /// As long as they have to be.
    fn enough(job: &Job, planned: &Planned) -> Self {
        Self {
            work: 16 * (job.recording.case.values.len() + 1),
            parent: parents(job).into_iter().max().unwrap_or(0),
            pieces: planned.pieces.len(),
            cuts: planned.cuts.len(),
        }
    }
}

/// Entries of the parent list for each path; none by length.
fn parents(job: &Job) -> Vec<usize> {
    let count = if job.plan.by_count { job.plan.count } else { 0 };
    job.course().parents(count)
}

pub fn record(bytes: &mut Bytes, rng: &mut Rng, i: u64) {
    let mut first = trials::planned().into_iter().chain(trials::tails());
    let trial = first.nth(i as usize);
    let kind = if trial.is_some() { 0 } else { i % 8 };
    let mut job = trial.map_or_else(|| any_job(rng), |(job, _)| job);
    let planned = job.planned();
    let mut lists = Lists::enough(&job, &planned);
    let refusal = match kind {
        6 => shorten(rng, &parents(&job), &mut lists),
        7 => refuse(rng, i / 8, &mut job, &mut lists),
        _ => {
            lists.pieces += rng.below(4) as usize;
            lists.cuts += rng.below(4) as usize;
            0
        }
    };
    let answer = if refusal == 0 {
        planned
    } else {
        Planned::default()
    };
    put(bytes, &job, &lists, refusal, &answer);
}

pub fn spoiled(bytes: &mut Bytes) {
    let [_, (job, planned), _] = trials::planned();
    let mut lists = Lists::enough(&job, &planned);
    for i in 0..3 {
        let mut other = planned.clone();
        other.pieces[i] ^= 1;
        put(bytes, &job, &lists, 0, &other);
        let mut other = planned.clone();
        other.cuts[i] ^= 1;
        put(bytes, &job, &lists, 0, &other);
    }
    let mut less = planned.clone();
    less.pieces.truncate(3);
    less.cuts.clear();
    put(bytes, &job, &lists, 0, &less);
    let mut uncut = planned.clone();
    uncut.cuts.clear();
    put(bytes, &job, &lists, 0, &uncut);
    let mut more = planned;
    more.pieces.extend([700, 800, 0]);
    more.cuts.extend([700, 700, 2]);
    // A plan that its lists cannot hold would be no record.
    lists.pieces += 3;
    lists.cuts += 3;
    put(bytes, &job, &lists, 0, &more);
    put(bytes, &job, &lists, 14, &Planned::default());
    lists.parent -= 1;
    put(bytes, &job, &lists, 12, &Planned::default());
    let [tail, .., alone] = trials::tails();
    for (job, mut planned) in [tail, alone] {
        let flags = planned.pieces.last_mut().expect("a piece");
        *flags ^= 1;
        put(bytes, &job, &Lists::enough(&job, &planned), 0, &planned);
    }
}

/// One in four of very few frames, one of more than a few.
fn any_job(rng: &mut Rng) -> Job {
    let most = rng.choose(&[6, 12, 12, MOST_FRAMES]);
    let frames = rng.below(most + 1);
    Job::to_plan(rng, frames)
}

/// Takes an entry from the parent list of a path, or from an output list that has one; the refusal
/// for it.
fn shorten(rng: &mut Rng, needed: &[usize], lists: &mut Lists) -> u32 {
    let parent = rng.choose(needed);
    if parent > 0 && !rng.one_in(3) {
        lists.parent = parent - 1;
        return 14;
    }
    let list = if lists.cuts > 0 && rng.one_in(2) {
        &mut lists.cuts
    } else {
        &mut lists.pieces
    };
    if *list == 0 {
        return 0;
    }
    *list -= 1;
    12
}

/// Brings the job to one refusal or two neighbours, in turn; the first of them.
fn refuse(rng: &mut Rng, turn: u64, job: &mut Job, lists: &mut Lists) -> u32 {
    let at = turn as usize % REFUSALS.len();
    let numbers = &REFUSALS[at..REFUSALS.len().min(at + 1 + rng.below(2) as usize)];
    for number in numbers {
        change(rng, job, lists, *number);
    }
    numbers[0]
}

fn change(rng: &mut Rng, job: &mut Job, lists: &mut Lists, refusal: u32) {
    let (case, settings) = (&mut job.recording.case, &mut job.recording.settings);
    let plan = &mut job.plan;
    match refusal {
        1 => case.sample_rate = rng.choose(&[0, *SAMPLE_RATES.end() as u32 + 1]),
        2 => case.channels = 0,
        3 => case.hop = 0,
        5 if case.values.is_empty() => {
            (case.values, case.flags) = (vec![f32::NAN], vec![0]);
            case.levels = if case.decibels { vec![0.0] } else { Vec::new() };
        }
        5 => case.values[0] = f32::NAN,
        6 => case.len = MOST_SAMPLES + 1,
        7 => plan.target = plan.max + 1,
        8 => (plan.by_count, plan.count) = (true, 0),
        9 => (plan.placement, plan.ratio) = (2, rng.choose(&[f32::NAN, 1.5, -0.5])),
        10 => plan.weights.cut = rng.choose(&[0.0, f64::NAN, -1.0]),
        11 => (settings.kind, settings.threshold) = (1, f32::INFINITY),
        _ => lists.work -= 1,
    }
}

fn put(bytes: &mut Bytes, job: &Job, lists: &Lists, refusal: u32, answer: &Planned) {
    put_recording(bytes, &job.recording);
    put_settings(bytes, &job.plan);
    bytes.u32(refusal);
    let stored = [answer.pieces.len() / 3, answer.cuts.len() / 3];
    let lent = [lists.work, lists.parent, lists.pieces, lists.cuts];
    let sizes = stored.into_iter().chain(lent);
    sizes.for_each(|n| bytes.u32(n as u32));
    put_lists(bytes, &job.recording.case);
    answer.pieces.iter().for_each(|n| bytes.u64(*n));
    answer.cuts.iter().for_each(|n| bytes.u64(*n));
}
