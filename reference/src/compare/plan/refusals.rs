//! The refusals of the plan: inputs on both sides of every limit, alone and two at once.

use super::{Caller, Sizes, take};
use crate::compare::Amount;
use crate::compare::aims::aims;
use crate::compare::candidates::refusals::{any_levels, change};
use crate::compare::silences::{WORK, refusals as silences};
use crate::domain::MOST_FRAMES;
use crate::first_refusal;
use crate::plan_job::Job;
use crate::plan_job::planned::{Course, Planned};
use crate::rng::Rng;
use crate::tally::Tally;

/// Document 01's order for this operation.
const ORDER: [u32; 14] = [1, 2, 3, 4, 5, 6, 7, 8, 9, 10, 11, 13, 14, 12];

/// What occurs, by its number.
const NUMBERS: [&str; 15] = [
    "accepted", "1", "2", "3", "4", "5", "6", "7", "8", "9", "10", "11", "12", "13", "14",
];

/// One recording in so many is large: it takes as long as thousands of small ones.
const LARGE: u64 = 10_000;

pub fn refusals(amount: Amount, rng: &mut Rng, tally: &mut Tally) {
    let mut caller = Caller::new();
    for i in 0..amount.inputs {
        let aims = aims(&ORDER, rng, i);
        let mut job = match i % LARGE {
            10 => any_levels(rng, MOST_FRAMES),
            11 => any_levels(rng, MOST_FRAMES + 1),
            _ => any_job(rng, &aims),
        };
        for number in &aims {
            change(&mut job, rng, *number);
        }
        job.only_rusts_thresholds();
        let first = first_refusal::of_plan(&job);
        let answer = if first == 0 { answer(&mut job) } else { None };
        let sizes = sizes(rng, &job, answer.as_ref(), &aims);
        let refusal = match first {
            0 => by_lists(&job, &sizes, answer.as_ref()),
            first => first,
        };
        for number in [&[0], &ORDER[..]].concat() {
            tally.occurs(NUMBERS[number as usize], refusal == number);
        }
        let planned = answer.map_or(Planned::default(), |(planned, _)| planned);
        let fault = caller.ask(&job, &sizes, refusal, &planned, rng);
        take(tally, &job, &sizes, fault);
    }
}

fn any_job(rng: &mut Rng, aims: &[u32]) -> Job {
    let frames = rng.magnitude(40);
    let mut job = Job::to_plan(rng, frames);
    // By length there is no parent list to be too short.
    if aims.contains(&14) && !job.plan.by_count && !rng.one_in(8) {
        job.plan.by_count = true;
        job.plan.count = 1 + rng.below(20) as u32;
    }
    job
}

/// The Rust's plan. That of a large job would take long, and its work lists are too short.
fn answer(job: &mut Job) -> Option<(Planned, Course)> {
    if job.recording.case.values.len() as u64 >= MOST_FRAMES {
        return None;
    }
    // A changed frame rate has changed them.
    job.lend_levels();
    Some((job.planned(), job.course()))
}

fn by_lists(job: &Job, sizes: &Sizes, answer: Option<&(Planned, Course)>) -> u32 {
    let least = WORK * (job.recording.case.values.len() + 1);
    if sizes.work.iter().any(|n| *n < least) {
        return 13;
    }
    let (planned, course) = answer.expect("the work lists of a large job are too short");
    sizes.refusal(job, planned, course)
}

fn sizes(rng: &mut Rng, job: &Job, answer: Option<&(Planned, Course)>, aims: &[u32]) -> Sizes {
    let parents = answer.map_or(vec![0], |(_, course)| course.parents(job.plan.count));
    let needed = parents.iter().copied().max().unwrap_or(0);
    let (pieces, cuts) = answer.map_or((0, 0), |(p, _)| (p.pieces.len(), p.cuts.len()));
    let parent = if aims.contains(&14) {
        let any = rng.choose(&parents) as u64;
        rng.near(&[any, any, 0], u64::MAX) as usize
    } else if job.plan.by_count {
        needed + rng.below(8) as usize
    } else {
        rng.below(8) as usize
    };
    Sizes {
        work: silences::work(rng, job.recording.case.values.len(), aims),
        parent,
        pieces: silences::out(rng, pieces, aims),
        cuts: silences::out(rng, cuts, aims),
    }
}
