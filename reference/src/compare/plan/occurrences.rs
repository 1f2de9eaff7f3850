//! What the compared plans went through, so that a run shows which ways it took.

use std::collections::HashSet;

use super::Sizes;
use crate::plan_job::Job;
use crate::plan_job::planned::{Completed, Course, Planned};
use crate::tally::Tally;

/// Dropped gaps of a job that counts as one of many.
const MANY_GAPS: usize = 3;

/// Frames of a maximum that counts as one of a few.
const FEW_FRAMES: u128 = 8;

pub fn count(
    tally: &mut Tally,
    job: &Job,
    sizes: &Sizes,
    refusal: u32,
    planned: &Planned,
    course: &Course,
) {
    inputs(tally, job, planned, course);
    completion(tally, job, course);
    let needed = course.parents(job.plan.count);
    let first = refusal == 14 && sizes.parent < needed[0];
    tally.occurs("14 for the first path", first);
    tally.occurs("14 for the second path", refusal == 14 && !first);
    tally.occurs("12", refusal == 12);
    if refusal == 0 {
        answers(tally, planned);
        tails(tally, job, planned);
    }
}

/// What the generators are meant to bring often.
fn inputs(tally: &mut Tally, job: &Job, planned: &Planned, course: &Course) {
    let gaps = |list: &[(u64, u64)]| list.iter().filter(|(left, right)| left < right).count();
    tally.occurs("by count", job.plan.by_count);
    let many = gaps(&course.places.ends) >= MANY_GAPS;
    tally.occurs("three dropped gaps or more", many);
    tally.occurs("a maximum of eight frames or fewer", few_frames(job));
    let beyond = |nanos: u64| beyond_word(job, nanos);
    tally.occurs(
        "a maximum times the rate beyond 64 bits",
        beyond(job.plan.max),
    );
    tally.occurs(
        "a target times the rate beyond 64 bits",
        beyond(job.plan.target),
    );
    let mut neighbours = course.found.windows(2);
    let blocked = neighbours.any(|w| w[1].0 - w[0].1 > course.maximum);
    tally.occurs("neighbours further apart than the maximum", blocked);
    tally.occurs("empty plan", planned.pieces.is_empty());
    let kept = course.places.kept_frames;
    let asked = (job.plan.by_count && kept > 0).then_some(job.plan.count as usize);
    let about = |n: usize| asked.is_some_and(|asked| asked.abs_diff(n) <= 1);
    let given = course.found.len().saturating_sub(1);
    tally.occurs(
        "about as many pieces asked for as candidates give",
        about(given),
    );
    tally.occurs(
        "about as many pieces asked for as frames are kept",
        about(kept),
    );
    let more = asked.is_some_and(|asked| asked > kept);
    tally.occurs("more pieces asked for than frames are kept", more);
}

/// Whether 64 bits do not hold the product of a length and the sample rate.
fn beyond_word(job: &Job, nanos: u64) -> bool {
    u128::from(nanos) * u128::from(job.recording.case.sample_rate) > u64::MAX.into()
}

fn few_frames(job: &Job) -> bool {
    let case = &job.recording.case;
    let frame = u128::from(case.hop) * 1_000_000_000;
    u128::from(job.plan.max) * u128::from(case.frame_rate) <= FEW_FRAMES * frame
}

fn completion(tally: &mut Tally, job: &Job, course: &Course) {
    let completed = |so: &dyn Fn(&Completed) -> bool| course.completed.as_ref().is_some_and(so);
    let added = |c: &Completed| c.candidates.len() > course.found.len();
    let (by_length, by_count) = (!job.plan.by_count, job.plan.by_count);
    let so = by_length && completed(&added);
    tally.occurs("completion by length added a point", so);
    let so = by_count && completed(&|_| true);
    tally.occurs("a reach sought", so);
    let so = completed(&|c| c.limit > course.maximum);
    tally.occurs("a reach above the maximum", so);
    let span = course.places.span();
    let so = by_count && completed(&|c| c.limit > course.maximum && c.limit == span);
    tally.occurs("a reach as long as the span, above the maximum", so);
    let so = by_count && completed(&|_| course.maximum >= span);
    tally.occurs("a reach sought under a maximum as long as the span", so);
    let so = by_count && completed(&|c| shares_added(course, c));
    tally.occurs("equal shares added a candidate", so);
}

/// Whether a candidate is neither of the first ones nor a cut of the division that goes as far as
/// it can.
fn shares_added(course: &Course, completed: &Completed) -> bool {
    let farthest = course.places.farthest(completed.limit);
    let known: HashSet<_> = course.found.iter().chain(&farthest).collect();
    completed.candidates.iter().any(|c| !known.contains(c))
}

fn answers(tally: &mut Tally, planned: &Planned) {
    let flagged = |flag: u64| planned.pieces.chunks(3).any(|piece| piece[2] & flag != 0);
    tally.occurs("a short piece", flagged(1));
    tally.occurs("a long piece", flagged(2));
    let cut = |so: &dyn Fn(&[u64]) -> bool| planned.cuts.chunks(3).any(so);
    tally.occurs("a cut in silence", cut(&|c| c[2] == 0));
    tally.occurs("a quiet cut", cut(&|c| c[2] == 1));
    tally.occurs("a forced cut", cut(&|c| c[2] == 2));
    tally.occurs("a cut that drops a gap", cut(&|c| c[0] < c[1]));
}

/// Tails that are short to the Rust, and here by document 02's S-5 are not.
fn tails(tally: &mut Tally, job: &Job, planned: &Planned) {
    let lost = planned.unflagged;
    tally.occurs("a tail that lost its flag", lost);
    let (by_count, dropped) = (job.plan.by_count, job.plan.drop_gaps);
    tally.occurs("a tail that lost its flag, by count", lost && by_count);
    let so = lost && dropped;
    tally.occurs("a tail that lost its flag, gaps dropped", so);
    let several = planned.pieces.len() > 3;
    let long = several && planned.pieces.last() == Some(&2);
    tally.occurs("a long tail", long);
    let alone = planned.pieces.len() == 3 && planned.pieces[2] == 1;
    tally.occurs("a plan of one short piece", alone);
}
