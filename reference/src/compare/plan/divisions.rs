//! Document 01's third demand on plans of a few frames, against every division of their span.

use crate::plan_job::Job;
use crate::plan_job::places::Places;
use crate::plan_job::planned::{Course, Planned};
use crate::plan_job::trials::{self, planned_of};

/// Frames at most: the places between the ends have 512 choices.
pub const MOST_FRAMES: usize = 10;

/// A reach that was sought and is below the maximum, or above the longer of the span and the maximum
/// (document 02, S-8), whatever the frames.
pub fn reach_fault(course: &Course) -> Option<String> {
    let (limit, maximum) = (course.completed.as_ref()?.limit, course.maximum);
    let longer = course.places.span().max(maximum);
    let outside = limit < maximum || limit > longer;
    outside.then(|| format!("reach {limit}, from {maximum} to {longer} there is one"))
}

/// What is wrong with a plan of few frames, if anything.
pub fn fault(job: &Job, planned: &Planned, course: &Course) -> Option<String> {
    if job.recording.case.values.len() > MOST_FRAMES {
        return None;
    }
    let lengths = match division(planned, &course.places) {
        Ok(lengths) => lengths,
        Err(why) => return Some(format!("the plan is no division: {why}")),
    };
    let fault = if job.plan.by_count {
        by_count(job.plan.count as usize, &lengths, course)
    } else if all_single(planned, course) {
        None
    } else {
        Some("a piece over the maximum is no single frame".to_string())
    };
    fault.or_else(|| flags(planned, course))
}

/// As many pieces as can be given; the longest, if it is over the maximum, no longer than that of
/// any division into as many or fewer; and the reach, where one was sought, the least limit of all.
fn by_count(asked: usize, lengths: &[u64], course: &Course) -> Option<String> {
    let whole = course.places.kept_frames.min(asked);
    if lengths.len() != whole {
        return Some(format!("{} pieces, expected {whole}", lengths.len()));
    }
    let longest = lengths.iter().copied().max()?;
    let least = least(&course.places, whole);
    let reach = course.completed.as_ref().map(|c| c.limit);
    if longest > course.maximum.max(least) {
        Some(format!("longest piece {longest}, a division has {least}"))
    } else if reach.is_some_and(|reach| reach != course.maximum.max(least)) {
        Some(format!("reach {reach:?}, a division has {least}"))
    } else {
        None
    }
}

/// The lengths of the plan's pieces, where it is a division.
fn division(planned: &Planned, places: &Places) -> Result<Vec<u64>, &'static str> {
    let cuts: Vec<(u64, u64)> = planned.cuts.chunks(3).map(|c| (c[0], c[1])).collect();
    let ends = match (places.ends.first(), places.ends.last()) {
        (Some(first), Some(last)) => [&[*first], &cuts[..], &[*last]].concat(),
        _ => cuts,
    };
    // In order, and each of them a place.
    let mut rest = places.ends.iter();
    if !ends.iter().all(|end| rest.any(|place| place == end)) {
        return Err("cuts");
    }
    let between = ends.windows(2).map(|w| (w[0].1, w[1].0));
    let pieces: Vec<(u64, u64)> = planned.pieces.chunks(3).map(|p| (p[0], p[1])).collect();
    if !between.eq(pieces.iter().copied()) {
        return Err("pieces");
    }
    Ok(pieces.iter().map(|(start, end)| end - start).collect())
}

/// The least longest piece of all divisions into at most so many pieces.
fn least(places: &Places, most: usize) -> u64 {
    let last = places.ends.len() - 1;
    let choices = 0u32..1 << (last - 1);
    let few = choices.filter(|chosen| chosen.count_ones() < most as u32);
    let longest = few.map(|chosen| {
        let (mut longest, mut start) = (0, places.ends[0].1);
        for i in (1..=last).filter(|i| *i == last || chosen >> (i - 1) & 1 == 1) {
            let (left, right) = places.ends[i];
            longest = longest.max(left - start);
            start = right;
        }
        longest
    });
    longest.min().expect("the whole span is one division")
}

/// Whether every piece over the maximum runs from one boundary to the next.
fn all_single(planned: &Planned, course: &Course) -> bool {
    let mut long = planned
        .pieces
        .chunks(3)
        .filter(|p| p[1] - p[0] > course.maximum);
    long.all(|p| {
        let mut neighbours = course.places.ends.windows(2);
        neighbours.any(|w| (w[0].1, w[1].0) == (p[0], p[1]))
    })
}

/// A piece whose flags are not those of its own length beside the minimum and the maximum; the last
/// of several is never short.
fn flags(planned: &Planned, course: &Course) -> Option<String> {
    let count = planned.pieces.len() / 3;
    let mut pieces = planned.pieces.chunks(3).enumerate();
    let wrong = pieces.find(|(i, p)| {
        let length = p[1] - p[0];
        let tail = count >= 2 && i + 1 == count;
        let short = !tail && (length as f64) < course.minimum;
        p[2] != u64::from(short) + 2 * u64::from(length > course.maximum)
    });
    wrong.map(|(_, piece)| format!("flags of piece {piece:?}"))
}

/// Panics if a plan of document 01's trials is refused here, or another plan of one of them is not
/// refused for what is wrong with it.
pub fn try_on_trials() {
    let [printed, by_two, by_eight] = trials::planned();
    for (job, planned) in [&printed, &by_two, &by_eight] {
        assert_eq!(fault(job, planned, &job.course()), None, "a trial");
    }
    let wrong = [
        (&by_two, planned_of(&[0, 700], &[2], &[]), "1 pieces"),
        (
            &by_two,
            planned_of(&[0, 500, 700], &[2, 0], &[2]),
            "longest",
        ),
        (&by_two, planned_of(&[0, 300, 700], &[0, 0], &[0]), "flags"),
        (&by_two, planned_of(&[0, 350, 700], &[2, 2], &[0]), "cuts"),
        (&by_two, planned_of(&[0, 400], &[2], &[]), "pieces"),
        (
            &by_eight,
            planned_of(&[0, 400, 700], &[0, 0], &[0]),
            "2 pieces",
        ),
        (&printed, planned_of(&[0, 700], &[2], &[]), "single"),
    ];
    for ((job, _), planned, why) in wrong {
        let fault = fault(job, &planned, &job.course());
        assert!(fault.is_some_and(|f| f.contains(why)), "{planned:?}: {why}");
    }
    try_tails();
    try_reach();
}

/// Panics if a plan with short pieces is refused here, or one with other flags is not: the tail's,
/// none on the first of two, the tail's for the first's, long for it, and none on a piece alone.
fn try_tails() {
    let tails = trials::tails();
    for (job, planned) in &tails {
        assert_eq!(fault(job, planned, &job.course()), None, "a short piece");
    }
    let [.., (several, _), (alone, _)] = tails;
    let wrong = [
        (&several, planned_of(&[0, 1, 2], &[1, 1], &[2])),
        (&several, planned_of(&[0, 1, 2], &[0, 0], &[2])),
        (&several, planned_of(&[0, 1, 2], &[0, 1], &[2])),
        (&several, planned_of(&[0, 1, 2], &[1, 2], &[2])),
        (&alone, planned_of(&[1, 2], &[0], &[])),
    ];
    for (job, planned) in wrong {
        let fault = fault(job, &planned, &job.course());
        assert!(fault.is_some_and(|f| f.contains("flags")), "{planned:?}");
    }
}

/// Panics if the reach of the whole span is refused here, or one that is longer is not.
fn try_reach() {
    let mut course = trials::whole().0.course();
    assert_eq!(reach_fault(&course), None, "a reach of the whole span");
    let completed = course.completed.as_mut().expect("a reach is sought");
    assert_eq!(completed.limit, 700, "the length of the span");
    completed.limit += 1;
    assert!(reach_fault(&course).is_some(), "a reach above the span");
}
