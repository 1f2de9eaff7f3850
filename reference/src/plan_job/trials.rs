//! The trial cuts of document 01 that a plan of recording R has, short pieces, and plans that cost
//! more under a longer maximum.

use super::planned::Planned;
use super::{Job, Settings};
use crate::case::Case;
use crate::path_job::Score;
use crate::recording::Recording;
use crate::silence_job;

/// In nanoseconds.
const SECOND: u64 = 1_000_000_000;

/// A job with the boundary where document 01 has R's silence cut.
pub type Trial = (Job, u32);

/// R as printed, with a maximum of 300 ms and count 2, and by count 8.
pub fn trials() -> [Trial; 3] {
    [
        (trial(400, None), 4),
        (trial(300, Some(2)), 3),
        (trial(400, Some(8)), 4),
    ]
}

/// The same with their plans, as document 01 gives them.
pub fn planned() -> [(Job, Planned); 3] {
    let jobs = trials().map(|(job, _)| job);
    let plans = [
        planned_of(&[0, 400, 700], &[0, 0], &[0]),
        planned_of(&[0, 300, 700], &[0, 2], &[0]),
        planned_of(
            &[0, 100, 200, 300, 400, 500, 600, 700],
            &[0; 7],
            &[2, 1, 1, 0, 2, 2],
        ),
    ];
    let mut plans = plans.into_iter();
    jobs.map(|job| (job, plans.next().expect("one for each job")))
}

/// R in one piece, above a maximum of 300 ms: the reach is the length of the whole span.
pub fn whole() -> (Job, Planned) {
    (trial(300, Some(1)), planned_of(&[0, 700], &[2], &[]))
}

/// Document 02's S-5, pieces below a minimum of 2 s. By length: the tail, which is not flagged, and a
/// first piece. By count: both of two, gaps kept and dropped, and a piece that is alone.
pub fn tails() -> [(Job, Planned); 5] {
    let from_two = |values: &[f32], count: Option<u32>| {
        let mut job = seconds(values, 2, count);
        (job.plan.min, job.plan.target) = (2 * SECOND, 2 * SECOND);
        job
    };
    [
        (
            from_two(&[1.0, 0.0, 0.0], None),
            unflagged(planned_of(&[0, 2, 3], &[0, 0], &[0])),
        ),
        (
            from_two(&[0.0, 0.0, 1.0], None),
            planned_of(&[0, 1, 3], &[1, 0], &[0]),
        ),
        (
            from_two(&[1.0, 1.0], Some(2)),
            unflagged(planned_of(&[0, 1, 2], &[1, 0], &[2])),
        ),
        (padded(3), unflagged(planned_of(&[0, 1, 2], &[1, 0], &[2]))),
        (padded(2), planned_of(&[1, 2], &[1], &[])),
    ]
}

/// A plan whose tail is short to the Rust.
fn unflagged(planned: Planned) -> Planned {
    Planned {
        unflagged: true,
        ..planned
    }
}

/// Document 02 says nothing of a plan whose maximum is raised: recordings by length, by count, and
/// by count with gaps dropped, each with its plan and the score of that before and after.
pub fn raised() -> [(Job, Planned, Score); 6] {
    let score = |cost| Score { over: 0, cost };
    let [.., (several, two), (alone, one)] = tails();
    [
        (
            seconds(&[0.0, 1.0], 2, None),
            planned_of(&[0, 1, 2], &[0, 0], &[0]),
            score(0.6),
        ),
        (
            seconds(&[0.0, 1.0], 3, None),
            planned_of(&[0, 2], &[0], &[]),
            score(1.0),
        ),
        (
            seconds(&[1.0, 0.0, 0.0], 3, Some(2)),
            planned_of(&[0, 2, 3], &[0, 0], &[0]),
            score(0.3222222222222222),
        ),
        (
            seconds(&[1.0, 0.0, 0.0], 4, Some(2)),
            planned_of(&[0, 1, 3], &[0, 0], &[0]),
            score(0.8222222222222222),
        ),
        (alone, one, score(3.0)),
        (several, two, score(4.6)),
    ]
}

/// A second of silence and one of sound by count 2, gaps dropped, a second of silence kept before
/// sound: the maximum decides whether there is room for it.
fn padded(max: u64) -> Job {
    let mut job = seconds(&[0.0, 1.0], max, Some(2));
    job.recording.settings.pre = SECOND;
    job.recording.settings.tail = 0;
    (job.plan.min, job.plan.target) = (2 * SECOND, 2 * SECOND);
    job.plan.drop_gaps = true;
    job
}

/// Frames of a second, one sample each; no minimum, target 1 s, and a maximum in seconds.
fn seconds(values: &[f32], max: u64, count: Option<u32>) -> Job {
    let mut case = Case::silent_scores(&Recording {
        sample_rate: 1,
        frame_rate: 1,
        hop: 1,
        frames: values.len() as u64,
        len: values.len() as u64,
    });
    case.values = values.to_vec();
    let settings = silence_job::Settings::usual();
    let plan = Settings {
        min: 0,
        target: SECOND,
        max: SECOND * max,
        by_count: count.is_some(),
        count: count.unwrap_or(0),
        ..Settings::usual()
    };
    let recording = silence_job::Job { case, settings };
    Job { recording, plan }
}

/// Pieces between these ends, with these flags, and cuts between them for these reasons.
pub fn planned_of(ends: &[u64], flags: &[u64], reasons: &[u64]) -> Planned {
    let pieces = ends.windows(2).zip(flags);
    let inner = &ends[1..ends.len() - 1];
    let cuts = inner.iter().zip(reasons);
    Planned {
        pieces: pieces
            .flat_map(|(ends, f)| [ends[0], ends[1], *f])
            .collect(),
        cuts: cuts.flat_map(|(at, reason)| [*at, *at, *reason]).collect(),
        unflagged: false,
    }
}

fn trial(max_millis: u64, count: Option<u32>) -> Job {
    let recording = silence_job::Job {
        case: Case::trial(700),
        settings: silence_job::Settings::usual(),
    };
    let plan = Settings {
        min: 100_000_000,
        target: 300_000_000,
        max: 1_000_000 * max_millis,
        by_count: count.is_some(),
        count: count.unwrap_or(0),
        ..Settings::usual()
    };
    Job { recording, plan }
}
