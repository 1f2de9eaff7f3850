//! The jobs that every comparison and the stored sample start with.

use super::damaged::{
    cut_short, followed, long, of_frames, single_bytes, unknown_bits, unknown_kinds,
    with_all_fields,
};
use super::encode::{ALL, encode};
use super::limits::limits;
use super::outcome::Outcome;
use super::parents::{of_first_path, of_second_path};
use super::read::{Damage, read};
use super::trials::{self, printed, trials};
use super::{MOST_BYTES, MOST_FRAMES, expected};
use crate::plan_job::{Job, Settings};

/// Those that are stored: the trials first, then each refusal that a job can reach and each damage,
/// with what is accepted beside them.
pub fn stored() -> Vec<Vec<u8>> {
    let mut jobs: Vec<Vec<u8>> = trials().into_iter().map(|(job, _)| job).collect();
    jobs.extend(limits().iter().map(|(_, job)| short(job)));
    let [[fits, first], [_, second]] = [of_first_path(), of_second_path()];
    jobs.extend([fits, first, second].iter().map(short));
    let job = short(&printed());
    jobs.extend(single_bytes());
    jobs.extend(cut_short(&job));
    jobs.extend(unknown_bits(&job));
    jobs.extend(unknown_kinds(&encode(&with_all_fields(false), 0)));
    jobs.push(followed(&job, job.len() + 1));
    let most = MOST_FRAMES as usize;
    jobs.extend([most, most + 1].map(|frames| short(&usual(frames))));
    jobs.extend(long());
    jobs
}

/// All of them: those that are stored and those that would take much room there.
pub fn jobs() -> Vec<Vec<u8>> {
    let mut jobs = stored();
    let written = encode(&with_all_fields(true), 0);
    jobs.extend(cut_short(&written.bytes));
    jobs.extend(unknown_bits(&written.bytes));
    jobs.extend(unknown_kinds(&written));
    jobs.push(written.bytes);
    let [fits, _] = of_second_path();
    jobs.push(short(&fits));
    let job = short(&printed());
    jobs.extend([MOST_BYTES, MOST_BYTES + 1].map(|len| followed(&job, len)));
    let most = MOST_FRAMES as usize;
    jobs.extend([most, most + 1].map(|frames| encode(&of_frames(frames, true), 0).bytes));
    jobs
}

/// Panics where one of them has another outcome than the one it is made for.
pub fn check() {
    trials::check();
    for (number, job) in limits() {
        let outcome = Outcome::of(Ok(&job));
        assert_eq!(outcome.number(), number, "{job:?}");
        assert_eq!(outcome.listing(), expected(&short(&job)), "{job:?}");
    }
    let paths = [of_first_path(), of_second_path()];
    let paths = paths.map(|jobs| jobs.map(|job| Outcome::of(Ok(&job))));
    assert!(matches!(
        paths,
        [
            [Outcome::Planned(_), Outcome::FirstPath],
            [Outcome::Planned(_), Outcome::SecondPath]
        ]
    ));
    let job = short(&printed());
    all_damaged(&single_bytes(), Damage::CutShort);
    all_damaged(&cut_short(&job), Damage::CutShort);
    all_damaged(&unknown_bits(&job), Damage::UnknownBit);
    let with_kinds = encode(&with_all_fields(false), 0);
    all_damaged(&unknown_kinds(&with_kinds), Damage::UnknownKind);
    all_damaged(&[followed(&job, job.len() + 1)], Damage::BytesAfter);
    let [at_limit, over] = long();
    all_damaged(&[at_limit], Damage::TooManyFrames);
    all_damaged(&[over], Damage::TooManyBytes);
}

fn all_damaged(jobs: &[Vec<u8>], damage: Damage) {
    for job in jobs {
        assert_eq!(read(job).err(), Some(damage), "{job:?}");
    }
}

/// Without the fields that an absence says too.
fn short(job: &Job) -> Vec<u8> {
    encode(job, ALL).bytes
}

/// So many frames with the settings of an empty map.
fn usual(frames: usize) -> Job {
    let mut job = of_frames(frames, false);
    job.plan = Settings::usual();
    job
}
