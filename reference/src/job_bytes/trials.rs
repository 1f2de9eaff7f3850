//! The trial cuts of document 01 that the program runs, recording R and what is printed for it, with
//! the empty job, the rates and the short pieces of document 02.

use std::time::Duration;

use silence_split::plan::PlanConfig;
use silence_split::segment::SegmentConfig;

use super::encode::{ALL, encode};
use super::expected;
use crate::plan_job::{self, Job};
use crate::silence_job;

/// What the papers say of a job.
pub enum Said {
    /// This is printed, whole.
    Prints(&'static str),
    /// It is accepted.
    Accepts,
}

/// R with map 7 and 100, 300 and 400 ms, written down from document 01 byte by byte.
const PRINTED: [u8; 81] = [
    0x07, 0x00, // map
    0x00, 0xe1, 0xf5, 0x05, 0, 0, 0, 0, // min
    0x00, 0xa3, 0xe1, 0x11, 0, 0, 0, 0, // target
    0x00, 0x84, 0xd7, 0x17, 0, 0, 0, 0, // max
    0xe8, 0x03, 0, 0, // rate
    0x01, 0x00, // channels
    0x0a, 0, 0, 0, // frame rate
    0x01, 0, 0, 0, // hop
    0xbc, 0x02, 0, 0, 0, 0, 0, 0,    // length
    0x00, // scores
    0x07, 0, 0, 0, // frames
    0, 0, 0x80, 0x3f, // 1
    0, 0, 0x80, 0x3f, // 1
    0, 0, 0, 0, // 0
    0, 0, 0, 0, // 0
    0, 0, 0, 0, // 0
    0, 0, 0x80, 0x3f, // 1
    0, 0, 0x80, 0x3f, // 1
];

/// The listing that document 01 prints.
pub const PRINTED_LISTING: &str = "plan 2 1
piece 0 400 -
piece 400 700 -
cut 400 400 silence
";

/// The listing that document 02, S-2, prints for a job of 0 bytes.
pub const EMPTY_LISTING: &str = "plan 0 0\n";

const BY_TWO: &str = "plan 2 1
piece 0 300 -
piece 300 700 l
cut 300 300 silence
";

const BY_EIGHT: &str = "plan 7 6
piece 0 100 -
piece 100 200 -
piece 200 300 -
piece 300 400 -
piece 400 500 -
piece 500 600 -
piece 600 700 -
cut 100 100 forced
cut 200 200 quiet
cut 300 300 quiet
cut 400 400 silence
cut 500 500 forced
cut 600 600 forced
";

/// Document 02, S-5: pieces below the minimum, by length the tail and a first piece, by count both
/// of two, twice, and a piece that is alone.
pub const TAILS: [&str; 5] = [
    "plan 2 1\npiece 0 2 -\npiece 2 3 -\ncut 2 2 silence\n",
    "plan 2 1\npiece 0 1 s\npiece 1 3 -\ncut 1 1 silence\n",
    "plan 2 1\npiece 0 1 s\npiece 1 2 -\ncut 1 1 forced\n",
    "plan 2 1\npiece 0 1 s\npiece 1 2 -\ncut 1 1 forced\n",
    "plan 1 0\npiece 1 2 s\n",
];

/// R as printed.
pub fn printed() -> Job {
    let [(job, _), _, _] = plan_job::trials::planned();
    job
}

pub fn trials() -> Vec<(Vec<u8>, Said)> {
    let [_, (by_two, _), (by_eight, _)] = plan_job::trials::planned();
    let long = |len: u64| {
        let mut job = printed();
        job.recording.case.len = len;
        job
    };
    let at = |rate: u32, len: u64| {
        let mut job = long(len);
        job.recording.case.sample_rate = rate;
        job
    };
    let others = [
        (by_two, Said::Prints(BY_TWO)),
        (by_eight, Said::Prints(BY_EIGHT)),
        (long(601), Said::Accepts),
        (long(799), Said::Accepts),
        (long(600), Said::Prints("refused 6\n")),
        (long(800), Said::Prints("refused 6\n")),
        (at(192_001, 700), Said::Prints("refused 6\n")),
        (at(768_000, 537_600), Said::Accepts),
        (at(768_001, 700), Said::Prints("refused 1\n")),
    ];
    let tails = plan_job::trials::tails().into_iter().map(|(job, _)| job);
    let tails = tails.zip(TAILS.map(Said::Prints));
    let others = tails.chain(others);
    let others = others.map(|(job, said)| (encode(&job, ALL).bytes, said));
    let first = (PRINTED.to_vec(), Said::Prints(PRINTED_LISTING));
    let empty = (Vec::new(), Said::Prints(EMPTY_LISTING));
    [first, empty].into_iter().chain(others).collect()
}

/// Panics where the driver's own reading and the Rust give a trial another listing than the papers
/// do, or an absence another value than the Rust's own.
pub fn check() {
    let written = encode(&printed(), ALL).bytes;
    assert_eq!(written, PRINTED, "R as printed");
    for (job, said) in trials() {
        let listing = String::from_utf8(expected(&job)).expect("a listing is plain text");
        match said {
            Said::Prints(whole) => assert_eq!(listing, whole, "a trial cut of the papers"),
            Said::Accepts => assert!(listing.starts_with("plan "), "a trial cut: {listing}"),
        }
    }
    let silences = silence_job::Settings::usual().config();
    assert_eq!(silences, SegmentConfig::default(), "the Rust's defaults");
    let [min, target, max] = [5, 15, 30].map(Duration::from_secs);
    let plan = plan_job::Settings::usual().config();
    assert_eq!(plan, PlanConfig::new(min, target, max), "those of a plan");
}
