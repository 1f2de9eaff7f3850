//! The frame grid. A record is eight little-endian words: the subject, six arguments, the answer.
//! Subject 0 is `boundary`, 1 to 7 are the conversions in their order, 8 is coverage (0 accepted,
//! else 6).
//!
//! Spoiled are one answer of each subject, and a subject that there is not.

use silence_split::analyze::Analysis;
use silence_split::errors::ConfigError;

use super::Bytes;
use crate::conversions::{CONVERSIONS, Conversion, Words};
use crate::domain::MOST_SAMPLES;
use crate::recording::{self, Recording};
use crate::rng::Rng;

const BOUNDARY: u64 = 0;
const COVERAGE: u64 = CONVERSIONS.len() as u64 + 1;
const SUBJECTS: u64 = COVERAGE + 1;

/// One recording in so many may have frames up to the limit, and one a length up to it.
const LARGE: u64 = 64;
const LONG: u64 = 16;

/// Writes record `i`, the subjects in turn.
pub fn record(bytes: &mut Bytes, rng: &mut Rng, i: u64) {
    let subject = i % SUBJECTS;
    let (words, answer) = ask(subject, rng);
    put(bytes, subject, &words, answer);
}

pub fn spoiled(bytes: &mut Bytes) {
    let mut rng = Rng::new(0);
    for subject in 0..SUBJECTS {
        let (words, answer) = ask(subject, &mut rng);
        put(bytes, subject, &words, answer ^ 1);
    }
    put(bytes, SUBJECTS, &[0; 6], 0);
}

fn ask(subject: u64, rng: &mut Rng) -> (Words, u64) {
    match subject {
        BOUNDARY => boundary(rng),
        COVERAGE => coverage(rng),
        _ => conversion(&CONVERSIONS[subject as usize - 1], rng),
    }
}

fn put(bytes: &mut Bytes, subject: u64, words: &Words, answer: u64) {
    for word in [&[subject], &words[..], &[answer]].concat() {
        bytes.u64(word);
    }
}

fn conversion(c: &Conversion, rng: &mut Rng) -> (Words, u64) {
    loop {
        let words = (c.make)(rng);
        if (c.inside)(&words) {
            return (words, (c.rust)(&words));
        }
    }
}

fn accepted(rng: &mut Rng) -> Recording {
    if rng.one_in(LONG) {
        let mut made = Recording::at_greatest_len(rng);
        made.len = made.len.min(MOST_SAMPLES);
        return made;
    }
    let large = rng.one_in(LARGE);
    let frames = recording::frames(rng, large);
    Recording::accepted(rng, frames)
}

fn words(r: &Recording, last: u64) -> Words {
    let (rate, frame_rate) = (r.sample_rate.into(), r.frame_rate.into());
    [rate, frame_rate, r.hop.into(), r.len, r.frames, last]
}

fn boundary(rng: &mut Rng) -> (Words, u64) {
    let made = accepted(rng);
    let k = recording::any_boundary(rng, made.frames);
    let answer = made.analysis().hook_position(k as usize);
    (words(&made, k), answer)
}

fn coverage(rng: &mut Rng) -> (Words, u64) {
    let mut made = accepted(rng);
    // Often as made, so that accepted lengths away from the edges come too.
    if !rng.one_in(4) {
        made.len = recording::edge_len(rng, &made).min(MOST_SAMPLES);
    }
    let scores = vec![0.0; made.frames as usize];
    let tested = Analysis::from_scores(made.layout(), made.len, made.score_frames(), scores);
    let answer = match tested {
        Ok(_) => 0,
        Err(ConfigError::FrameCountMismatch) => 6,
        Err(other) => panic!("{other:?} on an accepted grid"),
    };
    (words(&made, 0), answer)
}
