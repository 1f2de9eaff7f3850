//! A job as the bytes that say it.

use super::FIELDS;
use crate::bytes::Bytes;
use crate::plan_job::{self, Job};
use crate::silence_job;

/// The count's bit of the map, which says by itself that there is one.
const COUNT: u16 = 1 << 3;
/// Every bit that a field has.
pub const ALL: u16 = (1 << FIELDS) - 1;
/// The fields that start with the byte of a kind, and how many kinds there are: gap, placement and
/// threshold.
const KINDS: [(usize, u8); 3] = [(4, 2), (5, 3), (7, 3)];
/// Scores and decibels.
const DOMAINS: u8 = 2;

/// A job's bytes, and where the ones stand that say how to go on.
pub struct Written {
    pub bytes: Vec<u8>,
    /// The kinds of the fields that are there, and the domain; with each the least byte that says
    /// none.
    pub kinds: Vec<(usize, u8)>,
    /// The number of frames.
    pub frames: usize,
}

impl Written {
    pub fn number_of_frames(&self) -> u64 {
        let at = self.frames;
        let number = [0, 1, 2, 3].map(|i| self.bytes[at + i]);
        u32::from_le_bytes(number).into()
    }
}

/// Writes a job down. Of the fields of `left_out`, by their bits, those are left out whose values an
/// absence takes too.
pub fn encode(job: &Job, left_out: u16) -> Written {
    let fields = fields(&job.recording.settings, &job.plan);
    let map = map(job, left_out);
    let mut bytes = Bytes(map.to_le_bytes().to_vec());
    let mut kinds = Vec::new();
    for (bit, field) in fields.iter().enumerate() {
        if map >> bit & 1 == 1 {
            let kind = KINDS.iter().find(|(field, _)| *field == bit);
            kinds.extend(kind.map(|(_, unknown)| (bytes.0.len(), *unknown)));
            bytes.0.extend(field);
        }
    }
    let case = &job.recording.case;
    bytes.u32(case.sample_rate);
    bytes.u16(case.channels);
    bytes.u32(case.frame_rate);
    bytes.u32(case.hop);
    bytes.u64(case.len);
    kinds.push((bytes.0.len(), DOMAINS));
    bytes.0.push(case.decibels.into());
    let frames = bytes.0.len();
    bytes.u32(case.values.len() as u32);
    case.values.iter().for_each(|v| bytes.f32(*v));
    if case.decibels {
        bytes.0.extend(&case.flags);
        case.levels.iter().for_each(|l| bytes.f64(*l));
    }
    Written {
        bytes: bytes.0,
        kinds,
        frames,
    }
}

/// The fields that are written.
fn map(job: &Job, left_out: u16) -> u16 {
    let absent = fields(
        &silence_job::Settings::usual(),
        &plan_job::Settings::usual(),
    );
    let said = fields(&job.recording.settings, &job.plan);
    let both = said.into_iter().zip(absent);
    let same = both.enumerate().filter(|(_, (a, b))| a == b);
    let usual: u16 = same.map(|(bit, _)| 1 << bit).sum();
    let count = if job.plan.by_count { 0 } else { COUNT };
    ALL & !(usual & left_out & !COUNT) & !count
}

/// The bytes of each field, by its bit.
fn fields(s: &silence_job::Settings, p: &plan_job::Settings) -> [Vec<u8>; FIELDS] {
    let nanos = |n: u64| n.to_le_bytes().to_vec();
    let ratio = (p.placement == 2).then_some(p.ratio);
    let threshold = (s.kind == 1 || s.kind == 2).then_some(s.threshold);
    [
        nanos(p.min),
        nanos(p.target),
        nanos(p.max),
        p.count.to_le_bytes().to_vec(),
        vec![p.drop_gaps.into()],
        kind(p.placement, ratio),
        weights(&p.weights),
        kind(s.kind, threshold),
        nanos(s.min_silence),
        nanos(s.min_sound),
        nanos(s.pre),
        nanos(s.tail),
    ]
}

fn kind(kind: u8, number: Option<f32>) -> Vec<u8> {
    let mut bytes = Bytes(vec![kind]);
    number.into_iter().for_each(|x| bytes.f32(x));
    bytes.0
}

fn weights(w: &plan_job::Weights) -> Vec<u8> {
    let mut bytes = Bytes(Vec::new());
    bytes.f64(w.cut);
    bytes.f64(w.level);
    bytes.f64(w.pause);
    bytes.u64(w.pause_ref);
    bytes.f64(w.target);
    bytes.f64(w.short);
    bytes.0
}
