//! The driver's own reading of a job, from the text of documents 01 and 02 alone.

use super::{FIELDS, MOST_BYTES, MOST_FRAMES};
use crate::case::Case;
use crate::plan_job::{self, Job, Weights};
use crate::silence_job;

/// Why a job is refused by 19.
#[derive(Clone, Copy, Debug, PartialEq)]
pub enum Damage {
    TooManyBytes,
    UnknownBit,
    UnknownKind,
    TooManyFrames,
    CutShort,
    BytesAfter,
}

/// The job that these bytes say, or what is wrong with them.
pub fn read(bytes: &[u8]) -> Result<Job, Damage> {
    if bytes.is_empty() {
        return Ok(blank());
    }
    if bytes.len() > MOST_BYTES {
        return Err(Damage::TooManyBytes);
    }
    let mut rest = Rest { bytes, map: 0 };
    rest.map = rest.u16()?;
    if rest.map >> FIELDS != 0 {
        return Err(Damage::UnknownBit);
    }
    let plan = plan_settings(&mut rest)?;
    let settings = silence_settings(&mut rest)?;
    let case = recording(&mut rest)?;
    if !rest.bytes.is_empty() {
        return Err(Damage::BytesAfter);
    }
    let recording = silence_job::Job { case, settings };
    Ok(Job { recording, plan })
}

/// Document 02, S-2: "A job of 0 bytes then means an empty recording". So no listing is written down
/// for it here: the Rust plans a recording without frames, as it does any other.
fn blank() -> Job {
    let case = Case {
        sample_rate: 1_000,
        channels: 1,
        frame_rate: 10,
        hop: 1,
        len: 0,
        decibels: false,
        values: Vec::new(),
        flags: Vec::new(),
        levels: Vec::new(),
    };
    let settings = silence_job::Settings::usual();
    Job {
        recording: silence_job::Job { case, settings },
        plan: plan_job::Settings::usual(),
    }
}

/// Bits 0 to 6.
fn plan_settings(rest: &mut Rest<'_>) -> Result<plan_job::Settings, Damage> {
    let usual = plan_job::Settings::usual();
    let min = rest.field(0, usual.min, Rest::u64)?;
    let target = rest.field(1, usual.target, Rest::u64)?;
    let max = rest.field(2, usual.max, Rest::u64)?;
    let count = rest.field(3, None, |rest| rest.u32().map(Some))?;
    let gap = rest.field(4, 0, |rest| rest.kind(1))?;
    let (placement, ratio) = rest.field(5, (0, usual.ratio), |rest| match rest.kind(2)? {
        2 => Ok((2, rest.f32()?)),
        kind => Ok((kind, usual.ratio)),
    })?;
    let weights = rest.field(6, usual.weights, weights)?;
    Ok(plan_job::Settings {
        min,
        target,
        max,
        by_count: count.is_some(),
        count: count.unwrap_or(usual.count),
        drop_gaps: gap == 1,
        placement,
        ratio,
        weights,
    })
}

fn weights(rest: &mut Rest<'_>) -> Result<Weights, Damage> {
    Ok(Weights {
        cut: rest.f64()?,
        level: rest.f64()?,
        pause: rest.f64()?,
        pause_ref: rest.u64()?,
        target: rest.f64()?,
        short: rest.f64()?,
    })
}

/// Bits 7 to 11.
fn silence_settings(rest: &mut Rest<'_>) -> Result<silence_job::Settings, Damage> {
    let usual = silence_job::Settings::usual();
    let (kind, threshold) = rest.field(7, (0, usual.threshold), |rest| match rest.kind(2)? {
        0 => Ok((0, usual.threshold)),
        kind => Ok((kind, rest.f32()?)),
    })?;
    Ok(silence_job::Settings {
        kind,
        threshold,
        min_silence: rest.field(8, usual.min_silence, Rest::u64)?,
        min_sound: rest.field(9, usual.min_sound, Rest::u64)?,
        pre: rest.field(10, usual.pre, Rest::u64)?,
        tail: rest.field(11, usual.tail, Rest::u64)?,
    })
}

fn recording(rest: &mut Rest<'_>) -> Result<Case, Damage> {
    let mut case = Case {
        sample_rate: rest.u32()?,
        channels: rest.u16()?,
        frame_rate: rest.u32()?,
        hop: rest.u32()?,
        len: rest.u64()?,
        decibels: rest.kind(1)? == 1,
        values: Vec::new(),
        flags: Vec::new(),
        levels: Vec::new(),
    };
    let frames = rest.u32()?;
    if u64::from(frames) > MOST_FRAMES {
        return Err(Damage::TooManyFrames);
    }
    case.values = rest.list(frames, Rest::f32)?;
    if case.decibels {
        case.flags = rest.list(frames, Rest::byte)?;
        case.levels = rest.list(frames, Rest::f64)?;
    } else {
        case.flags = vec![0; frames as usize];
    }
    Ok(case)
}

/// What is still to be read, and the map of the fields.
struct Rest<'a> {
    bytes: &'a [u8],
    map: u16,
}

impl Rest<'_> {
    /// A field whose bit stands; otherwise what its absence takes.
    fn field<T>(
        &mut self,
        bit: u32,
        usual: T,
        read: impl FnOnce(&mut Self) -> Result<T, Damage>,
    ) -> Result<T, Damage> {
        if self.map >> bit & 1 == 1 {
            read(self)
        } else {
            Ok(usual)
        }
    }

    fn list<T>(
        &mut self,
        frames: u32,
        mut read: impl FnMut(&mut Self) -> Result<T, Damage>,
    ) -> Result<Vec<T>, Damage> {
        (0..frames).map(|_| read(self)).collect()
    }

    /// A kind from 0 to `most`.
    fn kind(&mut self, most: u8) -> Result<u8, Damage> {
        let kind = self.byte()?;
        if kind > most {
            return Err(Damage::UnknownKind);
        }
        Ok(kind)
    }

    fn byte(&mut self) -> Result<u8, Damage> {
        self.take().map(|[byte]| byte)
    }

    fn u16(&mut self) -> Result<u16, Damage> {
        self.take().map(u16::from_le_bytes)
    }

    fn u32(&mut self) -> Result<u32, Damage> {
        self.take().map(u32::from_le_bytes)
    }

    fn u64(&mut self) -> Result<u64, Damage> {
        self.take().map(u64::from_le_bytes)
    }

    fn f32(&mut self) -> Result<f32, Damage> {
        self.u32().map(f32::from_bits)
    }

    fn f64(&mut self) -> Result<f64, Damage> {
        self.u64().map(f64::from_bits)
    }

    fn take<const N: usize>(&mut self) -> Result<[u8; N], Damage> {
        let (first, rest) = self.bytes.split_first_chunk().ok_or(Damage::CutShort)?;
        self.bytes = rest;
        Ok(*first)
    }
}
