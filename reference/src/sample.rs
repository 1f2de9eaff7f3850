//! The stored samples: inputs and the Rust's answers, for tests that run without the Rust. One
//! file for each part, with the layout of its records at its head. The last records of a sample
//! are spoiled on purpose, each in another place of its answer, and a replay has to say so.

mod candidates;
mod grid;
mod jobs;
mod path;
mod plan;
mod silences;

use std::io::{self, Write};

use crate::bytes::Bytes;
use crate::rng::Rng;

/// A sample is at most so long.
const MOST_BYTES: usize = 64 * 1024;
/// One of jobs, a few of which are large.
const MOST_BYTES_OF_JOBS: usize = 128 * 1024;

struct Part {
    /// Writes a record by its number.
    record: fn(&mut Bytes, &mut Rng, u64),
    /// Writes records whose answers are none.
    spoiled: fn(&mut Bytes),
    most_bytes: usize,
}

fn part(name: &str) -> Option<Part> {
    let (record, spoiled): (fn(&mut Bytes, &mut Rng, u64), fn(&mut Bytes)) = match name {
        "grid" => (grid::record, grid::spoiled),
        "silences" => (silences::record, silences::spoiled),
        "candidates" => (candidates::record, candidates::spoiled),
        "path" => (path::record, path::spoiled),
        "plan" => (plan::record, plan::spoiled),
        "jobs" => (jobs::record, jobs::spoiled),
        _ => return None,
    };
    let most_bytes = match name {
        "jobs" => MOST_BYTES_OF_JOBS,
        _ => MOST_BYTES,
    };
    Some(Part {
        record,
        spoiled,
        most_bytes,
    })
}

/// Writes `count` records to standard output, fewer where one more would be too many bytes, then
/// the spoiled ones.
pub fn write(name: &str, count: u64, seed: u64) -> Result<(), String> {
    let part = part(name).ok_or_else(|| format!("{name}: no such sample"))?;
    let spoiled = part.all_spoiled(seed);
    let mut rng = Rng::new(seed);
    let mut bytes = Bytes(Vec::new());
    for i in 0..count {
        let whole = bytes.0.len();
        (part.record)(&mut bytes, &mut rng, i);
        if bytes.0.len() + spoiled.len() > part.most_bytes {
            bytes.0.truncate(whole);
            eprintln!("{name}: {i} of {count} records");
            break;
        }
    }
    bytes.0.extend(spoiled);
    let mut out = io::stdout().lock();
    out.write_all(&bytes.0).map_err(|error| error.to_string())
}

impl Part {
    /// The spoiled records, and a good one whose last byte is missing.
    fn all_spoiled(&self, seed: u64) -> Vec<u8> {
        let mut bytes = Bytes(Vec::new());
        (self.spoiled)(&mut bytes);
        (self.record)(&mut bytes, &mut Rng::new(seed), 0);
        bytes.0.pop();
        bytes.0
    }
}
