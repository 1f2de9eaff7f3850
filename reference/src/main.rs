//! Holds the port to the Rust: compares both on random and limit inputs, times both on the same
//! inputs, and writes the Rust's answers down for tests that run without it.

mod bench;
mod bytes;
mod case;
mod compare;
mod conversions;
mod domain;
mod first_refusal;
// The stored samples alone need less of these three.
#[cfg_attr(not(feature = "jobs"), allow(dead_code))]
mod job_bytes;
mod ours;
#[cfg_attr(not(feature = "path"), allow(dead_code))]
mod path_job;
#[cfg_attr(not(feature = "plan"), allow(dead_code))]
mod plan_job;
mod recording;
mod rng;
mod sample;
mod silence_job;
mod tally;
mod weight;

use std::process::ExitCode;

use compare::Amount;

/// Subjects and parts are names with commas between them, or `all`.
const USAGE: &str = "usage: driver compare N SEED [SUBJECTS [LARGE]]
       driver sample grid|silences|candidates|path|plan|jobs COUNT SEED
       driver bench [PARTS]";

fn main() -> ExitCode {
    let words: Vec<String> = std::env::args().skip(1).collect();
    let words: Vec<&str> = words.iter().map(String::as_str).collect();
    match run(&words) {
        Ok(equal) => ExitCode::from(u8::from(!equal)),
        Err(why) => {
            eprintln!("{why}");
            ExitCode::from(2)
        }
    }
}

/// False where a comparison found a difference.
fn run(words: &[&str]) -> Result<bool, String> {
    match words {
        ["compare", n, seed, rest @ ..] if rest.len() <= 2 => {
            let amount = Amount {
                inputs: number(n)?,
                large: rest.get(1).map(|large| number(large)).transpose()?,
            };
            compare::run(amount, number(seed)?, &names(rest.first()))
        }
        ["sample", part, count, seed] => {
            sample::write(part, number(count)?, number(seed)?)?;
            Ok(true)
        }
        ["bench", rest @ ..] if rest.len() <= 1 => {
            bench::run(&names(rest.first()))?;
            Ok(true)
        }
        _ => Err(USAGE.to_string()),
    }
}

fn number(word: &str) -> Result<u64, String> {
    word.parse().map_err(|_| USAGE.to_string())
}

/// None stands for all.
fn names(word: Option<&&str>) -> Vec<String> {
    match word {
        None | Some(&"all") => Vec::new(),
        Some(list) => list.split(',').map(String::from).collect(),
    }
}
