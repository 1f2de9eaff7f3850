//! The Rust's plan, and the way there that decides which lists it needs.

use std::time::Duration;

use silence_split::analyze::Analysis;
use silence_split::candidates::Shown;
use silence_split::dp::Preferences;
use silence_split::plan::{Cut, Plan, hook_completed, hook_found, plan};

use super::places::Places;
use super::{Job, reason};
use crate::path_job::{self, Score};

/// The Rust's plan, as the port gives it: every flag is the Rust's, but that the tail is not short.
#[derive(Clone, Debug, Default, PartialEq)]
pub struct Planned {
    /// Start, end and flags of each piece: 1 short, 2 long.
    pub pieces: Vec<u64>,
    /// Previous end, next start and reason of each cut.
    pub cuts: Vec<u64>,
    /// Whether the tail has lost its flag: the Rust calls it short.
    pub unflagged: bool,
}

/// Document 02's S-5, which the Rust does not have: the last of several pieces is not short. True
/// where it was.
pub fn unflag_tail(plan: &mut Plan) -> bool {
    match &mut plan.pieces[..] {
        [_, .., tail] => std::mem::take(&mut tail.too_short),
        _ => false,
    }
}

impl From<Plan> for Planned {
    fn from(mut plan: Plan) -> Self {
        let unflagged = unflag_tail(&mut plan);
        let pieces = plan.pieces.iter().flat_map(|p| {
            let flags = u64::from(p.too_short) + 2 * u64::from(p.too_long);
            [p.start, p.end, flags]
        });
        let cuts = plan.cuts.iter();
        let cuts = cuts.flat_map(|c| [c.previous_end, c.next_start, reason(c.reason).into()]);
        Self {
            pieces: pieces.collect(),
            cuts: cuts.collect(),
            unflagged,
        }
    }
}

/// How the Rust comes to its plan.
pub struct Course {
    /// In samples, as the Rust has them.
    pub minimum: f64,
    pub maximum: u64,
    /// Left and right end of each candidate before completion; none where the span is empty.
    pub found: Vec<(u64, u64)>,
    /// What completion makes of them, by length always, by count where the first path does not do.
    pub completed: Option<Completed>,
    pub places: Places,
}

pub struct Completed {
    pub candidates: Vec<(u64, u64)>,
    /// The maximum, or by count the reach.
    pub limit: u64,
}

impl Course {
    /// Entries of the parent list for each path by count: so many pieces at most, so many
    /// candidates.
    pub fn parents(&self, count: u32) -> Vec<usize> {
        let second = self.completed.iter().map(|c| c.candidates.len());
        let paths = [self.found.len()].into_iter().chain(second);
        let needed = |n: usize| n.saturating_sub(1).min(count as usize) * n;
        paths.map(needed).collect()
    }
}

/// The number of a cut's reason.
pub fn cut_reason(cut: &Cut) -> u8 {
    reason(cut.reason) as u8
}

impl Job {
    /// The Rust's own plan.
    pub fn rust_plan(&self) -> Plan {
        let (analysis, segment, config) = self.rust();
        plan(&analysis, &segment, &config)
    }

    /// The same, as the port gives it.
    pub fn planned(&self) -> Planned {
        self.rust_plan().into()
    }

    /// The way up to completion.
    pub fn begun(&self) -> Course {
        let (analysis, segment, config) = self.rust();
        let found = hook_found(&analysis, &segment, &config).candidates;
        self.begun_with(&analysis, &found)
    }

    /// The whole way.
    pub fn course(&self) -> Course {
        let (analysis, segment, config) = self.rust();
        let found = hook_found(&analysis, &segment, &config).candidates;
        let mut course = self.begun_with(&analysis, &found);
        if !self.plan.by_count || !self.first_path_does(&analysis, &found) {
            let completed = hook_completed(&analysis, &segment, &config);
            course.completed = completed.map(|(list, limit)| Completed {
                candidates: ends(&analysis, &list),
                limit,
            });
        }
        course
    }

    fn begun_with(&self, analysis: &Analysis, found: &[Shown]) -> Course {
        Course {
            minimum: analysis.hook_samples_in(Duration::from_nanos(self.plan.min)),
            maximum: analysis.hook_samples_floor(Duration::from_nanos(self.plan.max)),
            found: ends(analysis, found),
            completed: None,
            places: Places::of(analysis, found),
        }
    }

    /// Whether the first path by count has as many pieces as were asked for and none of them over
    /// the maximum.
    fn first_path_does(&self, analysis: &Analysis, found: &[Shown]) -> bool {
        let maximum = analysis.hook_samples_floor(Duration::from_nanos(self.plan.max));
        self.path_over(analysis, found, maximum).is_none_or(|path| {
            let count = self.plan.count as usize;
            path.pieces() == count && path.score(&path.path()).over == 0
        })
    }

    /// What is asked for the path over these candidates under a limit; none without a span.
    fn path_over(&self, analysis: &Analysis, list: &[Shown], limit: u64) -> Option<path_job::Job> {
        let (left, right): (Vec<u64>, Vec<u64>) = ends(analysis, list).into_iter().unzip();
        let span = left.last()? - right[0];
        let plan = &self.plan;
        let samples = |nanos| analysis.hook_samples_in(Duration::from_nanos(nanos));
        let target = match plan.by_count {
            true => span as f64 / f64::from(plan.count),
            false => samples(plan.target),
        };
        Some(path_job::Job {
            left,
            right,
            cost: list.iter().map(|c| c.cost).collect(),
            preferences: Preferences {
                min: samples(plan.min),
                target,
                max: limit,
                target_weight: plan.weights.target,
                short_weight: plan.weights.short,
            },
            by_count: plan.by_count,
            count: plan.count,
        })
    }

    /// The score of the path that the Rust's plan goes along; none where the plan is empty.
    pub fn score(&self) -> Option<Score> {
        let (analysis, segment, config) = self.rust();
        let found = hook_found(&analysis, &segment, &config).candidates;
        let (list, limit) = if self.plan.by_count && self.first_path_does(&analysis, &found) {
            let maximum = Duration::from_nanos(self.plan.max);
            (found, analysis.hook_samples_floor(maximum))
        } else {
            hook_completed(&analysis, &segment, &config)?
        };
        let path = self.path_over(&analysis, &list, limit)?;
        Some(path.score(&path.path()))
    }
}

/// Left and right end of each candidate, in samples.
fn ends(analysis: &Analysis, candidates: &[Shown]) -> Vec<(u64, u64)> {
    let at = |k: usize| analysis.hook_position(k);
    let ends = candidates.iter().map(|c| (at(c.left), at(c.right)));
    ends.collect()
}
