//! Candidate lists with preferences, the Rust's path over them, and a path's score as document 01
//! adds it up.

mod make;
pub mod trials;

use silence_split::dp::{Preferences, hook_length_cost, hook_solve, hook_solve_count};

/// The limit stands in `preferences.max`.
#[derive(Clone, Debug)]
pub struct Job {
    pub left: Vec<u64>,
    pub right: Vec<u64>,
    pub cost: Vec<f64>,
    pub preferences: Preferences,
    pub by_count: bool,
    /// Not read by length.
    pub count: u32,
}

/// Pieces over the limit, then the cost.
#[derive(Clone, Copy, Debug, PartialEq, PartialOrd)]
pub struct Score {
    pub over: u32,
    pub cost: f64,
}

impl Score {
    pub const NONE: Self = Self { over: 0, cost: 0.0 };

    /// Whether both are the same by their bits.
    pub fn same(&self, other: &Self) -> bool {
        (self.over, self.cost.to_bits()) == (other.over, other.cost.to_bits())
    }
}

impl Job {
    /// Index of the last candidate.
    pub fn last(&self) -> usize {
        self.left.len() - 1
    }

    /// Pieces of a path by count.
    pub fn pieces(&self) -> usize {
        self.last().min(self.count as usize)
    }

    /// Length of the piece from candidate `i` to `j`.
    pub fn len(&self, i: usize, j: usize) -> u64 {
        self.left[j] - self.right[i]
    }

    /// The Rust's path.
    pub fn path(&self) -> Vec<u32> {
        let (left, right, cut) = (&self.left[..], &self.right[..], &self.cost[..]);
        let path = if self.by_count {
            hook_solve_count(left, right, cut, &self.preferences, self.count as usize)
        } else {
            hook_solve(left, right, cut, &self.preferences)
        };
        path.into_iter().map(|i| i as u32).collect()
    }

    /// `score` with the piece from `i` to `j` added.
    pub fn with_piece(&self, score: Score, i: usize, j: usize) -> Score {
        let len = self.len(i, j);
        Score {
            over: score.over + u32::from(len > self.preferences.max),
            cost: score.cost + hook_length_cost(len, &self.preferences),
        }
    }

    /// `score` with the cut at `j` added; there is none after the last piece.
    pub fn with_cut(&self, score: Score, j: usize) -> Score {
        let cost = score.cost + if j < self.last() { self.cost[j] } else { 0.0 };
        Score { cost, ..score }
    }

    /// The score of a path, added up from its start.
    pub fn score(&self, path: &[u32]) -> Score {
        path.windows(2).fold(Score::NONE, |score, ends| {
            let (i, j) = (ends[0] as usize, ends[1] as usize);
            self.with_cut(self.with_piece(score, i, j), j)
        })
    }
}
