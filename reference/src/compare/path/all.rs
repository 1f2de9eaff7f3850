//! The path over a few candidates, against all allowed paths: the least score, and of equal ones
//! the path that document 01 names. The Rust is held to the same.

use super::{Caller, Sizes, WORK, take};
use crate::compare::Amount;
use crate::path_job::{Job, Score};
use crate::rng::Rng;
use crate::tally::Tally;

/// Candidates at most: their inner ones have 1,024 choices.
const MOST: u64 = 12;

pub fn all(amount: Amount, rng: &mut Rng, tally: &mut Tally) {
    let mut caller = Caller::new();
    for _ in 0..amount.inputs {
        let candidates = 1 + rng.below(MOST) as usize;
        let job = Job::random(rng, candidates);
        let best = Best::over_all_paths(&job);
        let path = best.path();
        let sizes = Sizes {
            work: [WORK * candidates; 3],
            parent: candidates * candidates,
            path: candidates,
        };
        let fault = if job.path() != path {
            Some(format!("the Rust {:?}, document 01 {path:?}", job.path()))
        } else if !best.least().same(&job.score(&path)) {
            Some(format!("{path:?} is not least: {:?}", best.least()))
        } else {
            caller.ask(&job, &sizes, 0, &path, rng)
        };
        take(tally, &job, &sizes, fault);
    }
}

/// Each candidate's own best score, its cut added, over all allowed paths that lead to it: by
/// length in one row, by count in a row for each number of pieces.
struct Best<'a> {
    job: &'a Job,
    rows: Vec<Vec<Option<Score>>>,
}

impl<'a> Best<'a> {
    fn over_all_paths(job: &'a Job) -> Self {
        let candidates = job.left.len();
        let rows = vec![vec![None; candidates]; candidates];
        let mut best = Self { job, rows };
        best.visit(0, 0, Score::NONE);
        best
    }

    /// Takes in a path of `pieces` pieces that leads to `j`, and all that go on from it.
    fn visit(&mut self, j: usize, pieces: usize, score: Score) {
        let row = self.row(pieces);
        let own = &mut self.rows[row][j];
        if own.is_none_or(|least| score < least) {
            *own = Some(score);
        }
        if self.job.by_count && pieces == self.job.pieces() {
            return;
        }
        for next in j + 1..=self.job.last() {
            if self.allowed(j, next, pieces + 1) {
                let added = self.job.with_piece(score, j, next);
                self.visit(next, pieces + 1, self.job.with_cut(added, next));
            }
        }
    }

    /// Whether the piece from `i` to `j` may be the path's piece of this number, from 1.
    fn allowed(&self, i: usize, j: usize, number: usize) -> bool {
        self.job.len(i, j) <= self.job.preferences.max
            || i == j - 1
            || (self.job.by_count && number == 1)
    }

    fn row(&self, pieces: usize) -> usize {
        if self.job.by_count { pieces } else { 0 }
    }

    fn least(&self) -> Score {
        let row = self.row(self.job.pieces());
        self.rows[row][self.job.last()].expect("a path of neighbours is always allowed")
    }

    /// From the end, each piece from the lowest candidate that gives it the least score.
    fn path(&self) -> Vec<u32> {
        let mut path = vec![self.job.last() as u32];
        let (mut j, mut number) = (self.job.last(), self.job.pieces());
        while j > 0 {
            let mut least: Option<(Score, usize)> = None;
            for i in (0..j).filter(|i| self.allowed(*i, j, number)) {
                let Some(own) = self.rows[self.row(number.saturating_sub(1))][i] else {
                    continue;
                };
                let score = self.job.with_piece(own, i, j);
                if least.is_none_or(|(s, _)| score < s) {
                    least = Some((score, i));
                }
            }
            j = least.expect("the neighbour is always allowed").1;
            number = number.saturating_sub(1);
            path.push(j as u32);
        }
        path.reverse();
        path
    }
}
