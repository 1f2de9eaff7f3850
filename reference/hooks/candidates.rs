
// ---- Added for the comparison; everything above is the published source. ----

/// `smoothed` as [`Context::new`] calls it: the list that is lent for a decibel recording.
#[must_use]
pub fn hook_smoothed(analysis: &Analysis) -> Vec<f64> {
    smoothed(analysis, analysis.frames_ceil(SMOOTHING).max(1))
}

/// A candidate with its fields open; both ends are frame boundaries.
#[derive(Clone, Debug, PartialEq)]
pub struct Shown {
    pub left: usize,
    pub right: usize,
    pub cost: f64,
    pub reason: CutReason,
}

/// What a plan knows before completion and path.
#[derive(Clone, Debug, PartialEq)]
pub struct Found {
    pub silences: Vec<Range<usize>>,
    /// Normalized smoothed level at each frame boundary.
    pub level: Vec<f64>,
    /// Length in seconds of the quiet stretch at each frame boundary.
    pub quiet: Vec<f64>,
    /// Padding in frames, as capped.
    pub pre: usize,
    pub tail: usize,
    /// First and last boundary of the span; no candidates without them.
    pub ends: Option<(usize, usize)>,
    pub candidates: Vec<Shown>,
}

impl Context<'_> {
    /// The context's own fields, and its candidates where there is a span.
    pub(crate) fn hook_found(&self, gap: Gap, placement: Placement, grid: &Grid) -> Found {
        let ends = self.ends(gap);
        let candidates = ends.map_or(Vec::new(), |(first, last)| {
            self.candidates(gap, placement, grid, first, last)
        });
        Found {
            silences: self.silences.clone(),
            level: self.level.clone(),
            quiet: self.quiet.clone(),
            pre: self.pre,
            tail: self.tail,
            ends,
            candidates: candidates.into_iter().map(Shown::from).collect(),
        }
    }
}

impl From<Candidate> for Shown {
    fn from(c: Candidate) -> Self {
        Self {
            left: c.left,
            right: c.right,
            cost: c.cost,
            reason: c.reason,
        }
    }
}
