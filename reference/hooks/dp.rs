
// ---- Added for the comparison; everything above is the published source. ----

/// Piece lengths and the two weights that the path reads.
#[derive(Clone, Copy, Debug, PartialEq)]
pub struct Preferences {
    pub min: f64,
    pub target: f64,
    pub max: u64,
    pub target_weight: f64,
    pub short_weight: f64,
}

impl Preferences {
    fn weights(&self) -> Weights {
        Weights {
            target: self.target_weight,
            short: self.short_weight,
            ..Weights::default()
        }
    }

    fn lengths<'a>(&self, weights: &'a Weights) -> Lengths<'a> {
        Lengths {
            min: self.min,
            target: self.target,
            max: self.max,
            weights,
        }
    }
}

/// `Lengths::cost` of one piece, for a score added up again.
#[must_use]
pub fn hook_length_cost(len: u64, preferences: &Preferences) -> f64 {
    let weights = preferences.weights();
    preferences.lengths(&weights).cost(len)
}

/// `solve`.
#[must_use]
pub fn hook_solve(
    left: &[u64],
    right: &[u64],
    cut: &[f64],
    preferences: &Preferences,
) -> Vec<usize> {
    let weights = preferences.weights();
    solve(left, right, cut, &preferences.lengths(&weights))
}

/// `solve_count`.
#[must_use]
pub fn hook_solve_count(
    left: &[u64],
    right: &[u64],
    cut: &[f64],
    preferences: &Preferences,
    count: usize,
) -> Vec<usize> {
    let weights = preferences.weights();
    solve_count(left, right, cut, &preferences.lengths(&weights), count)
}
