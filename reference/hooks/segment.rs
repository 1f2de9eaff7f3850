
// ---- Added for the comparison; everything above is the published source. ----

impl SegmentConfig {
    /// All five settings, untested: the builder refuses a negative distance below the reference.
    #[must_use]
    pub fn from_settings(
        threshold: Threshold,
        min_silence: Duration,
        min_sound: Duration,
        pre: Duration,
        tail: Duration,
    ) -> Self {
        Self {
            threshold,
            min_silence,
            min_sound,
            pre,
            tail,
        }
    }
}

/// `Levels::new`, also where no frame bears a signal.
#[must_use]
pub fn hook_levels(analysis: &Analysis, config: &SegmentConfig) -> Levels {
    Levels::new(analysis, config.threshold)
}

/// `silence_runs` with the levels of the same settings.
#[must_use]
pub fn hook_silence_runs(analysis: &Analysis, config: &SegmentConfig) -> Vec<Range<usize>> {
    silence_runs(analysis, &hook_levels(analysis, config), config)
}
