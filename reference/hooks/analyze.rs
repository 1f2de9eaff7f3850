
// ---- Added for the comparison; everything above is the published source. ----

/// Recordings from their parts, and the crate's own grid functions. The functions of one question
/// are never inlined: a benchmark then pays one call for each answer, as it does on the other side.
impl Analysis {
    /// A decibel recording, tested as any other.
    pub fn from_decibels(
        layout: Layout,
        len: u64,
        frames: ScoreFrames,
        values: Vec<f32>,
        no_signal: Vec<bool>,
    ) -> Result<Self, ConfigError> {
        Self::from_parts(layout, len, frames, Domain::Decibels, values, no_signal)
    }

    /// Scores with marks, which [`Self::from_scores`] cannot be given, tested as any other.
    pub fn from_marked_scores(
        layout: Layout,
        len: u64,
        frames: ScoreFrames,
        values: Vec<f32>,
        no_signal: Vec<bool>,
    ) -> Result<Self, ConfigError> {
        Self::from_parts(layout, len, frames, Domain::Scores, values, no_signal)
    }

    fn from_parts(
        layout: Layout,
        len: u64,
        frames: ScoreFrames,
        domain: Domain,
        values: Vec<f32>,
        no_signal: Vec<bool>,
    ) -> Result<Self, ConfigError> {
        let analysis = Self {
            layout,
            len,
            frame_rate: frames.sample_rate,
            hop: frames.hop,
            domain,
            values,
            no_signal,
        };
        analysis.validate()?;
        Ok(analysis)
    }

    /// `validate` again, for its time alone.
    #[inline(never)]
    pub fn hook_validate(&self) -> Result<(), ConfigError> {
        self.validate()
    }

    /// `frames`.
    pub fn hook_frames(&self) -> usize {
        self.frames()
    }

    /// `position`.
    #[inline(never)]
    pub fn hook_position(&self, k: usize) -> u64 {
        self.position(k)
    }

    /// `frame_secs`.
    #[inline(never)]
    pub fn hook_frame_secs(&self) -> f64 {
        self.frame_secs()
    }

    /// `frames_in`.
    #[inline(never)]
    pub fn hook_frames_in(&self, d: Duration) -> usize {
        self.frames_in(d)
    }

    /// `frames_ceil`.
    #[inline(never)]
    pub fn hook_frames_ceil(&self, d: Duration) -> usize {
        self.frames_ceil(d)
    }

    /// `frames_floor`.
    #[inline(never)]
    pub fn hook_frames_floor(&self, d: Duration) -> usize {
        self.frames_floor(d)
    }

    /// `samples_floor`.
    #[inline(never)]
    pub fn hook_samples_floor(&self, d: Duration) -> u64 {
        self.samples_floor(d)
    }

    /// `samples_in`.
    #[inline(never)]
    pub fn hook_samples_in(&self, d: Duration) -> f64 {
        self.samples_in(d)
    }
}
