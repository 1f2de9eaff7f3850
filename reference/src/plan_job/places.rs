//! Where a division can be cut, as document 01 has it: at the kept frame boundaries and the dropped
//! gaps, which recording and settings give before any path is sought.

use silence_split::analyze::Analysis;
use silence_split::candidates::Shown;

/// Nothing where the span is empty.
pub struct Places {
    /// Left and right end of each in samples, in order, between the span's start and its end.
    pub ends: Vec<(u64, u64)>,
    /// The span's frames less those of dropped gaps.
    pub kept_frames: usize,
}

impl Places {
    /// The span lies between the first and the last candidate, and a dropped gap is a candidate
    /// whose left end is below its right end.
    pub fn of(analysis: &Analysis, candidates: &[Shown]) -> Self {
        let (mut ends, mut kept_frames) = (Vec::new(), 0);
        if let (Some(first), Some(last)) = (candidates.first(), candidates.last()) {
            kept_frames = last.left - first.right;
            let position = |k: usize| analysis.hook_position(k);
            let mut gaps = candidates.iter().filter(|c| c.left < c.right).peekable();
            let mut k = first.right;
            while k <= last.left {
                let right = gaps.next_if(|gap| gap.left == k).map_or(k, |gap| gap.right);
                ends.push((position(k), position(right)));
                kept_frames -= right - k;
                k = right + 1;
            }
        }
        let between = ends.len().saturating_sub(1);
        assert_eq!(kept_frames, between, "one kept frame between two places");
        Self { ends, kept_frames }
    }

    /// The length of the whole span; 0 where it is empty.
    pub fn span(&self) -> u64 {
        let ends = self.ends.first().zip(self.ends.last());
        ends.map_or(0, |(first, last)| last.0 - first.1)
    }

    /// The cuts of the division that goes as far as the limit allows at each step.
    pub fn farthest(&self, limit: u64) -> Vec<(u64, u64)> {
        let (mut cuts, mut at) = (Vec::new(), 0);
        while at + 1 < self.ends.len() {
            let (start, rest) = (self.ends[at].1, &self.ends[at + 1..]);
            let reached = rest.partition_point(|(left, _)| left - start <= limit);
            if reached == 0 {
                break;
            }
            at += reached;
            cuts.push(self.ends[at]);
        }
        cuts.pop();
        cuts
    }
}
