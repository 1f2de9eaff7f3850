//! Stands in for the analyzer's high-pass filter, which is not among the sources. Never run.

pub(crate) const CUTOFF_HZ: f64 = 80.0;

#[derive(Clone, Debug)]
pub(crate) struct HighPass;

impl HighPass {
    pub(crate) fn new(_sample_rate: u32) -> Self {
        unreachable!("only the analyzer filters, and nothing here runs it")
    }

    pub(crate) fn process(&mut self, _x: f64) -> f64 {
        unreachable!("only the analyzer filters, and nothing here runs it")
    }
}
