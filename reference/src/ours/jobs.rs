//! The program `cutplan` over bytes.

pub use super::buchawzer::LISTING_BYTES as LISTING;
use super::buchawzer::{Refusal, cutplan};

/// The listing of a job, or document 01's refusal of the list that is lent for it.
pub fn listing<'a>(job: &[u8], lent: &'a mut [u8]) -> Result<&'a [u8], u32> {
    cutplan(job, lent).map_err(Refusal::number)
}
