//! The report that a call writes: 64 bytes (docs/ABI.md).
use crate::layout::{word, TAG_SIZE};
use crate::refusal::Refusal;

pub const SIZE: usize = 64;

/// What a call that was taken reports.
#[derive(Debug, Clone, PartialEq, Eq)]
pub struct Report {
    /// The tag made or found; empty where there is none.
    pub tag: Vec<u8>,
    /// The answer's bits, or a count.
    pub number: u64,
}

/// Runs a call with a report to write: what it reports, or why it refused.
pub fn reported(call: impl FnOnce(&mut [u8]) -> u32) -> Result<Report, Refusal> {
    let mut out = [0; SIZE];
    let number = call(&mut out);
    let length = (word(&out, 16) as usize).min(TAG_SIZE);
    let tag = out[24..24 + length].to_vec();
    match number {
        0 => Ok(Report { tag, number: word(&out, 56) }),
        _ => Err(Refusal { number, tag, index: word(&out, 8) }),
    }
}
