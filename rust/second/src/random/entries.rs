//! Where threads start: legal entries and others, many of them at the edges.

use super::Rng;
use crate::mapping::{ADDRESSES, WORD_BYTES};

/// The highest legal entry, which has every bit that one may have.
const HIGHEST: u32 = ADDRESSES - WORD_BYTES;

/// A multiple of 4 below 2^30.
pub fn legal_entry(rng: &mut Rng) -> u32 {
    let any = rng.word() & HIGHEST;
    rng.pick(&[0, WORD_BYTES, HIGHEST, any, any, any])
}

/// No multiple of 4, or not below 2^30.
pub fn illegal_entry(rng: &mut Rng) -> u32 {
    let entry = legal_entry(rng);
    let last = WORD_BYTES.wrapping_neg();
    match rng.below(6) {
        0 | 1 => rng.pick(&[ADDRESSES, ADDRESSES, ADDRESSES + WORD_BYTES, ADDRESSES << 1, last]),
        2 => entry | ADDRESSES << rng.below(2),
        3 => entry | ADDRESSES | (1 + rng.below(WORD_BYTES - 1)),
        _ => entry | (1 + rng.below(WORD_BYTES - 1)),
    }
}
