//! CRC-32 against the second program's.

use crate::services::Checks;
use crate::Outcome;
use second::crc::crc32;
use second::layout::{BLOCK_BYTES, CHECKED_BYTES};
use second::random::Rng;

/// Byte lists of every length up to some hundred, and of a block's.
pub fn checks(ours: &dyn Checks, seed: u64) -> Outcome {
    let rng = &mut Rng::new(seed);
    for length in (0..=300).chain([CHECKED_BYTES - 4, CHECKED_BYTES, BLOCK_BYTES, 4096]) {
        let alike = [0, 0xff, rng.word() as u8].map(|byte| vec![byte; length]);
        for bytes in alike.into_iter().chain([random_bytes(rng, length)]) {
            let (our, their) = (ours.crc32(&bytes), crc32(&bytes));
            if our != their {
                let what = format!("CRC-32 of {length} bytes, the first {:x?}", bytes.first());
                return Err(format!("{what}: ours {our:08x}, the second {their:08x}"));
            }
        }
    }
    Ok(())
}

/// So many random bytes.
pub fn random_bytes(rng: &mut Rng, count: usize) -> Vec<u8> {
    let words = (0..count.div_ceil(4)).map(|_| rng.word());
    words.flat_map(u32::to_le_bytes).take(count).collect()
}
