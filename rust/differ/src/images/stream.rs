//! Blocks of an image, one after the other.

use super::savers::Savers;
use super::tally::Images as Tally;
use crate::checks::random_bytes;
use crate::expect;
use second::crc::crc32;
use second::layout::{BLOCK_BYTES, CHECKED_BYTES};
use second::random::Rng;
use second::{image_blocks, Machine, DONE};

/// Blocks that follow each other, all of an image or some.
#[derive(Clone)]
pub struct Stream {
    /// The box.
    pub machine: Machine,
    /// The image's number.
    pub number: u32,
    /// The index of the first of the blocks.
    pub first: u32,
    /// The blocks, or what is left of them.
    pub blocks: Vec<Vec<u8>>,
}

impl Stream {
    /// Blocks `first` to `end - 1`, written by both.
    pub fn written(
        savers: &mut Savers,
        rng: &mut Rng,
        (first, end): (u32, u32),
        tally: &mut Tally,
    ) -> Result<Stream, String> {
        let any = rng.word();
        let number = rng.pick(&[0, 1, 7, u32::MAX, any, any, any]);
        let over = random_bytes(rng, BLOCK_BYTES);
        let mut blocks = Vec::new();
        for index in first..end {
            expect(savers.write(number, index, &over, tally)?, DONE)?;
            blocks.push(savers.lent().block.words().to_vec());
        }
        Ok(Stream { machine: savers.machine, number, first, blocks })
    }

    /// How many blocks the whole image has.
    pub fn total(&self) -> u32 {
        image_blocks(self.machine)
    }

    /// Whether all blocks are here.
    pub fn is_whole(&self) -> bool {
        self.first == 0 && self.has_last()
    }

    /// Whether the image's last block is here.
    pub fn has_last(&self) -> bool {
        self.first + self.blocks.len() as u32 == self.total()
    }
}

/// Another word in its place, the check as it was.
pub fn set(block: &mut [u8], place: usize, word: u32) {
    block[4 * place..][..4].copy_from_slice(&word.to_le_bytes());
}

/// Word `place` of a block.
pub fn word(block: &[u8], place: usize) -> u32 {
    u32::from_le_bytes(block[4 * place..][..4].try_into().expect("four bytes"))
}

/// The word of the check.
pub const CHECK: usize = CHECKED_BYTES / 4;

/// The check that is right for these bytes.
pub fn mend(block: &mut [u8]) {
    let check = crc32(&block[..CHECKED_BYTES]);
    set(block, CHECK, check);
}
