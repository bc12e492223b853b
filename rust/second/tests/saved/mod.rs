//! Blocks of images, written and read by the second program.

use second::crc::crc32;
use second::layout::{
    BLOCK_BYTES, CHECKED_BYTES, FRAME_WORDS, HEADER_WORDS, PAYLOAD_WORDS, PROGRESS_WORDS,
};
use second::{image_blocks, image_end, image_read, image_write, Machine, DONE};

/// What stands in a spare before.
pub const IN_MEMORY: u32 = 0xaaaa_aaaa;
pub const IN_LEDGER: u32 = 0xbbbb_bbbb;

/// A block of an image, or what is left of it.
pub type Block = Vec<u8>;

/// The whole image of a state.
pub fn written(m: Machine, memory: &[u32], ledger: &[u32], number: u32) -> Vec<Block> {
    let block = |index| {
        let mut block = vec![0x5a; BLOCK_BYTES];
        assert_eq!(image_write(m, memory, ledger, number, index, &mut block), DONE);
        block
    };
    (0..image_blocks(m)).map(block).collect()
}

/// The same as an older monitor wrote it: the header has 32 words, and word 2 of
/// a block is the total alone. The box has at most 256 pages.
pub fn written_of_old(m: Machine, memory: &[u32], ledger: &[u32], number: u32) -> Vec<Block> {
    let secure = &memory[m.words_of(0).start..][..FRAME_WORDS * m.page_count()];
    let words = [&ledger[..17], &[0; 15], &ledger[HEADER_WORDS..], secure].concat();
    let payloads = words.chunks(PAYLOAD_WORDS);
    let total = payloads.len() as u32;
    let block = |(index, payload): (u32, &[u32])| {
        let mut block = vec![0; BLOCK_BYTES];
        let head = [number, index, total];
        let words = head.iter().chain(payload).enumerate();
        words.for_each(|(place, word)| set(&mut block, place, *word));
        mend(&mut block);
        block
    };
    (0..).zip(payloads).map(block).collect()
}

/// Word `place` of a block.
pub fn word(block: &[u8], place: usize) -> u32 {
    u32::from_le_bytes(block[4 * place..][..4].try_into().expect("four bytes"))
}

/// Another word in its place, the check as it was.
pub fn set(block: &mut [u8], place: usize, word: u32) {
    block[4 * place..][..4].copy_from_slice(&word.to_le_bytes());
}

/// The check that is right for these bytes.
pub fn mend(block: &mut [u8]) {
    let check = crc32(&block[..CHECKED_BYTES]);
    set(block, CHECKED_BYTES / 4, check);
}

/// A reading into a spare.
#[derive(Clone, PartialEq, Eq)]
pub struct Reader {
    pub machine: Machine,
    pub memory: Vec<u32>,
    pub ledger: Vec<u32>,
    pub progress: Vec<u32>,
}

impl Reader {
    pub fn new(machine: Machine) -> Reader {
        Reader {
            machine,
            memory: vec![IN_MEMORY; machine.memory_words()],
            ledger: vec![IN_LEDGER; machine.ledger_words()],
            progress: vec![0; PROGRESS_WORDS],
        }
    }

    pub fn read(&mut self, block: &[u8]) -> u32 {
        let Reader { machine, memory, ledger, progress } = self;
        image_read(*machine, memory, ledger, progress, block)
    }

    pub fn end(&mut self) -> u32 {
        image_end(self.machine, &self.memory, &self.ledger, &mut self.progress)
    }

    /// Reads blocks, all of them good.
    pub fn with(mut self, blocks: &[Block]) -> Reader {
        for block in blocks {
            assert_eq!(self.read(block), DONE);
        }
        self
    }

    /// Reads these blocks, be they good or bad, and ends.
    pub fn whole(mut self, blocks: &[Block]) -> (u32, Reader) {
        for block in blocks {
            self.read(block);
        }
        (self.end(), self)
    }

    /// How many words of the ledger and of the secure frames were written;
    /// all others are as lent.
    pub fn payload(&self) -> (usize, usize) {
        let ledger = self.ledger.iter().take_while(|word| **word != IN_LEDGER).count();
        assert!(self.ledger[ledger..].iter().all(|word| *word == IN_LEDGER));
        let first = self.machine.words_of(0).start;
        let end = first + FRAME_WORDS * self.machine.page_count();
        let (before, after) = (&self.memory[..first], &self.memory[end..]);
        assert!(before.iter().chain(after).all(|word| *word == IN_MEMORY));
        let secure = &self.memory[first..end];
        let memory = secure.iter().take_while(|word| **word != IN_MEMORY).count();
        assert!(secure[memory..].iter().all(|word| *word == IN_MEMORY));
        (ledger, memory)
    }
}
