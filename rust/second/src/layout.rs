//! Every size and every place of the lent words, each said once.

/// F at most.
pub const MOST_FRAMES: u32 = 16_384;
/// n at most.
pub const MOST_PAGES: u32 = 1024;
/// Words in a frame, a page or a table.
pub const FRAME_WORDS: usize = 1024;
/// Words in the ledger's header.
pub const HEADER_WORDS: usize = 64;
/// Words in the record of a page, of a call and of an answer.
pub const RECORD_WORDS: usize = 32;
/// Calls in a batch at most.
pub const MOST_CALLS: usize = 512;
/// Words in a key, a hash or a MAC.
pub const HASH_WORDS: usize = 8;
/// Words in a block of the hash.
pub const BLOCK_WORDS: usize = 16;
/// Blocks that a data page is measured by: one for its mapping word, then its
/// words.
pub const DATA_BLOCKS: u32 = 1 + (FRAME_WORDS / BLOCK_WORDS) as u32;
/// Registers of a thread; the last is where it runs.
pub const REGISTERS: usize = 16;
/// The registers and the flags.
pub const SAVED_WORDS: usize = REGISTERS + 1;
/// The bits that flags may have.
pub const FLAG_BITS: u32 = 0xf000_0000;
/// Tables that a first-level page can name; its other words are zero.
pub const MOST_TABLES: usize = 256;

/// Words before a block's payload, in a saved image: number, index, and what
/// says the total.
pub const BLOCK_HEAD: usize = 3;
/// What the third of them says besides the total; images whose header had 32
/// words say the total alone, and are so refused.
pub const TOTAL_FROM: u32 = 65_536;
/// Words of a block's payload.
pub const PAYLOAD_WORDS: usize = 124;
/// Bytes of a block before its check.
pub const CHECKED_BYTES: usize = 4 * (BLOCK_HEAD + PAYLOAD_WORDS);
/// Bytes of a whole block.
pub const BLOCK_BYTES: usize = CHECKED_BYTES + 4;
/// Words that a reader of images keeps with its caller.
pub const PROGRESS_WORDS: usize = 4;

/// Header: the running thread's page plus 1.
pub const RUNNING: usize = 0;
/// Header: where the key starts.
pub const KEY_START: usize = 1;
/// Header: where the free map starts.
pub const MAP_START: usize = KEY_START + HASH_WORDS;
/// Words in the free map, a bit a page.
pub const MAP_WORDS: usize = (MOST_PAGES / u32::BITS) as usize;
/// Header: where the words that must be zero start.
pub const MAP_END: usize = MAP_START + MAP_WORDS;

/// The types in word 0 of a page's record.
#[allow(missing_docs)]
pub mod kind {
    pub const FREE: u32 = 0;
    pub const SPACE: u32 = 1;
    pub const THREAD: u32 = 2;
    pub const FIRST: u32 = 3;
    pub const SECOND: u32 = 4;
    pub const DATA: u32 = 5;
    pub const SPARE: u32 = 6;
    /// How many types there are.
    pub const COUNT: u32 = 7;
}

/// The states of an address space.
#[allow(missing_docs)]
pub mod state {
    pub const BUILDING: u32 = 0;
    pub const FINAL: u32 = 1;
    pub const STOPPED: u32 = 2;
    /// How many states there are.
    pub const COUNT: u32 = 3;
}

/// The words of a page's record, by type.
pub mod word {
    use super::{HASH_WORDS, REGISTERS, SAVED_WORDS};

    /// The type.
    pub const TYPE: usize = 0;
    /// The space that the page belongs to.
    pub const OWNER: usize = 1;

    /// Of a space: its first-level page.
    pub const FIRST: usize = 2;
    /// Of a space: how far it has come.
    pub const STATE: usize = 3;
    /// Of a space: how many other pages it owns.
    pub const COUNT: usize = 4;
    /// Of a space: blocks measured.
    pub const BLOCKS: usize = 5;
    /// Of a space: where the hash starts.
    pub const HASH: usize = 6;
    /// Of a space: where its words end.
    pub const HASH_END: usize = HASH + HASH_WORDS;

    /// Of a thread: where it starts to run.
    pub const ENTRY: usize = 2;
    /// Of a thread: 1 while it is suspended.
    pub const SUSPENDED: usize = 3;
    /// Of a thread: where the saved registers start.
    pub const SAVED: usize = 4;
    /// Of a thread: the saved flags.
    pub const FLAGS: usize = SAVED + REGISTERS;
    /// Of a thread: where its words end.
    pub const SAVED_END: usize = SAVED + SAVED_WORDS;

    /// Of a second-level table: its index.
    pub const INDEX: usize = 2;
    /// Of a data page: its mapping word.
    pub const MAPPING: usize = 2;
}

/// The record of a call, of an answer or of a page.
pub type Record = [u32; RECORD_WORDS];

/// Where the record of this page stands in the ledger.
pub const fn record_of(page: usize) -> std::ops::Range<usize> {
    let start = HEADER_WORDS + RECORD_WORDS * page;
    start..start + RECORD_WORDS
}

/// The header word of this page's free bit, and the bit.
pub const fn free_bit(page: usize) -> (usize, u32) {
    let bits = u32::BITS as usize;
    (MAP_START + page / bits, 1 << (page % bits))
}
