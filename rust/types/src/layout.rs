//! Every size and every place of the lent words, each said once.

/// F at most.
pub const MOST_FRAMES: u32 = 16384;
/// n at most.
pub const MOST_PAGES: u32 = 1024;
/// Words in a frame, a page or a table.
pub const FRAME_WORDS: usize = 1024;
/// Words in the ledger's header, on every box.
pub const HEADER_WORDS: usize = 64;
/// Words in the record of a page, of a call and of an answer.
pub const RECORD_WORDS: usize = 32;
/// Words in the key, in a hash and in a MAC.
pub const KEY_WORDS: usize = 8;
/// Calls in a batch at most.
pub const MOST_CALLS: usize = 512;
/// Tables that a first-level page can name.
pub const MOST_TABLES: u32 = 256;
/// r0-r15.
pub const REGISTERS: usize = 16;
/// r0-r15 and the flags.
pub const SAVED_WORDS: usize = REGISTERS + 1;
/// Bytes in a block of a saved image: 128 words, the lowest byte of each first.
pub const BLOCK_BYTES: usize = 512;
/// Words of the image in a block.
pub const PAYLOAD_WORDS: usize = 124;
/// Words that are lent for the progress of an image that is being read.
pub const PROGRESS_WORDS: usize = 4;

/// Header: the running thread's page plus 1, or 0.
pub const RUNNING: usize = 0;
/// Header: where the key starts.
pub const KEY_START: usize = 1;
/// Header: where the free map starts.
pub const MAP_START: usize = KEY_START + KEY_WORDS;
/// Words in the free map, a bit a page.
pub const MAP_WORDS: usize = (MOST_PAGES / u32::BITS) as usize;

/// The types in word 0 of a page's record.
#[allow(missing_docs)]
pub mod kind {
    pub const FREE: u32 = 0;
    pub const SPACE: u32 = 1;
    pub const THREAD: u32 = 2;
    pub const FIRST_TABLE: u32 = 3;
    pub const TABLE: u32 = 4;
    pub const DATA: u32 = 5;
    pub const SPARE: u32 = 6;
}

/// The words of a page's record, by type.
pub mod word {
    /// The type.
    pub const TYPE: usize = 0;
    /// The space that the page belongs to.
    pub const OWNER: usize = 1;

    /// Of a space: its first-level page.
    pub const FIRST: usize = 2;
    /// Of a space: how far it has come.
    pub const STATE: usize = 3;
    /// Of a space: how many other pages it owns.
    pub const COUNT: usize = 4;
    /// Of a space: blocks measured.
    pub const BLOCKS: usize = 5;
    /// Of a space: where the hash starts.
    pub const HASH: usize = 6;

    /// Of a thread: where Enter starts it.
    pub const ENTRY: usize = 2;
    /// Of a thread: 1 while it is suspended.
    pub const SUSPENDED: usize = 3;
    /// Of a thread: where the saved registers start.
    pub const SAVED: usize = 4;

    /// Of a table: its index.
    pub const INDEX: usize = 2;
    /// Of a data page: its mapping word.
    pub const MAPPING: usize = 2;
}

/// The words of a block.
pub mod block {
    /// The number of the image.
    pub const NUMBER: usize = 0;
    /// The block's index, from 0.
    pub const INDEX: usize = 1;
    /// How many blocks the image has, and [`TOTAL_FROM`] more.
    pub const TOTAL: usize = 2;
    /// What word [`TOTAL`] says above the number of blocks. Images of versions before
    /// 0.5.0 have none of it there, and are refused by that.
    pub const TOTAL_FROM: u32 = 65536;
    /// Where the payload starts.
    pub const PAYLOAD: usize = 3;
    /// The check: the CRC-32 of all bytes before it.
    pub const CHECK: usize = 127;
}

/// The words of the progress.
pub mod progress {
    /// The answer so far.
    pub const ANSWER: usize = 0;
    /// How many blocks came; once one is bad, its place.
    pub const CAME: usize = 1;
    /// The number of the image.
    pub const NUMBER: usize = 2;
}

/// Where the record of this page stands in the ledger.
pub const fn record_of(page: u32) -> core::ops::Range<usize> {
    let start = RECORD_WORDS.saturating_mul(page as usize).saturating_add(HEADER_WORDS);
    start..start.saturating_add(RECORD_WORDS)
}
