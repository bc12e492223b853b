//! Saved images, block by block, as one would write them plainly: runs of
//! words copied as bytes, the check by the plain table.

use super::crc::crc32;
use second::layout::{
    BLOCK_BYTES, BLOCK_HEAD, CHECKED_BYTES, FRAME_WORDS, PAYLOAD_WORDS, PROGRESS_WORDS,
};
use second::{Machine, BAD_BLOCK, DONE, NOT_ACCEPTED, UNFIT};
use std::ops::Range;

/// Bytes in a word.
const WORD: usize = 4;

/// The words of a block beside its payload.
const NUMBER: usize = 0;
const INDEX: usize = 1;
const TOTAL: usize = 2;
const CHECK: usize = CHECKED_BYTES / WORD;

/// What is added to the total there, so that older images are refused.
const LAYOUT: u32 = 65_536;

/// The bytes of a block's payload.
const PAYLOAD: Range<usize> = WORD * BLOCK_HEAD..CHECKED_BYTES;

/// The words of a reader's progress.
const ANSWER: usize = 0;
const CAME: usize = 1;
const SEEN: usize = 2;

/// How many blocks an image of this box has; 0 where the numbers do not fit.
pub fn blocks(m: Machine) -> u32 {
    if m.fits() {
        total(m)
    } else {
        0
    }
}

/// Block `index` of the image of this state under this number.
pub fn write(
    m: Machine,
    memory: &[u32],
    ledger: &[u32],
    number: u32,
    index: u32,
    block: &mut [u8],
) -> u32 {
    if !lent(m, memory, ledger) || index >= total(m) || block.len() != BLOCK_BYTES {
        return UNFIT;
    }
    let runs = Runs::of(m, index);
    let (head, payload) = block[..CHECKED_BYTES].split_at_mut(PAYLOAD.start);
    let (in_ledger, rest) = payload.split_at_mut(WORD * runs.ledger.len());
    let (in_memory, fill) = rest.split_at_mut(WORD * runs.memory.len());
    put(head, &[number, index, total(m) + LAYOUT]);
    put(in_ledger, &ledger[runs.ledger]);
    put(in_memory, &memory[runs.memory]);
    fill.fill(0);
    let check = crc32(&block[..CHECKED_BYTES]);
    put(&mut block[CHECKED_BYTES..], &[check]);
    DONE
}

/// The next block, into a spare memory and ledger.
pub fn read(
    m: Machine,
    memory: &mut [u32],
    ledger: &mut [u32],
    progress: &mut [u32],
    block: &[u8],
) -> u32 {
    if !lent(m, memory, ledger) || progress.len() != PROGRESS_WORDS {
        return UNFIT;
    }
    match progress[ANSWER] {
        0 => {}
        NOT_ACCEPTED => return NOT_ACCEPTED,
        _ => return BAD_BLOCK,
    }
    let came = progress[CAME];
    if !good(m, came, progress[SEEN], block) {
        progress[ANSWER] = BAD_BLOCK;
        return BAD_BLOCK;
    }
    let runs = Runs::of(m, came);
    let (in_ledger, rest) = block[PAYLOAD].split_at(WORD * runs.ledger.len());
    take(&mut ledger[runs.ledger], in_ledger);
    take(&mut memory[runs.memory], rest);
    progress[CAME] = came + 1;
    progress[SEEN] = word(block, NUMBER);
    DONE
}

/// Whether a block is the good one that comes next.
fn good(m: Machine, came: u32, number: u32, block: &[u8]) -> bool {
    block.len() == BLOCK_BYTES
        && came < total(m)
        && word(block, INDEX) == came
        && word(block, TOTAL) == total(m) + LAYOUT
        && (came == 0 || word(block, NUMBER) == number)
        && block[PAYLOAD][WORD * Runs::of(m, came).len()..].iter().all(|byte| *byte == 0)
        && word(block, CHECK) == crc32(&block[..CHECKED_BYTES])
}

fn lent(m: Machine, memory: &[u32], ledger: &[u32]) -> bool {
    m.fits() && memory.len() == m.memory_words() && ledger.len() == m.ledger_words()
}

/// How many blocks hold the ledger and the secure frames.
fn total(m: Machine) -> u32 {
    (m.ledger_words() + FRAME_WORDS * m.page_count()).div_ceil(PAYLOAD_WORDS) as u32
}

/// Where the words of a payload stand: first of the ledger, then of the memory.
struct Runs {
    ledger: Range<usize>,
    memory: Range<usize>,
}

impl Runs {
    fn of(m: Machine, index: u32) -> Runs {
        let (ledger, secure) = (m.ledger_words(), FRAME_WORDS * m.page_count());
        let start = PAYLOAD_WORDS * index as usize;
        let end = (start + PAYLOAD_WORDS).min(ledger + secure);
        let place = |word: usize| m.words_of(0).start + word.saturating_sub(ledger);
        Runs { ledger: start.min(ledger)..end.min(ledger), memory: place(start)..place(end) }
    }

    fn len(&self) -> usize {
        self.ledger.len() + self.memory.len()
    }
}

fn word(block: &[u8], place: usize) -> u32 {
    u32::from_le_bytes(block[WORD * place..][..WORD].try_into().expect("a word"))
}

fn put(bytes: &mut [u8], words: &[u32]) {
    for (bytes, word) in bytes.chunks_exact_mut(WORD).zip(words) {
        bytes.copy_from_slice(&word.to_le_bytes());
    }
}

fn take(words: &mut [u32], bytes: &[u8]) {
    for (word, bytes) in words.iter_mut().zip(bytes.chunks_exact(WORD)) {
        *word = u32::from_le_bytes(bytes.try_into().expect("a word"));
    }
}
