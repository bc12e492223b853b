use crate::layout::RECORD_WORDS;

/// A record: of a call, of an answer, or of a page in the ledger.
pub type Record = [u32; RECORD_WORDS];

/// A record of these words, zeros after them.
pub(crate) fn record_of(words: &[u32]) -> Record {
    let mut record = [0; RECORD_WORDS];
    record[..words.len()].copy_from_slice(words);
    record
}

/// Whether a record is zero from this word on.
pub(crate) fn zero_from(record: &Record, word: usize) -> bool {
    record[word..].iter().all(|word| *word == 0)
}

/// `N` words of a record from `start` on.
pub(crate) fn part<const N: usize>(record: &Record, start: usize) -> [u32; N] {
    core::array::from_fn(|place| record[start + place])
}
