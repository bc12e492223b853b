use crate::layout::{RECORD_WORDS, SAVED_WORDS};
use crate::mapping::Mapping;
use crate::record::Record;
use crate::registers::Registers;

/// What a call can have as an argument: some words of its record.
pub trait Argument {
    const WORDS: usize;
    fn put(&self, words: &mut Writer);
    fn take(words: &mut Reader) -> Self;
}

/// A record that is being filled.
pub struct Writer {
    pub record: Record,
    pub at: usize,
}

impl Writer {
    pub fn new() -> Writer {
        Writer { record: [0; RECORD_WORDS], at: 0 }
    }

    pub fn put(&mut self, word: u32) {
        self.record[self.at] = word;
        self.at += 1;
    }
}

/// A record that is being read.
pub struct Reader<'a> {
    pub record: &'a Record,
    pub at: usize,
}

impl Reader<'_> {
    pub fn take(&mut self) -> u32 {
        self.at += 1;
        self.record[self.at - 1]
    }
}

impl Argument for u32 {
    const WORDS: usize = 1;

    fn put(&self, words: &mut Writer) {
        words.put(*self);
    }

    fn take(words: &mut Reader) -> u32 {
        words.take()
    }
}

impl Argument for Mapping {
    const WORDS: usize = 1;

    fn put(&self, words: &mut Writer) {
        words.put(self.word());
    }

    fn take(words: &mut Reader) -> Mapping {
        Mapping::from_word(words.take())
    }
}

impl<const N: usize> Argument for [u32; N] {
    const WORDS: usize = N;

    fn put(&self, words: &mut Writer) {
        self.iter().for_each(|word| words.put(*word));
    }

    fn take(words: &mut Reader) -> [u32; N] {
        core::array::from_fn(|_| words.take())
    }
}

impl Argument for Registers {
    const WORDS: usize = SAVED_WORDS;

    fn put(&self, words: &mut Writer) {
        self.words().put(words);
    }

    fn take(words: &mut Reader) -> Registers {
        Registers::of(Argument::take(words))
    }
}
