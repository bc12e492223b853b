//! Acceptance once more, straight over the lent words: one pass over the
//! records and the secure memory, no typed pages. It is here to be timed
//! against; it must always agree with [`crate::accepts`].

use crate::layout::{
    free_bit, kind, record_of, state, word, Record, DATA_BLOCKS, FLAG_BITS, HEADER_WORDS,
    MOST_TABLES, RUNNING,
};
use crate::machine::Machine;
use crate::mapping::{Leaf, Mapping, ADDRESSES, EXECUTE, WORD_BYTES};

/// What a pass over the records counts for each address space.
#[derive(Clone, Copy, Default)]
struct Tally {
    owned: u32,
    threads: u32,
    data: u32,
    firsts: u32,
    tables: u32,
    suspended: bool,
}

struct Words<'a> {
    machine: Machine,
    memory: &'a [u32],
    ledger: &'a [u32],
}

/// Zero throughout. Nearly all pages are, so looking at every word at once
/// is quicker than stopping at the first that is not zero.
fn zero(words: &[u32]) -> bool {
    words.iter().fold(0, |seen, word| seen | word) == 0
}

/// Yes or no, as [`crate::accepts`] says it.
pub fn accepts(m: Machine, mem: &[u32], led: &[u32]) -> bool {
    if !m.fits() || mem.len() != m.memory_words() || led.len() != m.ledger_words() {
        return false;
    }
    let words = Words { machine: m, memory: mem, ledger: led };
    // A tally for each page, which could be a space.
    let mut tallies = vec![Tally::default(); m.page_count()];
    words.header()
        && (0..m.page_count()).all(|page| words.page(page, &mut tallies))
        && (0..m.page_count()).all(|page| words.space(page, &tallies[page]))
}

impl<'a> Words<'a> {
    fn record(&self, page: usize) -> &'a Record {
        self.ledger[record_of(page)].try_into().expect("a record")
    }

    fn memory(&self, page: usize) -> &'a [u32] {
        &self.memory[self.machine.words_of(page)]
    }

    /// The record of the space a page says it belongs to.
    fn owner(&self, record: &Record) -> Option<&'a Record> {
        if record[word::OWNER] >= self.machine.pages {
            return None;
        }
        let owner = self.record(record[word::OWNER] as usize);
        (owner[word::TYPE] == kind::SPACE).then_some(owner)
    }

    /// The header's own words; its free bits are compared page by page. From
    /// the bit of number n on all is zero, to the header's end.
    fn header(&self) -> bool {
        let (word, bit) = free_bit(self.machine.page_count());
        self.ledger[word] < bit
            && zero(&self.ledger[word + 1..HEADER_WORDS])
            && (self.ledger[RUNNING] == 0 || self.running())
    }

    fn is_free(&self, page: usize) -> bool {
        let (word, bit) = free_bit(page);
        self.ledger[word] & bit != 0
    }

    fn running(&self) -> bool {
        let page = self.ledger[RUNNING] - 1;
        if page >= self.machine.pages {
            return false;
        }
        let record = self.record(page as usize);
        let owner_final =
            self.owner(record).is_some_and(|owner| owner[word::STATE] == state::FINAL);
        record[word::TYPE] == kind::THREAD && record[word::SUSPENDED] == 0 && owner_final
    }

    /// One page: its record, its memory and its owner's tally.
    fn page(&self, page: usize, tallies: &mut [Tally]) -> bool {
        let record = self.record(page);
        if self.is_free(page) != (record[word::TYPE] == kind::FREE) {
            return false;
        }
        match record[word::TYPE] {
            kind::FREE => return zero(record) && zero(self.memory(page)),
            kind::SPACE => {
                let own =
                    record[word::OWNER] as usize == page && record[word::STATE] < state::COUNT;
                return own && zero(&record[word::HASH_END..]) && zero(self.memory(page));
            }
            _ => {}
        }
        let Some(owner) = self.owner(record) else { return false };
        let tally = &mut tallies[record[word::OWNER] as usize];
        tally.owned += 1;
        self.owned_page(page, record, owner, tally)
    }

    fn owned_page(&self, page: usize, record: &Record, owner: &Record, tally: &mut Tally) -> bool {
        match record[word::TYPE] {
            kind::THREAD => {
                tally.threads += 1;
                tally.suspended |= record[word::SUSPENDED] == 1;
                thread_record(record) && zero(self.memory(page))
            }
            kind::FIRST => {
                tally.firsts += 1;
                zero(&record[word::OWNER + 1..])
            }
            kind::SECOND => {
                tally.tables += 1;
                let index = record[word::INDEX] as usize;
                let fits = index < MOST_TABLES && zero(&record[word::INDEX + 1..]);
                fits && (owner[word::STATE] == state::STOPPED || self.table(page, record, owner))
            }
            kind::DATA => {
                tally.data += 1;
                let mapping = Mapping(record[word::MAPPING]);
                let fits = mapping.well_formed() && zero(&record[word::MAPPING + 1..]);
                fits && (owner[word::STATE] == state::STOPPED || self.stands(page, mapping, owner))
            }
            kind::SPARE => zero(&record[word::OWNER + 1..]) && zero(self.memory(page)),
            _ => false,
        }
    }

    /// The word of the owner's first-level page at this index.
    fn first_word(&self, owner: &Record, index: usize) -> Option<u32> {
        let first = owner[word::FIRST];
        (first < self.machine.pages).then(|| self.memory(first as usize)[index])
    }

    /// A table of a live space: named by its first-level page, all slots good.
    fn table(&self, page: usize, record: &Record, owner: &Record) -> bool {
        self.first_word(owner, record[word::INDEX] as usize) == Some(page as u32 + 1)
            && self
                .memory(page)
                .iter()
                .enumerate()
                .all(|(slot, word)| *word == 0 || self.leaf(record, slot, *word))
    }

    /// A slot in use: insecure, or a data page that says the same place.
    fn leaf(&self, table: &Record, slot: usize, word: u32) -> bool {
        let Some(Leaf { frame, rights }) = Leaf::read(word) else { return false };
        let Some(page) = self.machine.page_in(frame) else {
            return self.machine.is_insecure(frame) && rights & EXECUTE == 0;
        };
        let data = self.record(page);
        let place = Mapping::at(table[word::INDEX] as usize, slot, rights);
        data[word::TYPE] == kind::DATA
            && data[word::OWNER] == table[word::OWNER]
            && data[word::MAPPING] == place.0
    }

    /// A data page of a live space stands in the slot its mapping word says.
    fn stands(&self, page: usize, mapping: Mapping, owner: &Record) -> bool {
        let table = match self.first_word(owner, mapping.index()) {
            Some(word) if word >= 1 && word <= self.machine.pages => word as usize - 1,
            _ => return false,
        };
        // That this is a table of the same space at this index is judged with
        // the first-level page.
        let frame = self.machine.frame_of(page) as u32;
        self.memory(table)[mapping.slot()] == Leaf { frame, rights: mapping.rights() }.word()
    }

    /// A space's record against what was counted, and its first-level page.
    fn space(&self, page: usize, tally: &Tally) -> bool {
        let record = self.record(page);
        if record[word::TYPE] != kind::SPACE {
            return true;
        }
        let (state, blocks) = (record[word::STATE], record[word::BLOCKS]);
        let measured = match state {
            state::BUILDING => {
                blocks == tally.threads + DATA_BLOCKS * tally.data && !tally.suspended
            }
            _ => blocks <= DATA_BLOCKS * self.machine.pages,
        };
        let below = record[word::FIRST] < self.machine.pages;
        let links = state == state::STOPPED || (below && self.first_level(page, record, tally));
        record[word::COUNT] == tally.owned && measured && below && links
    }

    /// The only first-level page owned, naming as many tables as are owned;
    /// each of them has been found in its own slot already.
    fn first_level(&self, page: usize, record: &Record, tally: &Tally) -> bool {
        let number = record[word::FIRST] as usize;
        let first = self.record(number);
        let (slots, rest) = self.memory(number).split_at(MOST_TABLES);
        let named = slots.iter().filter(|word| **word != 0).count();
        let own = first[word::TYPE] == kind::FIRST && first[word::OWNER] as usize == page;
        own && tally.firsts == 1 && named == tally.tables as usize && zero(rest)
    }
}

/// The bits that a legal entry may have.
const ENTRY_BITS: u32 = ADDRESSES - WORD_BYTES;

/// A thread's words: idle ones hold no registers and no flags.
fn thread_record(record: &Record) -> bool {
    let saved = match record[word::SUSPENDED] {
        0 => zero(&record[word::SAVED..word::SAVED_END]),
        1 => record[word::FLAGS] & !FLAG_BITS == 0,
        _ => false,
    };
    saved && record[word::ENTRY] & !ENTRY_BITS == 0 && zero(&record[word::SAVED_END..])
}
