//! The ledger as a typed value, read from and written to the lent words.
//!
//! What can be worked out from the pages (the free map, the owned counts, a
//! space being its own owner) is not kept: [`Ledger::encode`] works it out
//! afresh, so a ledger is in order only if encoding gives back its words.

use crate::layout::{
    free_bit, kind, record_of, state, word, HEADER_WORDS, KEY_START, MAP_START, RECORD_WORDS,
    REGISTERS, RUNNING,
};
use crate::mapping::Mapping;
use crate::sha::Hash;

/// How far an address space has come.
#[derive(Clone, Copy, Debug, PartialEq, Eq)]
pub enum State {
    /// Pages are still added and measured.
    Building,
    /// Threads may run.
    Final,
    /// Pages may be removed, in any order.
    Stopped,
}

/// The record of an address space.
#[derive(Clone, Debug, PartialEq, Eq)]
pub struct Space {
    /// Its first-level page.
    pub first: usize,
    /// How far it has come.
    pub state: State,
    /// Blocks measured.
    pub blocks: u32,
    /// The running hash, the measurement once final.
    pub hash: Hash,
}

/// What an interrupted thread left behind.
#[derive(Clone, Debug, PartialEq, Eq)]
pub struct Saved {
    /// r0-r15.
    pub registers: [u32; REGISTERS],
    /// Flags, in the top 4 bits.
    pub flags: u32,
}

/// The record of a thread; suspended when something is saved.
#[derive(Clone, Debug, PartialEq, Eq)]
pub struct Thread {
    /// The space it runs in.
    pub owner: usize,
    /// Where Enter starts it.
    pub entry: u32,
    /// Registers and flags while suspended.
    pub saved: Option<Saved>,
}

/// One secure page, by its type.
#[derive(Clone, Debug, PartialEq, Eq)]
#[allow(missing_docs)]
pub enum Page {
    Free,
    Space(Space),
    Thread(Thread),
    First { owner: usize },
    Second { owner: usize, index: u32 },
    Data { owner: usize, mapping: Mapping },
    Spare { owner: usize },
}

/// The whole ledger.
#[derive(Clone, Debug, PartialEq, Eq)]
pub struct Ledger {
    /// The running thread's page.
    pub running: Option<usize>,
    /// The key for attestations.
    pub key: Hash,
    /// The secure pages, in order.
    pub pages: Vec<Page>,
}

fn hash(words: &[u32]) -> Hash {
    std::array::from_fn(|i| words[i])
}

impl State {
    fn decode(word: u32) -> Option<State> {
        let all = [State::Building, State::Final, State::Stopped];
        all.into_iter().find(|state| state.encode() == word)
    }

    fn encode(self) -> u32 {
        match self {
            State::Building => state::BUILDING,
            State::Final => state::FINAL,
            State::Stopped => state::STOPPED,
        }
    }
}

impl Space {
    fn decode(record: &[u32]) -> Option<Space> {
        Some(Space {
            first: record[word::FIRST] as usize,
            state: State::decode(record[word::STATE])?,
            blocks: record[word::BLOCKS],
            hash: hash(&record[word::HASH..word::HASH_END]),
        })
    }

    fn encode(&self, count: usize, record: &mut [u32]) {
        record[word::FIRST] = self.first as u32;
        record[word::STATE] = self.state.encode();
        record[word::COUNT] = count as u32;
        record[word::BLOCKS] = self.blocks;
        record[word::HASH..word::HASH_END].copy_from_slice(&self.hash);
    }
}

impl Thread {
    fn decode(record: &[u32]) -> Option<Thread> {
        let registers = std::array::from_fn(|i| record[word::SAVED + i]);
        let saved = match record[word::SUSPENDED] {
            0 => None,
            1 => Some(Saved { registers, flags: record[word::FLAGS] }),
            _ => return None,
        };
        Some(Thread { owner: record[word::OWNER] as usize, entry: record[word::ENTRY], saved })
    }

    fn encode(&self, record: &mut [u32]) {
        record[word::ENTRY] = self.entry;
        if let Some(saved) = &self.saved {
            record[word::SUSPENDED] = 1;
            record[word::SAVED..word::FLAGS].copy_from_slice(&saved.registers);
            record[word::FLAGS] = saved.flags;
        }
    }
}

impl Page {
    /// The page of a record, by the words its type names.
    fn decode(record: &[u32]) -> Option<Page> {
        let owner = record[word::OWNER] as usize;
        Some(match record[word::TYPE] {
            kind::FREE => Page::Free,
            kind::SPACE => Page::Space(Space::decode(record)?),
            kind::THREAD => Page::Thread(Thread::decode(record)?),
            kind::FIRST => Page::First { owner },
            kind::SECOND => Page::Second { owner, index: record[word::INDEX] },
            kind::DATA => Page::Data { owner, mapping: Mapping(record[word::MAPPING]) },
            kind::SPARE => Page::Spare { owner },
            _ => return None,
        })
    }

    /// The type's number.
    fn number(&self) -> u32 {
        match self {
            Page::Free => kind::FREE,
            Page::Space(_) => kind::SPACE,
            Page::Thread(_) => kind::THREAD,
            Page::First { .. } => kind::FIRST,
            Page::Second { .. } => kind::SECOND,
            Page::Data { .. } => kind::DATA,
            Page::Spare { .. } => kind::SPARE,
        }
    }

    /// The space another page belongs to: none for a free page, and none for
    /// a space, which stands for itself.
    pub fn owner(&self) -> Option<usize> {
        match self {
            Page::Free | Page::Space(_) => None,
            Page::Thread(Thread { owner, .. })
            | Page::First { owner }
            | Page::Second { owner, .. }
            | Page::Data { owner, .. }
            | Page::Spare { owner } => Some(*owner),
        }
    }
}

impl Ledger {
    /// A fresh ledger: all pages free, nothing running.
    pub fn fresh(pages: usize, key: Hash) -> Ledger {
        Ledger { running: None, key, pages: vec![Page::Free; pages] }
    }

    /// Reads the words the layout names; the others are not looked at here.
    pub fn decode(words: &[u32]) -> Option<Ledger> {
        let (header, records) = words.split_at_checked(HEADER_WORDS)?;
        let records = records.chunks_exact(RECORD_WORDS);
        Some(Ledger {
            running: header[RUNNING].checked_sub(1).map(|page| page as usize),
            key: hash(&header[KEY_START..MAP_START]),
            pages: records.map(Page::decode).collect::<Option<Vec<Page>>>()?,
        })
    }

    /// The words of this ledger: the only ones, since all that the layout
    /// leaves no choice about is worked out here.
    pub fn encode(&self) -> Vec<u32> {
        let mut words = vec![0; HEADER_WORDS + RECORD_WORDS * self.pages.len()];
        let counts = self.owned_counts();
        self.encode_header(&mut words);
        for (number, page) in self.pages.iter().enumerate() {
            let record = &mut words[record_of(number)];
            self.encode_page(number, page, counts[number], record);
        }
        words
    }

    fn encode_header(&self, words: &mut [u32]) {
        words[RUNNING] = self.running.map_or(0, |page| page as u32 + 1);
        words[KEY_START..MAP_START].copy_from_slice(&self.key);
        for (number, page) in self.pages.iter().enumerate() {
            if *page == Page::Free {
                let (word, bit) = free_bit(number);
                words[word] |= bit;
            }
        }
    }

    fn encode_page(&self, number: usize, page: &Page, count: usize, record: &mut [u32]) {
        record[word::TYPE] = page.number();
        record[word::OWNER] = page.owner().unwrap_or(0) as u32;
        match page {
            Page::Space(space) => {
                record[word::OWNER] = number as u32;
                space.encode(count, record);
            }
            Page::Thread(thread) => thread.encode(record),
            Page::Second { index, .. } => record[word::INDEX] = *index,
            Page::Data { mapping, .. } => record[word::MAPPING] = mapping.0,
            Page::Free | Page::First { .. } | Page::Spare { .. } => {}
        }
    }

    /// How many other pages each page owns.
    fn owned_counts(&self) -> Vec<usize> {
        let mut counts = vec![0; self.pages.len()];
        for owner in self.pages.iter().filter_map(Page::owner) {
            if let Some(count) = counts.get_mut(owner) {
                *count += 1;
            }
        }
        counts
    }

    /// The address space in page `number`, if there is one.
    pub fn space(&self, number: usize) -> Option<&Space> {
        match self.pages.get(number) {
            Some(Page::Space(space)) => Some(space),
            _ => None,
        }
    }

    /// The thread in page `number`, if there is one.
    pub fn thread(&self, number: usize) -> Option<&Thread> {
        match self.pages.get(number) {
            Some(Page::Thread(thread)) => Some(thread),
            _ => None,
        }
    }

    /// The pages that `space` owns besides itself, with their numbers.
    pub fn owned(&self, space: usize) -> impl Iterator<Item = (usize, &Page)> {
        self.pages.iter().enumerate().filter(move |(_, page)| page.owner() == Some(space))
    }
}
