use crate::layout::{kind, word, KEY_WORDS, SAVED_WORDS};
use crate::mapping::Mapping;
use crate::record::{part, record_of, Record};
use crate::registers::Registers;

/// How far an address space has come.
#[derive(Clone, Copy, Debug, PartialEq, Eq, Hash)]
pub enum State {
    /// Pages are still added and measured.
    Building = 0,
    /// Its threads may run.
    Final = 1,
    /// Its pages may be removed, in any order.
    Stopped = 2,
}

/// The record of an address space.
#[derive(Clone, Copy, Debug, PartialEq, Eq, Hash)]
pub struct Space {
    /// Its own page.
    pub page: u32,
    /// Its first-level page.
    pub first: u32,
    /// How far it has come.
    pub state: State,
    /// How many other pages it owns.
    pub owned: u32,
    /// How many blocks were measured.
    pub blocks: u32,
    /// The running hash; the measurement once it is final.
    pub hash: [u32; KEY_WORDS],
}

/// The record of a thread.
#[derive(Clone, Copy, Debug, PartialEq, Eq, Hash)]
pub struct Thread {
    /// The space it runs in.
    pub owner: u32,
    /// Where Enter starts it: where accepted, a multiple of 4 below 2^30.
    pub entry: u32,
    /// Whether it was interrupted and not resumed.
    pub suspended: bool,
    /// What it left behind, while suspended.
    pub registers: Registers,
}

/// A secure page by its type.
///
/// ```
/// # extern crate types as monitor;
/// use monitor::{Mapping, Page};
///
/// let page = Page::Data { owner: 0, map: Mapping::from_word(4099) };
/// assert_eq!(page.encode()[..4], [5, 0, 4099, 0]);
/// assert_eq!(Page::decode(&page.encode()), Some(page));
/// ```
#[derive(Clone, Copy, Debug, PartialEq, Eq, Hash)]
#[allow(missing_docs)] // the fields are the record's named words
pub enum Page {
    /// 0: nobody's.
    Free,
    /// 1: an address space, which owns itself.
    Space(Space),
    /// 2: a thread.
    Thread(Thread),
    /// 3: a first-level table.
    FirstTable { owner: u32 },
    /// 4: a second-level table at an index of the first.
    Table { owner: u32, index: u32 },
    /// 5: data, mapped at an address.
    Data { owner: u32, map: Mapping },
    /// 6: owned, and not yet used.
    Spare { owner: u32 },
}

impl State {
    fn decode(word: u32) -> Option<State> {
        [State::Building, State::Final, State::Stopped].get(word as usize).copied()
    }
}

impl Space {
    fn decode(record: &Record) -> Option<Space> {
        Some(Space {
            page: record[word::OWNER],
            first: record[word::FIRST],
            state: State::decode(record[word::STATE])?,
            owned: record[word::COUNT],
            blocks: record[word::BLOCKS],
            hash: part(record, word::HASH),
        })
    }

    fn encode(&self) -> Record {
        let Space { page, first, state, owned, blocks, hash } = self;
        let mut record = record_of(&[kind::SPACE, *page, *first, *state as u32, *owned, *blocks]);
        record[word::HASH..][..KEY_WORDS].copy_from_slice(hash);
        record
    }
}

impl Thread {
    fn decode(record: &Record) -> Thread {
        Thread {
            owner: record[word::OWNER],
            entry: record[word::ENTRY],
            suspended: record[word::SUSPENDED] != 0,
            registers: Registers::of(part(record, word::SAVED)),
        }
    }

    fn encode(&self) -> Record {
        let mut record =
            record_of(&[kind::THREAD, self.owner, self.entry, u32::from(self.suspended)]);
        record[word::SAVED..][..SAVED_WORDS].copy_from_slice(&self.registers.words());
        record
    }
}

impl Page {
    /// The page of a record; none where the type or a state is no number of
    /// the table, or an unnamed word is not zero. Acceptance asks for more.
    pub fn decode(record: &Record) -> Option<Page> {
        let owner = record[word::OWNER];
        let page = match record[word::TYPE] {
            kind::FREE => Page::Free,
            kind::SPACE => Page::Space(Space::decode(record)?),
            kind::THREAD => Page::Thread(Thread::decode(record)),
            kind::FIRST_TABLE => Page::FirstTable { owner },
            kind::TABLE => Page::Table { owner, index: record[word::INDEX] },
            kind::DATA => Page::Data { owner, map: Mapping::from_word(record[word::MAPPING]) },
            kind::SPARE => Page::Spare { owner },
            _ => return None,
        };
        (page.encode() == *record).then_some(page)
    }

    /// The record of this page.
    pub fn encode(&self) -> Record {
        match self {
            Page::Free => record_of(&[]),
            Page::Space(space) => space.encode(),
            Page::Thread(thread) => thread.encode(),
            Page::FirstTable { owner } => record_of(&[kind::FIRST_TABLE, *owner]),
            Page::Table { owner, index } => record_of(&[kind::TABLE, *owner, *index]),
            Page::Data { owner, map } => record_of(&[kind::DATA, *owner, map.word()]),
            Page::Spare { owner } => record_of(&[kind::SPARE, *owner]),
        }
    }

    /// The space that this page belongs to; none for a free page. A space
    /// belongs to itself.
    pub fn owner(&self) -> Option<u32> {
        match self {
            Page::Free => None,
            Page::Space(space) => Some(space.page),
            Page::Thread(thread) => Some(thread.owner),
            Page::FirstTable { owner }
            | Page::Table { owner, .. }
            | Page::Data { owner, .. }
            | Page::Spare { owner } => Some(*owner),
        }
    }
}
