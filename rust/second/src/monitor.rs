//! The monitor at work: the typed ledger beside the lent memory, the checks
//! that several calls share, and the way from a record to its call.

use crate::calls::{by_number, number, Code, Reply};
use crate::layout::{BLOCK_WORDS, FRAME_WORDS, MOST_TABLES};
use crate::ledger::{Ledger, Page, Space, State, Thread};
use crate::machine::Machine;
use crate::mapping::{Leaf, Mapping};
use crate::reason::Reason;
use crate::sha;
use crate::walk::Walk;

pub struct Monitor<'a> {
    pub machine: Machine,
    pub ledger: Ledger,
    pub memory: &'a mut [u32],
}

impl Monitor<'_> {
    /// Obeys one record: 19 first, then 15, then the call's own checks.
    pub fn obey(&mut self, record: &[u32]) -> Reply {
        let call = by_number(record[0]).ok_or(Code::BadRecord)?;
        let (arguments, rest) = record[1..].split_at(call.arguments);
        if rest.iter().any(|word| *word != 0) {
            return Err(Code::BadRecord);
        }
        match (self.ledger.running, call.number < number::ENCLAVE) {
            (None, true) => self.host(call.number, arguments),
            (Some(thread), false) => self.enclave(thread, call.number, arguments),
            _ => Err(Code::WrongTime),
        }
    }

    /// A page number below n.
    pub fn page(&self, number: u32) -> Result<usize, Code> {
        (number < self.machine.pages).then_some(number as usize).ok_or(Code::NoSuchPage)
    }

    /// PG: a free page.
    pub fn free_page(&self, number: u32) -> Result<usize, Code> {
        let page = self.page(number)?;
        match self.ledger.pages[page] {
            Page::Free => Ok(page),
            _ => Err(Code::NotFree),
        }
    }

    /// AS: an address space.
    pub fn space_page(&self, number: u32) -> Result<usize, Code> {
        let page = self.page(number)?;
        self.ledger.space(page).map(|_| page).ok_or(Code::NotASpace)
    }

    /// AS, then 4 unless it is still building.
    pub fn building(&self, number: u32) -> Result<usize, Code> {
        let page = self.space_page(number)?;
        match self.state(page) {
            State::Building => Ok(page),
            _ => Err(Code::WrongState),
        }
    }

    /// A mapping word that is well-formed.
    pub fn mapping(&self, word: u32) -> Result<Mapping, Code> {
        let mapping = Mapping(word);
        mapping.well_formed().then_some(mapping).ok_or(Code::BadMapping)
    }

    /// An index with no table yet: its word in the first-level page.
    pub fn empty_index(&self, space: usize, index: u32) -> Result<usize, Code> {
        if index as usize >= MOST_TABLES {
            return Err(Code::NoSuchIndex);
        }
        let place = self.place(self.space(space).first, index as usize);
        (self.memory[place] == 0).then_some(place).ok_or(Code::Taken)
    }

    /// ADDR: a place with a table and nothing in its slot: the slot's word.
    /// It is asked at the page address, for a mapping word is odd; so no
    /// reason arises but the two that speak of tables.
    pub fn empty_slot(&self, space: usize, mapping: Mapping) -> Result<usize, Code> {
        let (walk, page) = (self.walk(space), mapping.address());
        let place = walk.slot(page).map_err(|_| Code::NoTable)?;
        match walk.load(page) {
            Err(Reason::EmptySlot) => Ok(place),
            _ => Err(Code::Taken),
        }
    }

    /// The walk through the tables of this space.
    pub fn walk(&self, space: usize) -> Walk<'_> {
        Walk { machine: self.machine, memory: self.memory, first: self.space(space).first }
    }

    /// Where word `word` of secure page `page` stands in the memory.
    pub fn place(&self, page: usize, word: usize) -> usize {
        self.machine.frame_of(page) * FRAME_WORDS + word
    }

    /// The slot word for secure page `page`.
    pub fn leaf(&self, page: usize, mapping: Mapping) -> u32 {
        Leaf { frame: self.machine.frame_of(page) as u32, rights: mapping.rights() }.word()
    }

    /// Zeroes the memory of secure page `page`.
    pub fn clear(&mut self, page: usize) {
        self.memory[self.machine.words_of(page)].fill(0);
    }

    /// The space in `page`, which the caller has checked to be one.
    pub fn space(&self, page: usize) -> &Space {
        self.ledger.space(page).expect("an address space")
    }

    pub fn space_mut(&mut self, page: usize) -> &mut Space {
        match &mut self.ledger.pages[page] {
            Page::Space(space) => space,
            _ => panic!("an address space"),
        }
    }

    pub fn state(&self, space: usize) -> State {
        self.space(space).state
    }

    /// The thread in `page`, which the caller has checked to be one.
    pub fn thread(&self, page: usize) -> &Thread {
        self.ledger.thread(page).expect("a thread")
    }

    pub fn thread_mut(&mut self, page: usize) -> &mut Thread {
        match &mut self.ledger.pages[page] {
            Page::Thread(thread) => thread,
            _ => panic!("a thread"),
        }
    }

    /// Adds whole blocks of words to the space's running hash.
    pub fn measure(&mut self, space: usize, words: &[u32]) {
        let space = self.space_mut(space);
        space.hash = sha::add(space.hash, words);
        space.blocks += (words.len() / BLOCK_WORDS) as u32;
    }
}
