//! The timed calls as one would write them plainly in Rust: in place, over
//! the lent words, no proofs. They stand beside the proved library in the
//! table; a test holds them to the second program.
//!
//! There are two twins, which differ in how they read a call's record.

pub mod crc;
pub mod image;
mod reading;
pub mod sha;

pub use reading::{Folded, Plain, Reading, CALLS};

use second::calls::number::*;
use second::calls::Code::{self, *};
use second::layout::{
    free_bit, kind, record_of, state, word, BLOCK_WORDS, DATA_BLOCKS, FRAME_WORDS, HASH_WORDS,
    KEY_START, MAP_START, MOST_CALLS, RECORD_WORDS, REGISTERS, RUNNING,
};
use second::mapping::{Leaf, Mapping, ADDRESSES, PAGE_SHIFT, READ, WORD_BYTES, WRITE};
use second::{direct, Machine, DONE, UNFIT};
use std::marker::PhantomData;
use std::ops::Range;

/// A batch: the acceptance check, then the calls in order.
pub fn batch<R: Reading>(
    machine: Machine,
    memory: &mut [u32],
    ledger: &mut [u32],
    calls: &[u32],
    answers: &mut [u32],
) -> u32 {
    let fits = calls.len().is_multiple_of(RECORD_WORDS) && calls.len() <= MOST_CALLS * RECORD_WORDS;
    if !fits || answers.len() != calls.len() || !direct::accepts(machine, memory, ledger) {
        return UNFIT;
    }
    let mut twin = Twin::<R> { machine, memory, ledger, reading: PhantomData };
    let answers = answers.chunks_exact_mut(RECORD_WORDS);
    for (call, answer) in calls.chunks_exact(RECORD_WORDS).zip(answers) {
        answer.fill(0);
        answer[0] = match twin.obey(call, answer) {
            Ok(()) => DONE,
            Err(code) => code as u32,
        };
    }
    DONE
}

/// The arguments of Attest and Verify in their records.
const DATA: Range<usize> = 1..1 + HASH_WORDS;
const MEASUREMENT: Range<usize> = DATA.end..DATA.end + HASH_WORDS;
const MAC: Range<usize> = MEASUREMENT.end..MEASUREMENT.end + HASH_WORDS;

/// Done, with the values in the answer from word 1 on, or the code.
type Outcome = Result<(), Code>;

struct Twin<'a, R> {
    machine: Machine,
    memory: &'a mut [u32],
    ledger: &'a mut [u32],
    reading: PhantomData<R>,
}

impl<R: Reading> Twin<'_, R> {
    fn obey(&mut self, call: &[u32], answer: &mut [u32]) -> Outcome {
        if !R::is_call(call) {
            return Err(BadRecord);
        }
        if (call[0] < ENCLAVE) == (self.ledger[RUNNING] != 0) {
            return Err(WrongTime);
        }
        match call[0] {
            GET_PHYS_PAGES => {
                answer[1] = self.machine.pages;
                Ok(())
            }
            ALLOC_SPARE => self.alloc_spare(call[1], call[2]),
            MAP_SECURE => self.map_secure(call[1], call[2], call[3], call[4]),
            ENTER => self.enter(call[1], &call[2..5], answer),
            REMOVE => self.remove(call[1]),
            ATTEST => {
                answer[1..=HASH_WORDS].copy_from_slice(&self.mac(&call[DATA]));
                Ok(())
            }
            VERIFY => {
                let mac = sha::mac(self.key(), &call[MEASUREMENT], &call[DATA]);
                answer[1] = u32::from(mac == call[MAC]);
                Ok(())
            }
            MAP_DATA => self.map_data(call[1], call[2]),
            UNMAP_DATA => self.unmap_data(call[1]),
            EXIT => {
                self.ledger[RUNNING] = 0;
                answer[1] = call[1];
                Ok(())
            }
            LOAD => self.load(call[1], answer),
            _ => self.store(call[1], call[2]),
        }
    }

    fn key(&self) -> &[u32] {
        &self.ledger[KEY_START..MAP_START]
    }

    fn word(&mut self, page: u32, word: usize) -> &mut u32 {
        &mut self.ledger[record_of(page as usize).start + word]
    }

    fn record(&mut self, page: u32) -> &mut [u32] {
        &mut self.ledger[record_of(page as usize)]
    }

    /// Where word `word` of a secure page stands in the memory.
    fn place(&self, page: u32, word: usize) -> usize {
        (self.machine.secure + page) as usize * FRAME_WORDS + word
    }

    /// The slot word for a secure page.
    fn leaf(&self, page: u32, map: u32) -> u32 {
        Leaf { frame: self.machine.secure + page, rights: Mapping(map).rights() }.word()
    }

    fn owner(&mut self) -> u32 {
        let thread = self.ledger[RUNNING] - 1;
        *self.word(thread, word::OWNER)
    }

    /// A page of this type for a space: its record, the count, the free map.
    fn take_page(&mut self, space: u32, page: u32, kind: u32) {
        *self.word(page, word::TYPE) = kind;
        *self.word(page, word::OWNER) = space;
        *self.word(space, word::COUNT) += 1;
        let (word, bit) = free_bit(page as usize);
        self.ledger[word] &= !bit;
    }

    fn alloc_spare(&mut self, space: u32, page: u32) -> Outcome {
        let n = self.machine.pages;
        if space >= n {
            return Err(NoSuchPage);
        }
        if *self.word(space, word::TYPE) != kind::SPACE {
            return Err(NotASpace);
        }
        if *self.word(space, word::STATE) == state::STOPPED {
            return Err(WrongState);
        }
        if page >= n {
            return Err(NoSuchPage);
        }
        if *self.word(page, word::TYPE) != kind::FREE {
            return Err(NotFree);
        }
        self.take_page(space, page, kind::SPARE);
        Ok(())
    }

    /// The place of the slot for an address of a space, if it has a table.
    fn slot(&mut self, space: u32, address: u32) -> Option<usize> {
        let first = *self.word(space, word::FIRST);
        let mapping = Mapping(address);
        let table = self.memory[self.place(first, mapping.index())];
        (table != 0).then(|| self.place(table - 1, mapping.slot()))
    }

    fn map_secure(&mut self, space: u32, page: u32, map: u32, frame: u32) -> Outcome {
        let n = self.machine.pages;
        if space >= n {
            return Err(NoSuchPage);
        }
        if *self.word(space, word::TYPE) != kind::SPACE {
            return Err(NotASpace);
        }
        if *self.word(space, word::STATE) != state::BUILDING {
            return Err(WrongState);
        }
        if page >= n {
            return Err(NoSuchPage);
        }
        if *self.word(page, word::TYPE) != kind::FREE {
            return Err(NotFree);
        }
        if !Mapping(map).well_formed() {
            return Err(BadMapping);
        }
        let Some(slot) = self.slot(space, map) else { return Err(NoTable) };
        if self.memory[slot] != 0 {
            return Err(Taken);
        }
        if !self.machine.is_insecure(frame) {
            return Err(NotInsecure);
        }
        let (from, to) = (frame as usize * FRAME_WORDS, self.place(page, 0));
        self.memory.copy_within(from..from + FRAME_WORDS, to);
        self.memory[slot] = self.leaf(page, map);
        self.take_page(space, page, kind::DATA);
        *self.word(page, word::MAPPING) = map;
        self.measure(space, map, to);
        Ok(())
    }

    fn measure(&mut self, space: u32, map: u32, page: usize) {
        let mut hash: sha::Hash =
            self.record(space)[word::HASH..word::HASH_END].try_into().expect("a hash");
        let mut head = [0; BLOCK_WORDS];
        head[..2].copy_from_slice(&[2, map]);
        sha::compress(&mut hash, &head);
        sha::absorb(&mut hash, &self.memory[page..page + FRAME_WORDS]);
        self.record(space)[word::HASH..word::HASH_END].copy_from_slice(&hash);
        *self.word(space, word::BLOCKS) += DATA_BLOCKS;
    }

    fn enter(&mut self, thread: u32, arguments: &[u32], answer: &mut [u32]) -> Outcome {
        if thread >= self.machine.pages {
            return Err(NoSuchPage);
        }
        if *self.word(thread, word::TYPE) != kind::THREAD {
            return Err(NotAThread);
        }
        let owner = *self.word(thread, word::OWNER);
        if *self.word(owner, word::STATE) != state::FINAL {
            return Err(NotFinal);
        }
        if *self.word(thread, word::SUSPENDED) != 0 {
            return Err(Suspended);
        }
        self.ledger[RUNNING] = thread + 1;
        answer[1..4].copy_from_slice(arguments);
        answer[REGISTERS] = *self.word(thread, word::ENTRY);
        Ok(())
    }

    fn remove(&mut self, page: u32) -> Outcome {
        if page >= self.machine.pages {
            return Err(NoSuchPage);
        }
        let (kind, owner) = (*self.word(page, word::TYPE), *self.word(page, word::OWNER));
        if kind == kind::FREE {
            return Err(AlreadyFree);
        }
        if kind != kind::SPARE && *self.word(owner, word::STATE) != state::STOPPED {
            return Err(NotStopped);
        }
        if kind == kind::SPACE && *self.word(page, word::COUNT) != 0 {
            return Err(StillOwns);
        }
        if kind != kind::SPACE {
            *self.word(owner, word::COUNT) -= 1;
        }
        self.record(page).fill(0);
        let (word, bit) = free_bit(page as usize);
        self.ledger[word] |= bit;
        let start = self.place(page, 0);
        self.memory[start..start + FRAME_WORDS].fill(0);
        Ok(())
    }

    fn mac(&mut self, data: &[u32]) -> sha::Hash {
        let owner = self.owner();
        let hash: sha::Hash =
            self.record(owner)[word::HASH..word::HASH_END].try_into().expect("a hash");
        sha::mac(self.key(), &hash, data)
    }

    fn map_data(&mut self, page: u32, map: u32) -> Outcome {
        let owner = self.owner();
        if page >= self.machine.pages {
            return Err(NoSuchPage);
        }
        if *self.word(page, word::TYPE) != kind::SPARE || *self.word(page, word::OWNER) != owner {
            return Err(NotOwnSpare);
        }
        if !Mapping(map).well_formed() {
            return Err(BadMapping);
        }
        let Some(slot) = self.slot(owner, map) else { return Err(NoTable) };
        if self.memory[slot] != 0 {
            return Err(Taken);
        }
        self.memory[slot] = self.leaf(page, map);
        *self.word(page, word::TYPE) = kind::DATA;
        *self.word(page, word::MAPPING) = map;
        Ok(())
    }

    fn unmap_data(&mut self, page: u32) -> Outcome {
        let owner = self.owner();
        if page >= self.machine.pages {
            return Err(NoSuchPage);
        }
        if *self.word(page, word::TYPE) != kind::DATA || *self.word(page, word::OWNER) != owner {
            return Err(NotOwnData);
        }
        let map = *self.word(page, word::MAPPING);
        if let Some(slot) = self.slot(owner, map) {
            self.memory[slot] = 0;
        }
        let start = self.place(page, 0);
        self.memory[start..start + FRAME_WORDS].fill(0);
        *self.word(page, word::TYPE) = kind::SPARE;
        *self.word(page, word::MAPPING) = 0;
        Ok(())
    }

    /// Where the word at an address stands, if it may be touched so.
    fn translate(&mut self, address: u32, right: u32) -> Option<usize> {
        if !address.is_multiple_of(WORD_BYTES) || address >= ADDRESSES {
            return None;
        }
        let owner = self.owner();
        let slot = self.slot(owner, address)?;
        let leaf = self.memory[slot];
        let word = (address / WORD_BYTES) as usize % FRAME_WORDS;
        (leaf & right != 0).then_some((leaf >> PAGE_SHIFT) as usize * FRAME_WORDS + word)
    }

    fn fault(&mut self) -> Outcome {
        self.ledger[RUNNING] = 0;
        Err(Faulted)
    }

    fn load(&mut self, address: u32, answer: &mut [u32]) -> Outcome {
        let Some(place) = self.translate(address, READ) else { return self.fault() };
        answer[1] = self.memory[place];
        Ok(())
    }

    fn store(&mut self, address: u32, word: u32) -> Outcome {
        let Some(place) = self.translate(address, WRITE) else { return self.fault() };
        self.memory[place] = word;
        Ok(())
    }
}
