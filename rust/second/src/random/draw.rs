//! The next call of a shift, drawn with an eye on the current words so that
//! successes and every refusal come up often.

use super::entries::{illegal_entry, legal_entry};
use super::{Rng, View};
use crate::calls::by_number;
use crate::calls::number::*;
use crate::layout::kind::{DATA, FREE, SPACE, SPARE, THREAD};
use crate::layout::state::{BUILDING, FINAL, STOPPED};
use crate::layout::{
    word, Record, FRAME_WORDS, HASH_WORDS, KEY_START, MOST_TABLES, RECORD_WORDS, SAVED_WORDS,
};
use crate::mapping::{
    Mapping, ADDRESSES, EXECUTE, INDEX_SHIFT, PAGE_ADDRESS, PAGE_SHIFT, READ, RIGHTS, WORD_BYTES,
    WRITE,
};
use crate::sha;

/// Host calls, each this often.
const HOST: [(u32, u32); 13] = [
    (GET_PHYS_PAGES, 1),
    (INIT_ADDR_SPACE, 3),
    (INIT_THREAD, 5),
    (INIT_TABLE, 4),
    (ALLOC_SPARE, 3),
    (MAP_SECURE, 7),
    (MAP_INSECURE, 5),
    (FINALISE, 2),
    (ENTER, 7),
    (RESUME, 3),
    (STOP, 1),
    (REMOVE, 4),
    (FREE_PAGES, 1),
];

/// Host calls when pages are short.
const TAKE_DOWN: [(u32, u32); 4] = [(STOP, 1), (REMOVE, 5), (FREE_PAGES, 1), (ENTER, 1)];

/// Calls of a running thread.
const ENCLAVE_CALLS: [(u32, u32); 11] = [
    (GET_RANDOM, 1),
    (ATTEST, 1),
    (VERIFY, 1),
    (SPARE_TABLE, 5),
    (MAP_DATA, 8),
    (UNMAP_DATA, 4),
    (EXIT, 1),
    (INTERRUPT, 1),
    (FAULT, 1),
    (LOAD, 7),
    (STORE, 8),
];

/// A call of these, each as often as it says.
fn often(rng: &mut Rng, calls: &[(u32, u32)]) -> u32 {
    let mut left = rng.below(calls.iter().map(|(_, times)| times).sum());
    let drawn = calls.iter().find(|(_, times)| {
        let here = left < *times;
        left = left.wrapping_sub(*times);
        here
    });
    drawn.expect("one of them").0
}

/// A record for the state in view.
pub fn next_call(rng: &mut Rng, view: View) -> Record {
    let mut draw = Draw { rng, view };
    let running = view.running().is_some();
    // Now and then a call that is out of time, any of them: none can be done.
    // Runs are short, so that it comes more often while a thread runs.
    let out_of_time = draw.rng.once_in(if running { 10 } else { 28 });
    let number = if out_of_time { draw.number(!running) } else { draw.hopeful_number(running) };
    let arguments = draw.arguments(number);
    let mut record = [0; RECORD_WORDS];
    record[0] = number;
    record[1..=arguments.len()].copy_from_slice(&arguments);
    if draw.rng.once_in(28) {
        draw.spoil(&mut record);
    }
    record
}

struct Draw<'r, 'v> {
    rng: &'r mut Rng,
    view: View<'v>,
}

impl Draw<'_, '_> {
    fn number(&mut self, enclave: bool) -> u32 {
        let free = self.view.pages(|view, page| view.kind(page) == FREE).len();
        if enclave {
            often(self.rng, &ENCLAVE_CALLS)
        } else if free * 6 <= self.view.machine.page_count() && self.rng.once_in(2) {
            often(self.rng, &TAKE_DOWN)
        } else {
            often(self.rng, &HOST)
        }
    }

    /// A call that can be done now, mostly: several tries to find one.
    fn hopeful_number(&mut self, enclave: bool) -> u32 {
        let tries = self.rng.pick(&[0, 5, 5, 5, 5, 5, 5, 5]);
        let mut number = self.number(enclave);
        for _ in 0..tries {
            if self.hopeful(number) {
                break;
            }
            number = self.number(enclave);
        }
        number
    }

    /// Whether some pages would do for this call.
    fn hopeful(&self, number: u32) -> bool {
        let (view, owner) = (self.view, self.owner());
        let any = |wanted: &dyn Fn(usize) -> bool| (0..view.machine.page_count()).any(wanted);
        match number {
            INIT_ADDR_SPACE => any(&|page| view.kind(page) == FREE),
            INIT_THREAD | INIT_TABLE | MAP_SECURE | MAP_INSECURE | FINALISE => {
                !view.of(SPACE, BUILDING).is_empty()
            }
            ALLOC_SPARE | STOP => {
                any(&|page| view.kind(page) == SPACE && view.owner_state(page) != STOPPED)
            }
            ENTER => view.of(THREAD, FINAL).iter().any(|thread| !view.suspended(*thread)),
            RESUME => view.of(THREAD, FINAL).iter().any(|thread| view.suspended(*thread)),
            REMOVE => any(&|page| {
                let stopped = view.kind(page) != FREE && view.owner_state(page) == STOPPED;
                view.kind(page) == SPARE || stopped
            }),
            SPARE_TABLE | MAP_DATA => {
                any(&|page| view.kind(page) == SPARE && view.owner(page) == owner)
            }
            UNMAP_DATA => any(&|page| view.kind(page) == DATA && view.owner(page) == owner),
            LOAD | STORE => {
                view.tables(owner).iter().any(|t| view.words(*t).iter().any(|w| *w != 0))
            }
            _ => true,
        }
    }

    /// Makes a record draw 19: an unknown number, or a word too many.
    fn spoil(&mut self, record: &mut Record) {
        let arguments = by_number(record[0]).map_or(0, |call| call.arguments);
        if self.rng.once_in(3) {
            let word = self.rng.word();
            record[0] =
                self.rng.pick(&[0, 14, 15, 31, 43, 44, u32::MAX, record[0] | 1 << 16, word]);
        } else {
            let first = 1 + arguments;
            let later = first + self.rng.below((RECORD_WORDS - first) as u32) as usize;
            record[self.rng.pick(&[first, later, RECORD_WORDS - 1])] = self.rng.nonzero();
        }
    }

    fn arguments(&mut self, number: u32) -> Vec<u32> {
        match number {
            INIT_ADDR_SPACE => vec![self.free_page(), self.free_page()],
            INIT_THREAD => self.init_thread(),
            INIT_TABLE => vec![self.space(BUILDING), self.free_page(), self.index()],
            ALLOC_SPARE => vec![self.live_space(), self.free_page()],
            MAP_SECURE => self.map_secure(),
            MAP_INSECURE => self.map_insecure(),
            FINALISE => vec![self.space(BUILDING)],
            ENTER => vec![self.thread(false), self.rng.word(), self.rng.word(), self.rng.word()],
            RESUME => vec![self.thread(true)],
            STOP => vec![self.live_space()],
            REMOVE => vec![self.removable()],
            GET_RANDOM | EXIT => vec![self.rng.word()],
            ATTEST => self.words(HASH_WORDS),
            VERIFY => self.verify(),
            SPARE_TABLE => vec![self.own(SPARE), self.index()],
            MAP_DATA => vec![self.own(SPARE), self.mapping(self.owner(), RIGHTS)],
            UNMAP_DATA => vec![self.own(DATA)],
            INTERRUPT => self.words(SAVED_WORDS),
            LOAD => vec![self.address()],
            STORE => vec![self.address(), self.rng.word()],
            _ => Vec::new(),
        }
    }

    fn words(&mut self, count: usize) -> Vec<u32> {
        (0..count).map(|_| self.rng.word()).collect()
    }

    /// A number that is no page.
    fn beyond(&mut self) -> u32 {
        let pages = self.view.machine.pages;
        let far = self.rng.word();
        self.rng.pick(&[pages, pages, pages + 1, pages + 255, far.max(pages), u32::MAX])
    }

    fn any_page(&mut self) -> u32 {
        self.rng.below(self.view.machine.pages)
    }

    /// One of these pages, mostly.
    fn mostly(&mut self, wanted: &[usize]) -> u32 {
        match self.rng.below(24) {
            0 => self.beyond(),
            1 => self.any_page(),
            _ => self.rng.pick_any(wanted).map_or_else(|| self.any_page(), |page| page as u32),
        }
    }

    fn free_page(&mut self) -> u32 {
        let free = self.view.pages(|view, page| view.kind(page) == FREE);
        self.mostly(&free)
    }

    /// A space in this state, mostly.
    fn space(&mut self, state: u32) -> u32 {
        let any = self.rng.once_in(16);
        let wanted = self.view.pages(|view, page| {
            view.kind(page) == SPACE && (any || view.owner_state(page) == state)
        });
        self.mostly(&wanted)
    }

    fn live_space(&mut self) -> u32 {
        let state = self.rng.pick(&[BUILDING, FINAL, FINAL]);
        self.space(state)
    }

    /// A thread of a final space, mostly, that is suspended or is not.
    fn thread(&mut self, suspended: bool) -> u32 {
        let any = self.rng.once_in(5);
        let wanted = self.view.pages(|view, page| {
            let right = view.owner_state(page) == FINAL && view.suspended(page) == suspended;
            view.kind(page) == THREAD && (any || right)
        });
        self.mostly(&wanted)
    }

    fn removable(&mut self) -> u32 {
        let choice = self.rng.below(8);
        let wanted = self.view.pages(|view, page| match (choice, view.kind(page)) {
            (_, FREE) => choice == 0,
            (0, _) => false,
            (1, kind) => kind == SPARE,
            (2, kind) => kind == SPACE,
            (3, _) => true,
            (4, kind) => kind == SPACE && view.owner_state(page) == STOPPED,
            (_, kind) => kind != SPACE && view.owner_state(page) == STOPPED,
        });
        self.mostly(&wanted)
    }

    /// The space that calls 32-42 act for, or any page where none runs.
    fn owner(&self) -> usize {
        self.view.running().map_or(0, |thread| self.view.owner(thread))
    }

    /// A page of this type of the running thread's owner, mostly.
    fn own(&mut self, kind: u32) -> u32 {
        let (owner, any) = (self.owner(), self.rng.once_in(10));
        let wanted = self
            .view
            .pages(|view, page| view.kind(page) == kind && (any || view.owner(page) == owner));
        self.mostly(&wanted)
    }

    /// A first-level index: few different ones, so that they meet.
    fn index(&mut self) -> u32 {
        let beyond = MOST_TABLES as u32;
        let any = self.rng.below(beyond);
        match self.rng.below(14) {
            0 => self.rng.pick(&[beyond, beyond + 1, 2 * beyond, 1 << 31, u32::MAX]),
            1 => any,
            _ => self.rng.pick(&[0, 0, 1, 2, 3, beyond - 1]),
        }
    }

    /// A mapping word for this page's space, within these rights, mostly.
    fn mapping(&mut self, space: usize, rights: u32) -> u32 {
        let tables = self.view.tables(space);
        let index = match self.rng.pick_any(&tables) {
            Some(table) if !self.rng.once_in(10) => self.view.record(table)[word::INDEX],
            _ => self.index() % MOST_TABLES as u32,
        };
        let slots = FRAME_WORDS as u32;
        let slot = match self.rng.below(3) {
            0 => self.rng.below(slots),
            _ => self.rng.pick(&[0, 1, 2, slots / 2, slots - 2, slots - 1]),
        };
        let word = Mapping::at(index as usize, slot as usize, READ | self.rng.word() & rights).0;
        match self.rng.below(16) {
            0 => word & !READ,
            1 => word | 1 << self.rng.pick(&[3, 4, 7, 11, 30, 31]),
            _ => word,
        }
    }

    /// An insecure frame, mostly.
    fn frame(&mut self) -> u32 {
        let machine = self.view.machine;
        for _ in 0..if self.rng.once_in(10) { 0 } else { 40 } {
            let frame = self.rng.below(machine.frames);
            if machine.is_insecure(frame) {
                return frame;
            }
        }
        let secure = machine.secure + self.rng.below(machine.pages);
        let monitor = machine.monitor + self.rng.below(machine.monitors);
        let any = self.rng.word();
        // The one with bit 20 would fall on a low frame once multiplied.
        let choices = [secure, monitor, machine.frames, 1 << 20 | any & 15, any, u32::MAX];
        self.rng.pick(&choices)
    }

    fn init_thread(&mut self) -> Vec<u32> {
        let space = self.space(BUILDING);
        vec![space, self.free_page(), self.entry(space as usize)]
    }

    /// A legal entry, mostly; some are mapped in this space.
    fn entry(&mut self, space: usize) -> u32 {
        match self.rng.below(12) {
            0..3 => illegal_entry(self.rng),
            3 => self.rng.word(),
            4 | 5 => self.mapped(space).unwrap_or(0),
            _ => legal_entry(self.rng),
        }
    }

    fn map_secure(&mut self) -> Vec<u32> {
        let space = self.space(BUILDING);
        let map = self.mapping(space as usize, WRITE | EXECUTE);
        vec![space, self.free_page(), map, self.frame()]
    }

    fn map_insecure(&mut self) -> Vec<u32> {
        let space = self.space(BUILDING);
        let rights = self.rng.pick(&[WRITE, WRITE, WRITE, WRITE, WRITE | EXECUTE]);
        let map = self.mapping(space as usize, rights);
        vec![space, map, self.frame()]
    }

    /// An attestation that holds, every other time with one word changed.
    fn verify(&mut self) -> Vec<u32> {
        let (data, measurement) = (self.words(HASH_WORDS), self.words(HASH_WORDS));
        let key = std::array::from_fn(|i| self.view.ledger[KEY_START + i]);
        let mac = sha::mac(&key, &measurement, &data);
        let mut words = [data, measurement, mac.to_vec()].concat();
        if self.rng.once_in(2) {
            let bit = 1 << self.rng.below(u32::BITS);
            let place = self.rng.below(words.len() as u32) as usize;
            words[place] ^= bit;
        }
        words
    }

    /// An address that is mapped for the running thread, mostly.
    fn address(&mut self) -> u32 {
        let word = self.mapped(self.owner()).unwrap_or_else(|| self.rng.word() & PAGE_ADDRESS)
            | (self.rng.below(FRAME_WORDS as u32) * WORD_BYTES);
        match self.rng.below(40) {
            0 => word | (1 + self.rng.below(WORD_BYTES - 1)),
            1 => word | ADDRESSES,
            2 => word | ADDRESSES << 1,
            3 => word ^ 1 << INDEX_SHIFT,
            4 => word ^ 1 << PAGE_SHIFT,
            5 => self.rng.word(),
            _ => word,
        }
    }

    /// The address of some slot of this space's tables that is not empty.
    fn mapped(&mut self, space: usize) -> Option<u32> {
        let mut tables = self.view.tables(space);
        tables.retain(|table| self.view.words(*table).iter().any(|word| *word != 0));
        let table = self.rng.pick_any(&tables)?;
        let slots = self.view.words(table).iter().enumerate().filter(|(_, word)| **word != 0);
        let slots: Vec<usize> = slots.map(|(slot, _)| slot).collect();
        let slot = self.rng.pick_any(&slots)?;
        let index = self.view.record(table)[word::INDEX];
        Some(Mapping::at(index as usize, slot, 0).0)
    }
}
