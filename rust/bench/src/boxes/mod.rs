//! The boxes that are measured.

pub mod dearest;

use second::calls::number::*;
use second::cases::KEY;
use second::layout::{record_of, word, FRAME_WORDS, MOST_CALLS, RECORD_WORDS};
use second::mapping::{Mapping, READ, WORD_BYTES, WRITE};
use second::shift::record;
use second::{Machine, DONE};

/// The words of a box.
#[derive(Clone, PartialEq)]
pub struct Lent {
    /// Its numbers.
    pub machine: Machine,
    /// The words of its frames.
    pub memory: Vec<u32>,
    /// The words of its ledger.
    pub ledger: Vec<u32>,
}

impl Lent {
    /// A box on which these calls were done after Boot.
    pub fn after(machine: Machine, rows: &[Vec<u32>]) -> Lent {
        let mut memory =
            (0..machine.memory_words() as u32).map(|word| word ^ 0x5bd1).collect::<Vec<_>>();
        let mut ledger = vec![0; machine.ledger_words()];
        assert_eq!(second::boot(machine, &KEY, &mut memory, &mut ledger), DONE);
        for rows in rows.chunks(MOST_CALLS) {
            let (calls, mut answers) = (records(rows), vec![0; RECORD_WORDS * rows.len()]);
            let code = second::batch(machine, &mut memory, &mut ledger, &calls, &mut answers);
            assert!(code == DONE && all_done(&answers), "each call is done");
        }
        Lent { machine, memory, ledger }
    }

    /// How many pages are of this type.
    pub fn count(&self, kind: u32) -> usize {
        let pages = 0..self.machine.page_count();
        pages.filter(|page| self.ledger[record_of(*page)][word::TYPE] == kind).count()
    }

    /// The words of a secure page.
    pub fn page(&mut self, page: usize) -> &mut [u32] {
        &mut self.memory[self.machine.words_of(page)]
    }
}

/// The records of some rows of calls.
pub fn records(rows: &[Vec<u32>]) -> Vec<u32> {
    rows.iter().flat_map(|row| record(row)).collect()
}

/// Whether these are answers to calls that were all done.
pub fn all_done(answers: &[u32]) -> bool {
    answers.chunks(RECORD_WORDS).all(|answer| answer[0] == DONE)
}

/// The numbers of a box with so many secure pages and few other frames.
pub fn small(pages: u32) -> Machine {
    Machine { frames: pages + 8, secure: 6, pages, monitor: 0, monitors: 2 }
}

/// The mapping word of a slot of the table with this index.
pub fn writable(index: u32, slot: u32) -> u32 {
    Mapping::at(index as usize, slot as usize, READ | WRITE).0
}

/// One space that owns every page, of all types in turn.
pub fn full(pages: u32) -> Lent {
    Lent::after(small(pages), &filling(pages))
}

/// The address of the first data page of a full box.
pub const FULL_DATA_PAGE: u32 = 3 * DATA_PAGE;

/// The same, final; with its first thread running, if that is wanted.
pub fn full_enclave(pages: u32, running: bool) -> Lent {
    Lent::after(small(pages), &[filling(pages), finished(5, running)].concat())
}

/// The calls that fill a box.
fn filling(pages: u32) -> Vec<Vec<u32>> {
    let index = |page: u32| (page - 2) / 6;
    let page = |page: u32| match page % 6 {
        2 => vec![INIT_TABLE, 0, page, index(page)],
        5 => vec![INIT_THREAD, 0, page, 4096],
        0 => vec![ALLOC_SPARE, 0, page],
        _ => vec![MAP_SECURE, 0, page, writable(index(page), page), 5],
    };
    // Tables come before what they map.
    let tables = (2..pages).filter(|page| page % 6 == 2);
    let others = (2..pages).filter(|page| page % 6 != 2);
    let mut rows = vec![vec![INIT_ADDR_SPACE, 0, 1]];
    rows.extend(tables.chain(others).map(page));
    rows
}

/// Space 0 is final, and its thread on this page runs, if that is wanted.
fn finished(thread: u32, running: bool) -> Vec<Vec<u32>> {
    let mut rows = vec![vec![FINALISE, 0]];
    if running {
        rows.push(vec![ENTER, thread, 7, 8, 9]);
    }
    rows
}

/// The address of slot 1 of the first table.
pub const DATA_PAGE: u32 = FRAME_WORDS as u32 * WORD_BYTES;

/// A space with a table, a data page at [`DATA_PAGE`], a thread on page 4, a
/// spare page 5, all other pages free; with its thread running, if that is
/// wanted.
pub fn enclave(pages: u32, running: bool) -> Lent {
    let rows = vec![
        vec![INIT_ADDR_SPACE, 0, 1],
        vec![INIT_TABLE, 0, 2, 0],
        vec![MAP_SECURE, 0, 3, writable(0, 1), 5],
        vec![INIT_THREAD, 0, 4, DATA_PAGE],
        vec![ALLOC_SPARE, 0, 5],
    ];
    Lent::after(small(pages), &[rows, finished(4, running)].concat())
}
