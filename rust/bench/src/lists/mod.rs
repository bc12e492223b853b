//! The lists of calls that are measured.

pub mod dearest;

use crate::boxes::{
    enclave, full_enclave, records, small, writable, Lent, DATA_PAGE, FULL_DATA_PAGE,
};
use second::calls::number::*;
use second::cases::KEY;
use second::layout::{FRAME_WORDS, HASH_WORDS, MOST_CALLS, MOST_PAGES, RECORD_WORDS};
use second::mapping::WORD_BYTES;

/// A list on a box: one call, or a pair of calls, again and again.
pub struct Work {
    /// The call or the pair.
    pub name: &'static str,
    /// What the Komodo paper measured for the same, in cycles.
    pub paper: &'static str,
    /// The box.
    pub lent: Lent,
    /// The records.
    pub calls: Vec<u32>,
    /// How often the list has the call or the pair.
    pub times: usize,
}

impl Work {
    /// The call, or each call of the pair, once and in a list of its own.
    pub fn alone(&self) -> Vec<&[u32]> {
        self.calls[..self.calls.len() / self.times].chunks(RECORD_WORDS).collect()
    }

    /// As many records as a batch has, of one call or of two in turns.
    fn of(
        (name, paper): (&'static str, &'static str),
        lent: Lent,
        call: impl Fn(u32) -> Vec<Vec<u32>>,
    ) -> Work {
        let each = call(0).len();
        let rows: Vec<Vec<u32>> = (0..(MOST_CALLS / each) as u32).flat_map(call).collect();
        Work { name, paper, lent, calls: records(&rows), times: rows.len() / each }
    }
}

fn get_phys_pages(name: &'static str, lent: Lent) -> Work {
    Work::of((name, "123"), lent, |_| vec![vec![GET_PHYS_PAGES]])
}

/// A word of the page at this address.
fn address(page: u32, turn: u32) -> u32 {
    page + WORD_BYTES * (turn * 37 % FRAME_WORDS as u32)
}

fn load(name: &'static str, lent: Lent, page: u32) -> Work {
    Work::of((name, ""), lent, |turn| vec![vec![LOAD, address(page, turn)]])
}

/// MapSecure uses its pages up, so its box is large.
fn map_secure() -> Work {
    let rows = [vec![INIT_ADDR_SPACE, 0, 1], vec![INIT_TABLE, 0, 2, 0]];
    let lent = Lent::after(small(MOST_PAGES), &rows);
    Work::of(("MapSecure", ""), lent, |turn| {
        vec![vec![MAP_SECURE, 0, 3 + turn, writable(0, turn), 2 + turn % 4]]
    })
}

fn verify(turn: u32) -> Vec<u32> {
    let (data, measurement) = ([turn; HASH_WORDS], [7; HASH_WORDS]);
    let mac = second::sha::mac(&KEY, &measurement, &data);
    [&[VERIFY][..], &data, &measurement, &mac].concat()
}

/// The box of most lists.
const PAGES: u32 = 8;

/// The lists that stand beside plain Rust's.
pub fn works() -> Vec<Work> {
    let (idle, running) = (enclave(PAGES, false), enclave(PAGES, true));
    let attest = |turn| vec![[&[ATTEST][..], &[turn; HASH_WORDS]].concat()];
    vec![
        get_phys_pages("GetPhysPages", idle.clone()),
        load("Load", running.clone(), DATA_PAGE),
        Work::of(("Store", ""), running.clone(), |turn| {
            vec![vec![STORE, address(DATA_PAGE, turn), turn]]
        }),
        Work::of(("Enter + Exit", "738"), idle.clone(), |_| {
            vec![vec![ENTER, 4, 7, 8, 9], vec![EXIT, 5]]
        }),
        Work::of(("AllocSpare + Remove", "217"), idle, |_| {
            vec![vec![ALLOC_SPARE, 0, 6], vec![REMOVE, 6]]
        }),
        Work::of(("MapData + UnmapData", "5826"), running.clone(), |_| {
            vec![vec![MAP_DATA, 5, writable(0, 2)], vec![UNMAP_DATA, 5]]
        }),
        map_secure(),
        Work::of(("Attest", "12411"), running.clone(), attest),
        Work::of(("Verify", "13373"), running, |turn| vec![verify(turn)]),
    ]
}

/// Two cheap calls on larger boxes, the last with every page in use.
pub fn on_larger_boxes() -> Vec<Work> {
    let sizes = [64, 256, MOST_PAGES];
    let idle = sizes.map(|pages| get_phys_pages("GetPhysPages", enclave(pages, false)));
    let running = sizes.map(|pages| load("Load", enclave(pages, true), DATA_PAGE));
    let full = [
        get_phys_pages("GetPhysPages, full", full_enclave(MOST_PAGES, false)),
        load("Load, full", full_enclave(MOST_PAGES, true), FULL_DATA_PAGE),
    ];
    idle.into_iter().chain(running).chain(full).collect()
}
