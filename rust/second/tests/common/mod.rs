//! A state of box A that shows every type of page, to be damaged.

use second::cases::BOX_A;
use second::layout::{record_of, RECORD_WORDS};
use second::shift::{record, start};
use second::{batch, why, Broken, DONE};

/// What box A lends.
#[derive(Clone)]
pub struct Lent {
    pub memory: Vec<u32>,
    pub ledger: Vec<u32>,
}

/// Space 0 is final: page 1 is its first-level table, page 2 its second-level
/// table with index 0, page 3 a data page at 4096 with rights 3, page 4 a
/// thread, page 5 spare. Page 6 is free. Space 7 is stopped and owns nothing.
const CALLS: &[&[u32]] = &[
    &[2, 0, 1],
    &[4, 0, 2, 0],
    &[6, 0, 3, 4099, 5],
    &[3, 0, 4, 4096],
    &[5, 0, 5],
    &[8, 0],
    &[2, 7, 6],
    &[11, 7],
    &[12, 6],
];

impl Lent {
    pub fn accepted() -> Lent {
        let (mut memory, mut ledger) = start();
        for call in CALLS {
            let mut answer = [0; RECORD_WORDS];
            assert_eq!(batch(BOX_A, &mut memory, &mut ledger, &record(call), &mut answer), DONE);
            assert_eq!(answer[0], DONE, "{call:?}");
        }
        Lent { memory, ledger }
    }

    pub fn record(&mut self, page: usize) -> &mut [u32] {
        &mut self.ledger[record_of(page)]
    }

    pub fn frame(&mut self, page: usize) -> &mut [u32] {
        &mut self.memory[BOX_A.words_of(page)]
    }

    pub fn why(&self) -> Option<Broken> {
        why(BOX_A, &self.memory, &self.ledger)
    }
}
