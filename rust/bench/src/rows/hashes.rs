//! SHA-256 of one page.

use super::Row;
use crate::meter::{Meter, Side};
use crate::plain;
use crate::plain::sha::Hash;
use second::layout::FRAME_WORDS;
use std::hint::black_box;

struct Hashing {
    hash: Hash,
    page: Vec<u32>,
    absorb: fn(Hash, &[u32]) -> Hash,
}

impl Side for Hashing {
    fn run(&mut self) {
        self.hash = black_box((self.absorb)(self.hash, black_box(&self.page)));
    }
}

fn hashing(absorb: fn(Hash, &[u32]) -> Hash) -> Hashing {
    let page = (0..FRAME_WORDS as u32).map(|word| word.wrapping_mul(0x9e37_79b9)).collect();
    Hashing { hash: hash::START, page, absorb }
}

fn ours(hash: Hash, words: &[u32]) -> Hash {
    hash::absorb(hash, words).expect("whole blocks")
}

fn plainly(mut hash: Hash, words: &[u32]) -> Hash {
    plain::sha::absorb(&mut hash, words);
    hash
}

/// Beside a plain loop, and beside the second program's.
pub fn rows(meter: &Meter) -> Vec<Row> {
    let (mut our, mut plain) = (hashing(ours), hashing(plainly));
    let mut second = hashing(second::sha::add);
    let costs = meter.measure(&mut [&mut our, &mut plain, &mut second]);
    let row = |name: &str, plain| {
        let name = name.into();
        Row { name, ours: costs[0], plain, folded: None, paper: "" }
    };
    vec![row("SHA-256 of a page", costs[1]), row("  beside the second program", costs[2])]
}
