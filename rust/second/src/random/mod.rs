//! Random machines, random shifts biased to reach every answer, and damage.
//! Everything is drawn from one seed, so that a run can be had again.

mod coverage;
mod damage;
mod draw;
mod entries;
mod view;

pub use coverage::{allowed_pairs, Coverage};
pub use damage::{damage, kinds, Kind, Verdict};
pub use draw::next_call;
pub use view::View;

use crate::layout::{FRAME_WORDS, HASH_WORDS, MOST_FRAMES, MOST_PAGES};
use crate::machine::Machine;
use crate::service::{boot, DONE};

/// A xorshift generator with a multiplied output.
#[derive(Clone, Debug)]
pub struct Rng(u64);

impl Rng {
    /// A generator from any seed; zero would stand still.
    pub fn new(seed: u64) -> Rng {
        Rng(seed.wrapping_mul(0x9e37_79b9_7f4a_7c15) | 1)
    }

    /// 32 random bits.
    pub fn word(&mut self) -> u32 {
        self.0 ^= self.0 >> 12;
        self.0 ^= self.0 << 25;
        self.0 ^= self.0 >> 27;
        (self.0.wrapping_mul(0x2545_f491_4f6c_dd1d) >> 32) as u32
    }

    /// A number below `limit`, which is not zero.
    pub fn below(&mut self, limit: u32) -> u32 {
        ((u64::from(self.word()) * u64::from(limit)) >> 32) as u32
    }

    /// True once in `times`.
    pub fn once_in(&mut self, times: u32) -> bool {
        self.below(times) == 0
    }

    /// One of these, of which there is at least one.
    pub fn pick<T: Copy>(&mut self, choices: &[T]) -> T {
        choices[self.below(choices.len() as u32) as usize]
    }

    /// One of these, if there is any.
    pub fn pick_any<T: Copy>(&mut self, choices: &[T]) -> Option<T> {
        (!choices.is_empty()).then(|| self.pick(choices))
    }

    /// A word that is not zero.
    pub fn nonzero(&mut self) -> u32 {
        match self.below(3) {
            0 => 1 << self.below(32),
            1 => 1 + self.below(9),
            _ => self.word() | 1,
        }
    }
}

fn gap(rng: &mut Rng) -> u32 {
    let few = rng.below(12);
    rng.pick(&[0, 0, 1, 2, 3, few])
}

/// The monitor's frames and the secure ones in either order, with gaps that
/// may be empty: such a box may have no insecure frame at all.
fn shape(rng: &mut Rng, pages: u32) -> Machine {
    let monitors = rng.pick(&[1, 1, 2, 3, 7]);
    let (before, between, after) = (gap(rng), gap(rng), gap(rng));
    let frames = before + between + after + pages + monitors;
    if rng.once_in(2) {
        let monitor = before + pages + between;
        Machine { frames, secure: before, pages, monitor, monitors }
    } else {
        let secure = before + monitors + between;
        Machine { frames, secure, pages, monitor: before, monitors }
    }
}

/// A machine whose numbers fit; most are small, for quick and crowded shifts.
pub fn random_machine(rng: &mut Rng) -> Machine {
    let few = 1 + rng.below(20);
    let sizes = [few, few, few, 6, 8, 8, 10, 14, 16, 31, 32, 33, 64];
    let odd = [1, 2, 100, 255, 256, 257];
    let most = [MOST_PAGES - 31, MOST_PAGES - 1, MOST_PAGES];
    let pages = match rng.below(96) {
        0 => rng.pick(&most),
        1..5 => rng.pick(&odd),
        _ => rng.pick(&sizes),
    };
    let mut machine = shape(rng, pages);
    if rng.once_in(256) {
        machine.frames = MOST_FRAMES;
    }
    machine
}

const fn machine(frames: u32, secure: u32, pages: u32, monitor: u32, monitors: u32) -> Machine {
    Machine { frames, secure, pages, monitor, monitors }
}

/// Machines at the limits of the rules, all fitting, and at the ends of words
/// of the free map.
pub fn limit_machines() -> Vec<Machine> {
    vec![
        machine(MOST_PAGES + 2, 2, MOST_PAGES, 0, 2),
        machine(260, 2, 257, 0, 1),
        machine(37, 1, 33, 35, 1),
        machine(MOST_PAGES + 1, 1, MOST_PAGES - 1, 0, 1),
        machine(258, 0, 256, 256, 1),
        machine(2, 0, 1, 1, 1),
        machine(2, 1, 1, 0, 1),
        machine(3, 1, 1, 0, 1),
        machine(4, 1, 2, 3, 1),
        machine(16, 6, 8, 0, 2),
        machine(12, 0, 8, 10, 2),
        machine(9, 0, 8, 8, 1),
        machine(MOST_PAGES + 44, 0, MOST_PAGES, MOST_PAGES, 44),
    ]
}

/// Machines of as many frames as can be: 64 MB, so that little can be done on
/// them.
pub fn largest_machines() -> Vec<Machine> {
    let rest = MOST_FRAMES - MOST_PAGES;
    vec![
        machine(MOST_FRAMES, 17, 32, MOST_FRAMES - 1, 1),
        machine(MOST_FRAMES, rest, MOST_PAGES, 0, rest - 1),
    ]
}

/// Machines whose numbers do not fit, each by one rule or by a sum that
/// would wrap in 32 bits.
pub fn unfit_machines() -> Vec<Machine> {
    let fit = Machine { frames: 16, secure: 6, pages: 8, monitor: 0, monitors: 2 };
    let most = u32::MAX;
    let mut list = vec![Machine { frames: 1, secure: 0, pages: 1, monitor: 0, monitors: 1 }];
    list.extend([0, 1, 2, 13, MOST_FRAMES + 1, most].map(|frames| Machine { frames, ..fit }));
    let pages = [0, 11, MOST_PAGES + 1, most, most - 5, most - 4];
    list.extend(pages.map(|pages| Machine { pages, ..fit }));
    list.extend([0, 1, 9, 16, most, most - 7, most - 6].map(|secure| Machine { secure, ..fit }));
    list.extend([0, 7, 15, 17, most, most - 1].map(|monitors| Machine { monitors, ..fit }));
    list.extend([5, 6, 13, 15, 16, most, most - 1].map(|monitor| Machine { monitor, ..fit }));
    list.extend([
        machine(MOST_FRAMES + 1, 0, MOST_PAGES, MOST_PAGES, 1),
        machine(MOST_PAGES + 45, 0, MOST_PAGES + 1, MOST_PAGES + 44, 1),
        machine(256, 160, 97, 0, 1),
        machine(256, 0, 1, 1, 256),
    ]);
    list
}

/// Memory of random words and a fresh ledger with a random key, booted.
pub fn fresh(rng: &mut Rng, machine: Machine) -> (Vec<u32>, Vec<u32>) {
    let mut memory: Vec<u32> = (0..machine.memory_words()).map(|_| rng.word()).collect();
    let mut ledger: Vec<u32> = (0..machine.ledger_words()).map(|_| rng.word()).collect();
    let key: Vec<u32> = (0..HASH_WORDS).map(|_| rng.word()).collect();
    assert_eq!(boot(machine, &key, &mut memory, &mut ledger), DONE);
    (memory, ledger)
}

/// Zeros with a few small words in the ledger and a few random ones in memory:
/// hardly ever accepted.
pub fn scattered(rng: &mut Rng, machine: Machine) -> (Vec<u32>, Vec<u32>) {
    let (mut memory, mut ledger) =
        (vec![0; machine.memory_words()], vec![0; machine.ledger_words()]);
    for _ in 0..rng.below(40) {
        let place = rng.below(ledger.len() as u32) as usize;
        ledger[place] = rng.below(8);
    }
    for _ in 0..rng.below(4) {
        let place = rng.below(memory.len() as u32) as usize;
        memory[place] = rng.word();
    }
    (memory, ledger)
}

/// An outsider at work: writes some words of insecure frames.
pub fn outsider(rng: &mut Rng, machine: Machine, memory: &mut [u32]) {
    for _ in 0..rng.below(4) {
        let frame = rng.below(machine.frames);
        if !machine.is_insecure(frame) {
            continue;
        }
        let words = &mut memory[frame as usize * FRAME_WORDS..][..FRAME_WORDS];
        if rng.once_in(8) {
            let word = rng.word();
            words.fill(word);
        } else {
            words[rng.below(FRAME_WORDS as u32) as usize] = rng.word();
        }
    }
}
