//! Two builds that differ in one right have two measurements, by the proved
//! library and by the second program; each is the SHA-256 of what was built.

use differ::services::{Proved, Second, Services};
use second::cases::{BOX_A, KEY};
use second::layout::{record_of, FRAME_WORDS, HASH_WORDS, RECORD_WORDS};
use second::sha::{bytes, digest, Hash};
use second::shift::record;
use second::DONE;
use std::collections::BTreeSet;

/// By whom: both programs.
const SIDES: [&dyn Services; 2] = [&Proved, &Second];

/// The page at 4096 with each of the rights: read alone, or write or execute or
/// both with it.
const MAPS: [u32; 4] = [4097, 4099, 4101, 4103];

/// The measurements with maps 4097 and 4099, and that of no page and no thread.
const READABLE: Hash = [
    0xf02f5b43, 0x8c0cf5ef, 0x323fade7, 0x624dbe06, 0x6aa8cd52, 0x2edd278e, 0x82809344, 0xfd73f167,
];
const WRITABLE: Hash = [
    0xc73f67aa, 0x1d66d8d9, 0xbc65a18f, 0xcdcb4ccb, 0xa61a4a02, 0x9a0324d7, 0x8515f404, 0xec46f01d,
];
const NOTHING: Hash = [
    0xe3b0c442, 0x98fc1c14, 0x9afbf4c8, 0x996fb924, 0x27ae41e4, 0x649b934c, 0xa495991b, 0x7852b855,
];

/// Box A.
struct Bench<'s> {
    by: &'s dyn Services,
    memory: Vec<u32>,
    ledger: Vec<u32>,
}

impl<'s> Bench<'s> {
    /// Booted on a zero memory, then these calls.
    fn after(by: &'s dyn Services, calls: &[&[u32]]) -> Bench<'s> {
        let (mut memory, mut ledger) =
            (vec![0; BOX_A.memory_words()], vec![0; BOX_A.ledger_words()]);
        assert_eq!(by.boot(BOX_A, &KEY, &mut memory, &mut ledger), DONE);
        let mut bench = Bench { by, memory, ledger };
        for call in calls {
            bench.call(call);
        }
        bench
    }

    /// Space 0 with a page, copied from frame 5, and a thread, final.
    fn with_page(by: &'s dyn Services, map: u32) -> Bench<'s> {
        let build = [&[2, 0, 1][..], &[4, 0, 2, 0], &[6, 0, 3, map, 5], &[3, 0, 4, 4096], &[8, 0]];
        Bench::after(by, &build)
    }

    /// The values of a call that is done.
    fn call(&mut self, call: &[u32]) -> Vec<u32> {
        let (memory, ledger) = (&mut self.memory, &mut self.ledger);
        let mut answer = [0; RECORD_WORDS];
        let code = self.by.batch(BOX_A, memory, ledger, &record(call), &mut answer);
        assert_eq!((code, answer[0]), (DONE, DONE), "{call:?}");
        answer[1..].to_vec()
    }

    fn measurement(&self) -> Hash {
        self.ledger[record_of(0)][6..14].try_into().expect("eight words")
    }
}

/// The same by SHA-256 of the message written out.
fn written_out(map: u32) -> Hash {
    let head = |kind, word| [&[kind, word][..], &[0; 14]].concat();
    digest(&bytes(&[head(2, map), vec![0; FRAME_WORDS], head(1, 4096)].concat()))
}

#[test]
fn each_right_counts() {
    for by in SIDES {
        let measured = MAPS.map(|map| Bench::with_page(by, map).measurement());
        assert_eq!(measured, MAPS.map(written_out));
        assert_eq!(BTreeSet::from(measured).len(), MAPS.len());
        assert_eq!(measured[..2], [READABLE, WRITABLE]);
        let nothing = Bench::after(by, &[&[2, 0, 1], &[4, 0, 2, 0], &[8, 0]]).measurement();
        assert_eq!((nothing, digest(&[])), (NOTHING, NOTHING));
    }
}

/// The two builds attest one data by two MACs, and a MAC is right for the
/// measurement of its own build alone.
#[test]
fn a_mac_is_of_one_build() {
    let data = [42; HASH_WORDS];
    for by in SIDES {
        let [mut one, mut other] = [4097, 4099].map(|map| Bench::with_page(by, map));
        let [mac, others] = [&mut one, &mut other].map(|bench| {
            bench.call(&[9, 4]);
            bench.call(&[&[33][..], &data].concat())[..HASH_WORDS].to_vec()
        });
        assert_ne!(mac, others);
        for (measurement, right) in [(one.measurement(), 1), (other.measurement(), 0)] {
            let verify = [&[34][..], &data, &measurement, &mac].concat();
            assert_eq!((one.call(&verify)[0], other.call(&verify)[0]), (right, right));
        }
    }
}
