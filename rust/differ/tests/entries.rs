//! Entries that can't be run: InitThread answers 23 after its other checks and
//! moves nothing, and acceptance says no to a thread that has one, by the proved
//! library and by the second program.

use differ::services::{Proved, Second, Services};
use second::calls::Code;
use second::cases::{BOX_A, KEY};
use second::layout::{record_of, RECORD_WORDS};
use second::shift::record;
use second::{DONE, UNFIT};

/// By whom: both programs.
const SIDES: [&dyn Services; 2] = [&Proved, &Second];

/// No multiples of 4, and not below 2^30.
const BAD: [u32; 9] =
    [4097, 4098, 4099, 1, 1073741823, 1073741824, 1073741828, 2147483648, 4294967292];

/// The lowest and the highest legal entry, and some between.
const LEGAL: [u32; 5] = [0, 4, 4096, 536870912, 1073741820];

/// Box A.
#[derive(Clone)]
struct Bench<'s> {
    by: &'s dyn Services,
    memory: Vec<u32>,
    ledger: Vec<u32>,
}

impl<'s> Bench<'s> {
    /// Booted on words that are not zero, then these calls, none refused.
    fn after(by: &'s dyn Services, calls: &[&[u32]]) -> Bench<'s> {
        let mut memory: Vec<u32> = (0..BOX_A.memory_words() as u32).collect();
        let mut ledger = vec![7; BOX_A.ledger_words()];
        assert_eq!(by.boot(BOX_A, &KEY, &mut memory, &mut ledger), DONE);
        let mut bench = Bench { by, memory, ledger };
        for call in calls {
            let code = bench.call(call)[0];
            assert!([DONE, Code::Interrupted as u32].contains(&code), "{call:?}");
        }
        bench
    }

    /// Space 0 with thread 4, in a state to which these calls lead.
    fn with_thread(by: &'s dyn Services, calls: &[&[u32]]) -> Bench<'s> {
        Bench::after(by, &[&[&[2, 0, 1][..], &[3, 0, 4, 4096]], calls].concat())
    }

    /// The answer record of a call in a batch of its own.
    fn call(&mut self, call: &[u32]) -> Vec<u32> {
        let mut answer = vec![9; RECORD_WORDS];
        assert_eq!(self.batch(&record(call), &mut answer), DONE, "{call:?}");
        answer
    }

    fn batch(&mut self, calls: &[u32], answers: &mut [u32]) -> u32 {
        self.by.batch(BOX_A, &mut self.memory, &mut self.ledger, calls, answers)
    }

    /// The call is refused with this code, and every word stays.
    fn refuses(&mut self, call: &[u32], code: u32) {
        let before = self.clone();
        assert_eq!(self.call(call)[..], record(&[code]), "{call:?}");
        assert!(self.memory == before.memory && self.ledger == before.ledger, "{call:?}");
    }

    fn accepted(&self) -> bool {
        self.by.accepts(BOX_A, &self.memory, &self.ledger)
    }

    fn record(&mut self, page: usize) -> &mut [u32] {
        &mut self.ledger[record_of(page)]
    }
}

/// Each is refused, and then the same page is taken.
#[test]
fn refused() {
    for by in SIDES {
        let mut bench = Bench::after(by, &[&[2, 0, 1]]);
        for entry in BAD {
            bench.refuses(&[3, 0, 4, entry], 23);
        }
        // owned 1, blocks 0
        assert_eq!(bench.record(0)[4..6], [1, 0]);
        assert_eq!(bench.call(&[13])[..3], [0, 6, 2]);
        for entry in LEGAL {
            let mut bench = bench.clone();
            assert_eq!(bench.call(&[3, 0, 4, entry])[..], record(&[0]));
            assert_eq!(bench.record(0)[4..6], [2, 1]);
            assert_eq!(bench.record(4)[..], record(&[2, 0, entry]));
            assert!(bench.accepted());
        }
    }
}

/// The record, the time, the space and the page are asked first.
#[test]
fn asked_last() {
    for by in SIDES {
        let mut bench = Bench::after(by, &[&[2, 0, 1]]);
        for entry in BAD {
            bench.refuses(&[3, 0, 4, entry, 1], 19);
            bench.refuses(&[3, 8, 4, entry], 1);
            bench.refuses(&[3, 1, 4, entry], 3);
            bench.refuses(&[3, 5, 4, entry], 3);
            bench.refuses(&[3, 0, 8, entry], 1);
            bench.refuses(&[3, 0, 1, entry], 2);
            bench.refuses(&[3, 0, 0, entry], 2);
        }
        let mut done = Bench::with_thread(by, &[&[8, 0]]);
        BAD.iter().for_each(|entry| done.refuses(&[3, 0, 5, *entry], 4));
        assert_eq!(done.call(&[9, 4])[0], DONE);
        BAD.iter().for_each(|entry| done.refuses(&[3, 0, 5, *entry], 15));
        let mut stopped = Bench::with_thread(by, &[&[11, 0]]);
        BAD.iter().for_each(|entry| stopped.refuses(&[3, 0, 5, *entry], 4));
    }
}

/// What was refused is in no measurement: the build goes on as if never asked.
#[test]
fn not_measured() {
    for by in SIDES {
        let straight = Bench::with_thread(by, &[&[8, 0]]);
        let mut bench = Bench::after(by, &[&[2, 0, 1]]);
        BAD.iter().for_each(|entry| bench.refuses(&[3, 0, 4, *entry], 23));
        for call in [&[3, 0, 4, 4096][..], &[8, 0]] {
            assert_eq!(bench.call(call)[0], DONE);
        }
        assert!(bench.memory == straight.memory && bench.ledger == straight.ledger);
    }
}

#[test]
fn entered_where_it_says() {
    for by in SIDES {
        for entry in LEGAL {
            let mut bench = Bench::after(by, &[&[2, 0, 1], &[3, 0, 4, entry], &[8, 0]]);
            let mut runs = record(&[0, 7, 8, 9]);
            runs[16] = entry; // r15
            assert_eq!(bench.call(&[9, 4, 7, 8, 9])[..], runs);
        }
    }
}

/// What leads a thread to each state that one can be in.
const STATES: [(&str, &[&[u32]]); 6] = [
    ("of a building space", &[]),
    ("of a final space", &[&[8, 0]]),
    ("running", &[&[8, 0], &[9, 4]]),
    ("suspended", &[&[8, 0], &[9, 4], INTERRUPT]),
    ("of a stopped space", &[&[11, 0]]),
    ("suspended, of a stopped space", &[&[8, 0], &[9, 4], INTERRUPT, &[11, 0]]),
];

const INTERRUPT: &[u32] = &[39, 1, 2, 3, 4, 5, 6, 7, 8, 9, 10, 11, 12, 13, 14, 15, 16, 4026531840];

/// A batch is refused, and every word of its lists stays; an empty one too.
fn batch_refused(bench: &Bench, name: &str) {
    for calls in [&[][..], &record(&[1]), &record(&[11, 0]), &record(&[12, 4])] {
        let (mut after, mut answers) = (bench.clone(), vec![9; calls.len()]);
        assert_eq!(after.batch(calls, &mut answers), UNFIT, "{name}");
        assert!(answers.iter().all(|word| *word == 9), "{name}");
        assert!(after.memory == bench.memory && after.ledger == bench.ledger, "{name}");
    }
}

#[test]
fn not_accepted() {
    for by in SIDES {
        for (name, calls) in STATES {
            let mut bench = Bench::with_thread(by, calls);
            assert!(bench.accepted(), "{name}");
            for entry in LEGAL {
                bench.record(4)[2] = entry;
                assert!(bench.accepted(), "{name}, {entry}");
            }
            for entry in BAD {
                bench.record(4)[2] = entry;
                assert!(!bench.accepted(), "{name}, {entry}");
                batch_refused(&bench, name);
            }
        }
    }
}

/// Every thread is asked: here only the last of several has such an entry.
#[test]
fn every_thread_is_asked() {
    for by in SIDES {
        let threads: [&[u32]; 6] = [
            &[3, 0, 2, 0],
            &[3, 0, 3, 4],
            &[3, 0, 4, 8],
            &[3, 0, 5, 12],
            &[3, 0, 6, 16],
            &[3, 0, 7, 20],
        ];
        let whole = Bench::after(by, &[&[&[2, 0, 1][..]], &threads[..]].concat());
        for page in 2..8 {
            for bit in [0, 1, 30, 31] {
                let mut bench = whole.clone();
                bench.record(page)[2] ^= 1 << bit;
                assert!(!bench.accepted(), "page {page}, bit {bit}");
            }
            for bit in 2..30 {
                let mut bench = whole.clone();
                bench.record(page)[2] ^= 1 << bit;
                assert!(bench.accepted(), "page {page}, bit {bit}");
            }
        }
    }
}
