//! The right library fails an access exactly where the second program names a
//! reason, and every reason is met.

use differ::services::{Proved, Second, Services};
use differ::tally::Tally;
use differ::{accesses, round};
use second::cases::{BOX_A, KEY};
use second::layout::{RECORD_WORDS, RUNNING};
use second::shift::record;
use second::{reason, Reason, DONE};

/// By whom: both programs.
const SIDES: [&dyn Services; 2] = [&Proved, &Second];

/// Enough rounds to meet every reason, from a seed that the gate does not have.
#[test]
fn every_reason_is_met() {
    let mut tally = Tally::default();
    assert_eq!(tally.accesses.missing().len(), 5 + 6);
    for seed in 0..24 {
        assert_eq!(round(&Proved, seed, &mut tally), Ok(()));
    }
    assert_eq!(tally.accesses.missing(), [""; 0]);
    assert_eq!(tally.accesses.count(false, Some(Reason::NoWrite)), 0);
}

#[test]
fn what_is_missing_is_said() {
    let met = accesses::Met::default();
    let missing = met.missing();
    assert_eq!(missing[0], "a load: done");
    assert_eq!(missing[10], "a store: no write right");
    let line = "loads: 0 done, 0 misaligned, 0 too high, 0 no table, 0 empty slot; \
                stores: 0 done, 0 misaligned, 0 too high, 0 no table, 0 empty slot, \
                0 no write right";
    assert_eq!(met.to_string(), line);
    assert!(Tally::default().to_string().contains(line));
    assert!(missing.iter().all(|it| Tally::default().missing().contains(it)));
}

/// Box A after row 5 but with map 4097, read only: a thread runs.
fn running(by: &dyn Services) -> (Vec<u32>, Vec<u32>) {
    let mut memory: Vec<u32> = (0..BOX_A.memory_words() as u32).collect();
    let mut ledger = vec![7; BOX_A.ledger_words()];
    assert_eq!(by.boot(BOX_A, &KEY, &mut memory, &mut ledger), DONE);
    let build: [&[u32]; 6] =
        [&[2, 0, 1], &[4, 0, 2, 0], &[6, 0, 3, 4097, 5], &[3, 0, 4, 4096], &[8, 0], &[9, 4]];
    for call in build {
        let mut answer = [0; RECORD_WORDS];
        by.batch(BOX_A, &mut memory, &mut ledger, &record(call), &mut answer);
        assert_eq!(answer[0], DONE, "{call:?}");
    }
    (memory, ledger)
}

/// Cases worked out by hand: an access, and the number of its reason.
#[test]
fn on_box_a() {
    let loads = [(4098, 1), (4194304, 3), (1073741825, 1), (1073741824, 2), (8193, 1), (8192, 4)];
    let stores = [(4097, 1), (4096, 5), (8192, 4), (4194304, 3), (1073745920, 2)];
    let loads = loads.map(|(va, number)| (vec![41, va], number));
    let stores = stores.map(|(va, number)| (vec![42, va, 77], number));
    for by in SIDES {
        let (memory, ledger) = running(by);
        for (call, number) in loads.iter().chain(&stores) {
            let named = reason(BOX_A, &memory, &ledger, call[1], call[0] == 42);
            assert_eq!(named.map(Reason::number), Some(*number), "{call:?}");
            let (mut words, mut records) = (memory.clone(), ledger.clone());
            let mut answer = [9; RECORD_WORDS];
            by.batch(BOX_A, &mut words, &mut records, &record(call), &mut answer);
            assert_eq!(answer, record(&[33]), "{call:?}");
            assert_eq!((words == memory, records[RUNNING]), (true, 0));
            assert_eq!(records[1..], ledger[1..]);
        }
    }
}
