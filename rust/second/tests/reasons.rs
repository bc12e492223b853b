//! Why an access fails: the first reason of five, and 33 alone to be seen.

#[allow(dead_code)]
mod common;

use common::Lent;
use second::cases::BOX_A;
use second::layout::{Record, RECORD_WORDS, RUNNING};
use second::shift::{record, start};
use second::{accepts, batch, reason, Machine, Reason, DONE};
use Reason::{EmptySlot, Misaligned, NoTable, NoWrite, TooHigh};

const LOAD: u32 = 41;
const STORE: u32 = 42;
const FAULT: u32 = 33;

/// Where addresses end.
const END: u32 = 1 << 30;

/// Box A after row 5, but with map 4097: a thread runs, its one page can be
/// read only, and its one table has index 0.
const ROWS: &[&[u32]] =
    &[&[2, 0, 1], &[4, 0, 2, 0], &[6, 0, 3, 4097, 5], &[3, 0, 4, 4096], &[8, 0], &[9, 4, 7, 8, 9]];

/// The same with a page to write at 16384, frame 2, and a spare page.
const WIDER: &[&[u32]] = &[
    &[2, 0, 1],
    &[4, 0, 2, 0],
    &[6, 0, 3, 4097, 5],
    &[7, 0, 16387, 2],
    &[3, 0, 4, 4096],
    &[5, 0, 5],
    &[8, 0],
    &[9, 4, 7, 8, 9],
];

fn after(rows: &[&[u32]]) -> Lent {
    let (memory, ledger) = start();
    let mut lent = Lent { memory, ledger };
    for row in rows {
        assert_eq!(call(&mut lent, row)[0], DONE, "{row:?}");
    }
    lent
}

/// The whole answer record of one call in a batch of its own.
fn call(lent: &mut Lent, words: &[u32]) -> Record {
    let mut answer = [0xdead_beef; RECORD_WORDS];
    let Lent { memory, ledger } = lent;
    assert_eq!(batch(BOX_A, memory, ledger, &record(words), &mut answer), DONE);
    assert!(accepts(BOX_A, &lent.memory, &lent.ledger));
    answer
}

fn named(lent: &Lent, va: u32, store: bool) -> Option<Reason> {
    reason(BOX_A, &lent.memory, &lent.ledger, va, store)
}

/// Which of the five hold, each said alone, from the words of the tables: the
/// index in bits 22-29 and the slot in bits 12-21, whatever the others are.
/// Where there is no table there is no slot that could be empty or lack a
/// right; an empty slot lacks every right.
fn holding(lent: &mut Lent, va: u32, store: bool) -> Vec<Reason> {
    let (index, slot) = ((va >> 22 & 255) as usize, (va >> 12 & 1023) as usize);
    let table = lent.frame(1)[index];
    let leaf = (table != 0).then(|| lent.frame(table as usize - 1)[slot]);
    let tests = [
        (va & 3 != 0, Misaligned),
        (va >= END, TooHigh),
        (table == 0, NoTable),
        (leaf == Some(0), EmptySlot),
        (store && leaf.is_some_and(|word| word & 2 == 0), NoWrite),
    ];
    tests.into_iter().filter(|(holds, _)| *holds).map(|(_, reason)| reason).collect()
}

/// Addresses in, before and after every page that matters, aligned and not,
/// below the end and beyond it.
fn addresses() -> Vec<u32> {
    let pages = [0, 4096, 8192, 12288, 16384, 20480, 4190208, 4194304, 8388608, END - 4096];
    let offsets = [0, 1, 2, 3, 4, 8, 2049, 4092, 4093, 4094, 4095];
    let high = [0, END, 2 * END, 3 * END];
    let below = pages.into_iter().flat_map(|page| offsets.map(|offset| page + offset));
    below.flat_map(|va| high.map(|high| va + high)).collect()
}

#[test]
fn numbers_and_words() {
    assert_eq!(Reason::ALL, [Misaligned, TooHigh, NoTable, EmptySlot, NoWrite]);
    assert_eq!(Reason::ALL.map(Reason::number), [1, 2, 3, 4, 5]);
    let words = ["misaligned", "too high", "no table", "empty slot", "no write right"];
    assert_eq!(Reason::ALL.map(|reason| reason.to_string()), words);
}

/// Cases worked out by hand: an access, and the number that it names.
#[test]
fn the_cases() {
    let cases = [(4098, false, 1), (4194304, false, 3), (4097, true, 1)];
    for (va, store, number) in cases {
        let mut lent = after(ROWS);
        assert_eq!(named(&lent, va, store).map(Reason::number), Some(number), "{va}");
        let words = if store { vec![STORE, va, 77] } else { vec![LOAD, va] };
        assert_eq!(call(&mut lent, &words), record(&[FAULT]));
    }
}

#[test]
fn each_alone() {
    let lent = after(WIDER);
    let told = |va, store| named(&lent, va, store);
    for store in [false, true] {
        for odd in [16385, 16386, 16387] {
            assert_eq!(told(odd, store), Some(Misaligned));
        }
        for high in [END, END + 16384, 2 * END + 16384, 3 * END + 16384, u32::MAX - 3] {
            assert_eq!(told(high, store), Some(TooHigh));
        }
        for unlinked in [4194304, 4194304 + 16384, END - 4] {
            assert_eq!(told(unlinked, store), Some(NoTable));
        }
        for empty in [0, 8192, 12284, 20480, 4194300] {
            assert_eq!(told(empty, store), Some(EmptySlot));
        }
        assert_eq!((told(16384, store), told(20476, store)), (None, None));
    }
    assert_eq!((told(4096, false), told(8188, false)), (None, None));
    assert_eq!((told(4096, true), told(8188, true)), (Some(NoWrite), Some(NoWrite)));
}

/// Of any two that can hold together the first is named, and all such pairs
/// are met: an unlinked index has no slot, so it stands with 1 and 2 alone.
#[test]
fn the_first_of_two() {
    let mut lent = after(WIDER);
    let mut met = Vec::new();
    for (va, store) in addresses().into_iter().flat_map(|va| [(va, false), (va, true)]) {
        let holding = holding(&mut lent, va, store);
        assert_eq!(named(&lent, va, store), holding.first().copied(), "{va} {store}");
        for (place, one) in holding.iter().enumerate() {
            met.extend(holding[place + 1..].iter().map(|two| (one.number(), two.number())));
        }
    }
    met.sort();
    met.dedup();
    assert_eq!(met, [(1, 2), (1, 3), (1, 4), (1, 5), (2, 3), (2, 4), (2, 5), (4, 5)]);
}

#[test]
fn a_load_never_names_the_write_right() {
    for lent in [after(ROWS), after(WIDER)] {
        let loads = addresses().into_iter().map(|va| named(&lent, va, false));
        assert!(loads.into_iter().all(|reason| reason != Some(NoWrite)));
    }
}

/// 33 then zeros whatever the reason, and nothing changes but that the run is
/// over: the thread is not suspended and can be entered again.
#[test]
fn a_fault_shows_nothing() {
    let fresh = after(WIDER);
    let mut met = [0; 5];
    for (va, store) in addresses().into_iter().flat_map(|va| [(va, false), (va, true)]) {
        let Some(reason) = named(&fresh, va, store) else { continue };
        let mut lent = fresh.clone();
        let words = if store { vec![STORE, va, 77] } else { vec![LOAD, va] };
        assert_eq!(call(&mut lent, &words), record(&[FAULT]), "{va} {store}");
        assert_eq!(lent.memory, fresh.memory);
        assert_eq!(lent.ledger[RUNNING], 0);
        assert_eq!(lent.ledger[1..], fresh.ledger[1..]);
        assert_eq!(named(&lent, va, store), None, "nobody runs");
        assert_eq!(call(&mut lent, &[9, 4, 7, 8, 9])[0], DONE);
        assert_eq!(lent.ledger, fresh.ledger);
        met[reason as usize] += 1;
    }
    assert!(met.iter().all(|count| *count > 0), "{met:?}");
}

/// Where no reason is named the access is done, and the run goes on.
#[test]
fn no_reason_no_fault() {
    let fresh = after(WIDER);
    let mut met = [0; 2];
    for (va, store) in addresses().into_iter().flat_map(|va| [(va, false), (va, true)]) {
        if named(&fresh, va, store).is_some() {
            continue;
        }
        let (mut lent, mut expected) = (fresh.clone(), fresh.clone());
        let frame = if va < 8192 { 9 } else { 2 };
        let place = frame * 1024 + (va % 4096 / 4) as usize;
        if store {
            assert_eq!(call(&mut lent, &[STORE, va, 77]), record(&[DONE]));
            expected.memory[place] = 77;
        } else {
            let word = fresh.memory[place];
            assert_eq!(call(&mut lent, &[LOAD, va]), record(&[DONE, word]));
        }
        assert!(lent.memory == expected.memory && lent.ledger == expected.ledger);
        met[usize::from(store)] += 1;
    }
    assert_eq!(met, [8, 4]);
}

/// Nobody runs, another state, other lengths, other numbers: no reason.
#[test]
fn none_where_no_thread_runs_or_the_state_is_not_accepted() {
    assert_eq!(named(&Lent::accepted(), 1, true), None);
    let lent = after(ROWS);
    assert_eq!(named(&lent, 1, true), Some(Misaligned));
    let mut hurt = lent.clone();
    hurt.frame(2)[5] = 2;
    assert_eq!(named(&hurt, 1, true), None);
    let other = Machine { frames: 17, ..BOX_A };
    assert_eq!(reason(other, &lent.memory, &lent.ledger, 1, true), None);
    assert_eq!(reason(BOX_A, &lent.memory[1..], &lent.ledger, 1, true), None);
    assert_eq!(reason(BOX_A, &lent.memory, &lent.ledger[1..], 1, true), None);
    assert_eq!(reason(BOX_A, &[], &[], 1, true), None);
}

/// Call 36 asks at the page address: the rights in the mapping word make no
/// odd address, and the rights in the slot make no difference.
#[test]
fn a_mapping_word_is_no_misaligned_address() {
    let mut lent = after(WIDER);
    for rights in [1, 3, 5, 7] {
        for (page, code) in [(4096, 7), (16384, 7), (4194304, 8), (END - 4096, 8), (8192, DONE)] {
            assert_eq!(call(&mut lent, &[36, 5, page | rights])[0], code, "{page} {rights}");
        }
        assert_eq!(named(&lent, 8192, false), None);
        assert_eq!(named(&lent, 8192, true), (rights & 2 == 0).then_some(NoWrite));
        assert_eq!(call(&mut lent, &[37, 5]), record(&[DONE]));
        assert_eq!(named(&lent, 8192, true), Some(EmptySlot));
    }
}
