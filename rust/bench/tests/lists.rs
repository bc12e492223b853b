//! The lists that are measured are what they claim: as many calls, all done.

use bench::boxes::{all_done, Lent};
use bench::lists::dearest::{self, Dearest};
use bench::lists::{on_larger_boxes, works};
use bench::sides;
use second::calls::number::*;
use second::layout::{kind, MOST_CALLS, RECORD_WORDS};
use second::DONE;
use std::collections::BTreeSet;

/// Plays lists on a box by both programs, all calls done, and gives the
/// library's answers. The box is accepted before and after.
fn played(start: &Lent, lists: &[&[u32]]) -> Vec<u32> {
    let (mut lent, mut other) = (start.clone(), start.clone());
    let mut all = Vec::new();
    for list in lists {
        let (mut answers, mut theirs) = (vec![7; list.len()], vec![7; list.len()]);
        let Lent { machine, memory, ledger } = &mut lent;
        assert_eq!(sides::batch(*machine, memory, ledger, list, &mut answers), DONE);
        let Lent { machine, memory, ledger } = &mut other;
        assert_eq!(second::batch(*machine, memory, ledger, list, &mut theirs), DONE);
        assert!(answers == theirs && all_done(&answers), "each call is done");
        all.append(&mut answers);
    }
    assert!(lent.memory == other.memory && lent.ledger == other.ledger);
    assert!(sides::accepts(lent.machine, &lent.memory, &lent.ledger));
    all
}

#[test]
fn lists_are_whole_and_done() {
    for work in works().iter().chain(&on_larger_boxes()) {
        let calls = work.calls.len() / RECORD_WORDS;
        assert_eq!(calls, MOST_CALLS, "{}", work.name);
        let each = if work.name.contains('+') { 2 } else { 1 };
        assert_eq!(work.times * each, calls, "{}", work.name);
        let alone = work.alone();
        assert_eq!(
            alone.iter().map(|list| list.len()).collect::<Vec<_>>(),
            [RECORD_WORDS].repeat(each)
        );
        assert_eq!(alone.concat(), work.calls[..each * RECORD_WORDS]);
        let whole = played(&work.lent, &[&work.calls]);
        assert!(whole.starts_with(&played(&work.lent, &alone)), "{}", work.name);
    }
}

#[test]
fn cheap_calls_stand_on_boxes_of_four_sizes() {
    let works = works();
    let larger = on_larger_boxes();
    let boxes = |name: &str| -> Vec<(u32, usize)> {
        let all = works.iter().chain(&larger).filter(|work| work.name == name);
        all.map(|work| (work.lent.machine.pages, work.lent.count(kind::FREE))).collect()
    };
    for name in ["GetPhysPages", "Load"] {
        assert_eq!(boxes(name), [(8, 2), (64, 58), (256, 250), (1024, 1018)]);
        assert_eq!(boxes(&format!("{name}, full")), [(1024, 0)]);
    }
}

/// That a list has 512 calls, all done, of them so many MapSecure, Remove and
/// Stop, on a box with so many spaces, tables and free pages.
fn is_whole(list: &Dearest, calls: [usize; 3], pages: [usize; 3]) {
    let rows: Vec<&[u32]> = list.calls.chunks(RECORD_WORDS).collect();
    assert_eq!(rows.len(), MOST_CALLS);
    let count = |number| rows.iter().filter(|row| row[0] == number).count();
    assert_eq!([MAP_SECURE, REMOVE, STOP].map(count), calls);
    let frames = rows.iter().filter(|row| row[0] == MAP_SECURE).map(|row| row[4]);
    assert_eq!(frames.collect::<BTreeSet<_>>().len(), calls[0], "each from a frame of its own");
    assert_eq!([kind::SPACE, kind::SECOND, kind::FREE].map(|kind| list.lent.count(kind)), pages);
    played(&list.lent, &[&list.calls]);
}

#[test]
fn the_dearest_lists_are_whole_and_done() {
    is_whole(&dearest::in_instructions(), [512, 0, 0], [2, 508, 512]);
    is_whole(&dearest::by_the_clock(), [256, 255, 1], [4, 1015, 1]);
}
