//! However full or out of order a state is, its picture is well-formed, not long,
//! and not higher than renderers take.

mod drawn;

use drawn::pages::{each_once, on_cards};
use drawn::{number, well_formed, Numbers};
use monitor::layout::{
    record_of, FRAME_WORDS, HEADER_WORDS, MOST_FRAMES, MOST_PAGES, RECORD_WORDS,
};
use monitor::Machine;
use play::svg;

const LARGEST: Machine =
    Machine { frames: MOST_FRAMES, secure: 1, pages: MOST_PAGES, monitor: 0, monitors: 1 };
/// As far as the secure frames go.
const WORDS: usize = FRAME_WORDS * (1 + MOST_PAGES as usize);

/// A ledger whose records start with what is given for each page.
fn ledger(record: impl Fn(u32) -> [u32; 4]) -> Vec<u32> {
    let mut ledger = vec![0; LARGEST.ledger_words()];
    for page in 0..MOST_PAGES {
        ledger[record_of(page)][..4].copy_from_slice(&record(page));
    }
    ledger
}

fn within_bounds(memory: &[u32], ledger: &[u32]) {
    let drawn = svg::of_words(LARGEST, memory, ledger);
    well_formed(&drawn);
    each_once(on_cards(&drawn), MOST_PAGES);
    assert!(drawn.len() < 600_000, "{} bytes", drawn.len());
    let (high, wide) = (number(&drawn, "height"), number(&drawn, "width"));
    assert!(high < 32_767.0 && wide < 2_000.0, "{wide} by {high}");
}

/// Memory full of slots: of insecure frames, of pages, of anything.
fn memories() -> [Vec<u32>; 3] {
    let mut numbers = Numbers(3);
    let mut all = |word: &dyn Fn(u32) -> u32| (0..WORDS).map(|_| word(numbers.next())).collect();
    [
        all(&|any| (1025 + any % 15_000) << 12 | 3),
        all(&|any| (1 + any % 1024) << 12 | 7),
        all(&|any| any << 1),
    ]
}

/// So many tables, the other pages spaces, the last of which owns the tables.
#[test]
fn tables_and_spaces() {
    for memory in memories() {
        for tables in [0, 1, 50, 256, 992, 1023] {
            let last = MOST_PAGES - 1;
            within_bounds(
                &memory,
                &ledger(|page| match page {
                    0 => [3, last, 0, 0],
                    _ if page < tables => [4, last, page % 256, 0],
                    _ => [1, page, 0, 2],
                }),
            );
        }
    }
}

/// Spaces of so many pages: a first level, tables, and pages of one kind.
#[test]
fn families_of_one_size() {
    for memory in memories() {
        for (size, kind) in [(3, 2), (4, 5), (8, 6), (32, 2), (33, 5), (256, 3), (1024, 2)] {
            let record = |page| match (page % size, page - page % size) {
                (0, space) => [1, space, space + 1, 2],
                (1, space) => [3, space, 0, 0],
                (place, space) if place < 2 + size / 16 => [4, space, place, 0],
                (place, space) => {
                    [kind, space, if kind % 3 == 0 { 0 } else { 4096 * place + 7 }, 0]
                }
            };
            within_bounds(&memory, &ledger(record));
        }
    }
}

#[test]
fn records_of_any_kind() {
    let memories = memories();
    let mut numbers = Numbers(5);
    for round in 0..12 {
        let mut ledger: Vec<u32> = (0..LARGEST.ledger_words()).map(|_| numbers.next()).collect();
        for page in 0..MOST_PAGES {
            let (kind, owner, any) = (numbers.next() % 8, numbers.next(), numbers.next());
            let record = match kind {
                _ if page <= round => [1, page, any % 300, any % 3],
                2 => [2, owner % (round + 2), any, any % 2],
                4 | 5 => [kind, owner % (round + 2), any, 0],
                _ => [kind, owner % (round + 2), 0, 0],
            };
            ledger[record_of(page)].fill(0);
            ledger[record_of(page)][..4].copy_from_slice(&record);
        }
        within_bounds(&memories[round as usize % 3], &ledger);
    }
}

/// What is lent beyond the largest ledger is not looked at.
#[test]
fn a_ledger_that_is_too_long() {
    let mut long = ledger(|page| [1, page, 0, 0]);
    let whole = svg::of_words(LARGEST, &[], &long);
    long.resize(HEADER_WORDS + 10_000 * RECORD_WORDS, 1);
    within_bounds(&[], &long);
    assert_eq!(svg::of_words(LARGEST, &[], &long), whole);
}

/// Machine numbers that do not fit.
#[test]
fn numbers_that_do_not_fit() {
    let most = u32::MAX;
    for [frames, secure, pages, monitor, monitors] in
        [[0; 5], [most; 5], [1, 0, 0, 0, 0], [most, 0, most, 0, most], [16, most, 8, 0, 2]]
    {
        let machine = Machine { frames, secure, pages, monitor, monitors };
        for words in [0, HEADER_WORDS - 1, HEADER_WORDS, 100, 4096] {
            let drawn = svg::of_words(machine, &vec![4097; words], &vec![1; words]);
            well_formed(&drawn);
            assert!(drawn.len() < 600_000 && number(&drawn, "width") < 2_000.0);
        }
    }
}
