//! The sides of a row do the same work: they give the same answers and leave
//! the same words, those of the hash among them.

use bench::lists::{on_larger_boxes, works, Work};
use bench::meter::Side;
use bench::sides::{agree, batch, Batch, Batching, BATCHES};
use second::layout::{record_of, word};
use second::sha::START;
use second::Machine;

/// A list as one side plays it.
fn played(work: &Work, batch: Batch) -> Batching<'_> {
    let mut side = Batching::new(&work.lent, vec![&work.calls], batch);
    side.prepare();
    side.run();
    side
}

/// The hash words of space 0.
fn hash(ledger: &[u32]) -> &[u32] {
    &ledger[record_of(0)][word::HASH..word::HASH_END]
}

#[test]
fn all_sides_leave_the_same() {
    for work in works().iter().chain(&on_larger_boxes()) {
        assert!(agree(&BATCHES.map(|batch| played(work, batch))), "{}", work.name);
    }
}

/// The library, but for one bit of a hash word.
fn hashes_otherwise(
    m: Machine,
    memory: &mut [u32],
    ledger: &mut [u32],
    calls: &[u32],
    answers: &mut [u32],
) -> u32 {
    let code = batch(m, memory, ledger, calls, answers);
    ledger[record_of(0)][word::HASH] ^= 1;
    code
}

#[test]
fn the_hash_words_are_compared() {
    let all = works();
    let work = all.iter().find(|work| work.name == "MapSecure").expect("its list");
    let ours = played(work, batch);
    assert_eq!(hash(&work.lent.ledger), START);
    assert_ne!(hash(&ours.left().ledger), START);
    assert!(!agree(&[ours, played(work, hashes_otherwise)]));
}
