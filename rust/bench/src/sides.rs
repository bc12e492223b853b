//! What is run to be measured: acceptance, or batches.

use crate::boxes::{all_done, Lent};
use crate::meter::Side;
use crate::plain::{self, Folded, Plain};
use second::{Machine, DONE};
use std::hint::black_box;

/// A program's acceptance check.
pub type Accepts = fn(Machine, &[u32], &[u32]) -> bool;
/// A program's batch.
pub type Batch = fn(Machine, &mut [u32], &mut [u32], &[u32], &mut [u32]) -> u32;

/// The numbers of a box, for the proved library.
pub fn numbers(m: Machine) -> monitor::Machine {
    let Machine { frames, secure, pages, monitor, monitors } = m;
    monitor::Machine { frames, secure, pages, monitor, monitors }
}

/// The proved library's acceptance.
pub fn accepts(m: Machine, memory: &[u32], ledger: &[u32]) -> bool {
    monitor::words::accepts(numbers(m), memory, ledger)
}

/// The proved library's batch.
pub fn batch(
    m: Machine,
    memory: &mut [u32],
    ledger: &mut [u32],
    calls: &[u32],
    answers: &mut [u32],
) -> u32 {
    monitor::words::batch(numbers(m), memory, ledger, calls, answers)
}

/// The sides of a row of calls: the library, then the plain twins.
pub const BATCHES: [Batch; 3] = [batch, plain::batch::<Plain>, plain::batch::<Folded>];

/// Acceptance of a box, which says yes.
pub struct Accepting<'b> {
    /// The box.
    pub lent: &'b Lent,
    /// Whose acceptance.
    pub accepts: Accepts,
}

impl Side for Accepting<'_> {
    fn run(&mut self) {
        let Lent { machine, memory, ledger } = black_box(self.lent);
        assert!((self.accepts)(*machine, memory, ledger));
    }
}

/// Lists of calls, each a batch, one after the other.
pub struct Batching<'b> {
    start: &'b Lent,
    lent: Lent,
    lists: Vec<&'b [u32]>,
    answers: Vec<u32>,
    batch: Batch,
}

impl<'b> Batching<'b> {
    /// These lists on a copy of this box.
    pub fn new(start: &'b Lent, lists: Vec<&'b [u32]>, batch: Batch) -> Self {
        let answers = vec![0; lists.iter().map(|list| list.len()).sum()];
        Batching { start, lent: start.clone(), lists, answers, batch }
    }

    /// The answers of the last run, all of calls that were done.
    pub fn answers(&self) -> &[u32] {
        assert!(all_done(&self.answers), "each call is done");
        &self.answers
    }

    /// The box as the last run left it.
    pub fn left(&self) -> &Lent {
        &self.lent
    }
}

/// Whether the last runs did the same: each side gave the same answers and left
/// the same words, those of the hash among them.
pub fn agree(sides: &[Batching]) -> bool {
    let same = |pair: &[Batching]| {
        pair[0].answers() == pair[1].answers() && pair[0].left() == pair[1].left()
    };
    sides.windows(2).all(same)
}

impl Side for Batching<'_> {
    fn prepare(&mut self) {
        self.lent.memory.copy_from_slice(&self.start.memory);
        self.lent.ledger.copy_from_slice(&self.start.ledger);
    }

    fn run(&mut self) {
        let Lent { machine, memory, ledger } = &mut self.lent;
        let mut answers = &mut self.answers[..];
        for list in &self.lists {
            let (its, others) = answers.split_at_mut(list.len());
            assert_eq!((self.batch)(*machine, memory, ledger, black_box(list), its), DONE);
            answers = others;
        }
    }
}
