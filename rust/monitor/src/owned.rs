//! The forms that own their words.

use crate::monitor::{answer_to, Monitor};
use alloc::vec;
use alloc::vec::Vec;
use types::layout::RECORD_WORDS;
use types::{Answer, Call, Key, Ledger, Machine, Memory, Unfit};

impl Monitor {
    /// A machine of its own words: memory zero, all pages free, this key.
    pub fn boot(machine: Machine, key: &Key) -> Result<Monitor, Unfit> {
        Monitor::boot_over(machine, Memory::zeros(machine), Ledger::zeros(machine), key)
    }
}

impl<M: AsMut<[u32]>, L: AsMut<[u32]>> Monitor<M, L> {
    /// Up to [`crate::layout::MOST_CALLS`] calls, in order. The words are
    /// judged once, before them.
    pub fn batch(&mut self, calls: &[Call]) -> Result<Vec<Answer>, Unfit> {
        let records: Vec<u32> = calls.iter().flat_map(Call::encode).collect();
        let mut answers = vec![[0; RECORD_WORDS]; calls.len()];
        self.batch_words(&records, answers.as_flattened_mut())?;
        Ok(calls.iter().zip(&answers).map(|(call, record)| answer_to(call, record)).collect())
    }
}
