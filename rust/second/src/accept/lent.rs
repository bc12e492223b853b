//! What the demands are asked of, and what they answer.

use super::broken::Broken;
use crate::layout::record_of;
use crate::machine::Machine;
use std::ops::Range;

/// Nothing, or the first demand that is broken.
pub(super) type Verdict = Result<(), Broken>;

/// The lent words, of which A1 holds.
#[derive(Clone, Copy)]
pub(super) struct Lent<'a> {
    pub(super) machine: Machine,
    pub(super) memory: &'a [u32],
    pub(super) ledger: &'a [u32],
}

impl<'a> Lent<'a> {
    /// All pages, in order.
    pub(super) fn pages(&self) -> Range<usize> {
        0..self.machine.page_count()
    }

    /// The record of a page.
    pub(super) fn record(&self, page: usize) -> &'a [u32] {
        &self.ledger[record_of(page)]
    }

    /// The words of a page's frame.
    pub(super) fn frame(&self, page: usize) -> &'a [u32] {
        &self.memory[self.machine.words_of(page)]
    }
}
