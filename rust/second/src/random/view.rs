//! The lent words of an accepted state, for choosing what to do next.

use crate::layout::{kind, record_of, word, RUNNING};
use crate::machine::Machine;

/// A look at the lent words.
#[derive(Clone, Copy)]
pub struct View<'a> {
    /// The machine numbers.
    pub machine: Machine,
    /// The memory.
    pub memory: &'a [u32],
    /// The ledger.
    pub ledger: &'a [u32],
}

impl<'a> View<'a> {
    /// The record of a page.
    pub(super) fn record(&self, page: usize) -> &'a [u32] {
        &self.ledger[record_of(page)]
    }

    pub(super) fn kind(&self, page: usize) -> u32 {
        self.record(page)[word::TYPE]
    }

    pub(super) fn owner(&self, page: usize) -> usize {
        self.record(page)[word::OWNER] as usize
    }

    /// The state of the space that owns this page in use.
    pub(super) fn owner_state(&self, page: usize) -> u32 {
        self.record(self.owner(page))[word::STATE]
    }

    pub(super) fn suspended(&self, page: usize) -> bool {
        self.record(page)[word::SUSPENDED] == 1
    }

    /// The running thread's page.
    pub(super) fn running(&self) -> Option<usize> {
        self.ledger[RUNNING].checked_sub(1).map(|page| page as usize)
    }

    /// The words of a secure page.
    pub(super) fn words(&self, page: usize) -> &'a [u32] {
        &self.memory[self.machine.words_of(page)]
    }

    /// The pages for which `wanted` holds.
    pub(super) fn pages(&self, wanted: impl Fn(&View, usize) -> bool) -> Vec<usize> {
        (0..self.machine.page_count()).filter(|page| wanted(self, *page)).collect()
    }

    /// The pages of this type in a space of this state.
    pub(super) fn of(&self, kind: u32, state: u32) -> Vec<usize> {
        self.pages(|view, page| view.kind(page) == kind && view.owner_state(page) == state)
    }

    /// The tables of a space.
    pub(super) fn tables(&self, space: usize) -> Vec<usize> {
        self.pages(|view, page| view.kind(page) == kind::SECOND && view.owner(page) == space)
    }
}
