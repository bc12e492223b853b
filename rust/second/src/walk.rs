//! The walk from an address through the tables of a space to its slot.

use crate::demand::demand;
use crate::machine::Machine;
use crate::mapping::{Leaf, Mapping, ADDRESSES, WORD_BYTES, WRITE};
use crate::reason::Reason;

/// The tables of one space.
pub struct Walk<'a> {
    pub machine: Machine,
    pub memory: &'a [u32],
    /// The first-level page.
    pub first: usize,
}

impl Walk<'_> {
    /// What the slot of this address says to a load.
    pub fn load(&self, va: u32) -> Result<Leaf, Reason> {
        Leaf::read(self.memory[self.slot(va)?]).ok_or(Reason::EmptySlot)
    }

    /// What it says to a store, which asks one thing more.
    pub fn store(&self, va: u32) -> Result<Leaf, Reason> {
        let leaf = self.load(va)?;
        demand(leaf.rights & WRITE != 0, || Reason::NoWrite)?;
        Ok(leaf)
    }

    /// Where the slot of this address stands in the memory.
    pub fn slot(&self, va: u32) -> Result<usize, Reason> {
        demand(va.is_multiple_of(WORD_BYTES), || Reason::Misaligned)?;
        demand(va < ADDRESSES, || Reason::TooHigh)?;
        let first = self.machine.words_of(self.first);
        let named = self.memory[first.start + Mapping(va).index()];
        let table = named.checked_sub(1).ok_or(Reason::NoTable)?;
        Ok(self.machine.words_of(table as usize).start + Mapping(va).slot())
    }
}
