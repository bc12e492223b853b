//! Why an access fails.

use std::fmt;

/// What ends the run of a thread at a load or a store. Of those that hold the
/// first is named, in this order; who runs the box sees 33 alone.
#[derive(Clone, Copy, Debug, PartialEq, Eq, PartialOrd, Ord)]
pub enum Reason {
    /// The address is no multiple of 4.
    Misaligned,
    /// The address is not below 2^30.
    TooHigh,
    /// The first-level slot of the address is empty.
    NoTable,
    /// Its second-level slot is empty.
    EmptySlot,
    /// A store, and the slot has no right to it.
    NoWrite,
}

impl Reason {
    /// All of them, in the order in which they are asked.
    pub const ALL: [Reason; 5] =
        [Reason::Misaligned, Reason::TooHigh, Reason::NoTable, Reason::EmptySlot, Reason::NoWrite];

    /// Its number, 1 to 5.
    pub fn number(self) -> u32 {
        self as u32 + 1
    }
}

impl fmt::Display for Reason {
    fn fmt(&self, out: &mut fmt::Formatter) -> fmt::Result {
        out.pad(match self {
            Reason::Misaligned => "misaligned",
            Reason::TooHigh => "too high",
            Reason::NoTable => "no table",
            Reason::EmptySlot => "empty slot",
            Reason::NoWrite => "no write right",
        })
    }
}
