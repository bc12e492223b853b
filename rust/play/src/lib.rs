//! Plays calls on a box by the proved library: the worked shift with a picture
//! of the ledger after each step, or a plan of calls from a file.
//!
//! - [`player`] plays a plan in batches, or call by call for those who watch.
//! - [`run`] prints answers, [`measure`] what spaces measure,
//!   [`shift`] the worked shift.
//! - [`picture`] and [`svg`] draw the ledger, that of a large box folded.
//! - [`why`] says why a state is not accepted.
//! - [`image`] saves a box and restores it, [`mod@write`] writes whole files.

mod fold;
pub mod image;
pub mod measure;
pub mod picture;
pub mod player;
pub mod run;
pub mod shift;
pub mod svg;
pub mod table;
pub mod why;
pub mod write;

use monitor::{Key, Ledger, Machine, Memory, Monitor, Unfit};

/// Columns of a line that is printed, at most.
pub(crate) const COLUMNS: usize = 80;

/// A fresh box. Before boot each word of memory holds its own place, so that
/// copied pages can be told apart; boot zeroes the secure frames.
pub fn fresh(machine: Machine, key: &Key) -> Result<Monitor, Unfit> {
    Monitor::boot_over(machine, places(machine), Ledger::zeros(machine), key)
}

/// A memory in which each word holds its own place. Of numbers that do not fit it
/// has none: they are refused whatever is lent, and could ask for more than there is.
pub(crate) fn places(machine: Machine) -> Memory {
    let words = if machine.fits() { machine.memory_words() } else { 0 };
    Memory::over((0..words as u32).collect())
}
