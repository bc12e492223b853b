//! The forms that own their words.

use crate::ledger::Ledger;
use crate::machine::Machine;
use crate::memory::Memory;
use alloc::vec;
use alloc::vec::Vec;

impl Memory {
    /// Zeros for this machine; no words where its numbers do not fit, so that the
    /// services say 18.
    pub fn zeros(machine: Machine) -> Memory {
        Memory::over(zeros(machine, machine.memory_words()))
    }
}

impl Ledger {
    /// Zeros for this machine: no fresh ledger yet, which boot writes. No words
    /// where its numbers do not fit, so that the services say 18.
    pub fn zeros(machine: Machine) -> Ledger {
        Ledger::over(zeros(machine, machine.ledger_words()))
    }
}

/// No memory is set aside for numbers that do not fit: they may ask for
/// terabytes.
fn zeros(machine: Machine, words: usize) -> Vec<u32> {
    vec![0; if machine.fits() { words } else { 0 }]
}
