//! Acceptance: a plain reading of "What acceptance demands" in docs/RULES.md,
//! demand by demand, a file for each part.
//!
//! The demands A1 to A19 are asked in the order of their numbers, each at the
//! lowest page first and there at the lowest word. So what is [`Broken`] is
//! the first demand that fails, and a demand may lean on those before it:
//! from A9 on the pages are typed.

mod broken;
mod header;
mod lent;
mod links;
mod pages;
mod records;

pub use broken::{Broken, Place, Rule};

use crate::demand::demand;
use crate::ledger::Ledger;
use crate::machine::Machine;
use lent::Lent;
use pages::Pages;

/// The typed ledger, if the lent words are accepted.
pub fn accepted(m: Machine, memory: &[u32], ledger: &[u32]) -> Result<Ledger, Broken> {
    fitting(m, memory, ledger)?;
    let lent = Lent { machine: m, memory, ledger };
    lent.header()?;
    lent.records()?;
    let ledger = Ledger::decode(ledger).expect("A5 and A6 hold");
    let pages = Pages { lent, ledger: &ledger };
    pages.single()?;
    pages.links()?;
    Ok(ledger)
}

/// A1: the machine numbers fit; memory and ledger have their lengths.
pub fn fitting(m: Machine, memory: &[u32], ledger: &[u32]) -> Result<(), Broken> {
    let lengths = || {
        let (asked, found) = (m.memory_words(), memory.len());
        demand(asked == found, || {
            format!("expected 1024F words of memory, {asked}, found {found}")
        })?;
        let (asked, found) = (m.ledger_words(), ledger.len());
        demand(asked == found, || {
            format!("expected 64+32n words of ledger, {asked}, found {found}")
        })
    };
    m.fitting().and_then(|()| lengths()).map_err(Broken::lent)
}
