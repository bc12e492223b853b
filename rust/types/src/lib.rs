//! The monitor's words in types: what a box lends, asks and is answered. This
//! crate links nothing; `monitor` has the services over these words.
//!
//! - [`Machine`] is the box's numbers, [`Memory`] and [`Ledger`] what is lent,
//!   [`Page`] a record of the ledger, [`Mapping`] a mapping word, [`Slot`] a word
//!   of a table, [`Rights`] what either allows.
//! - [`Call`] and [`Answer`] are the table of calls, [`Row`] a row of it;
//!   [`Refusal`] is why a call is refused, [`Unfit`] why a service says 18.
//! - [`Block`] is a block of a saved image, [`BadImage`] why one is refused.
//! - [`layout`] has the sizes and places, [`code`] the numbers of answers that
//!   are no refusals.
//!
//! It needs no `std`. The feature `alloc`, which is on unless it is turned off,
//! adds the forms that own their words (`Memory::zeros`, `Ledger::zeros`).

#![no_std]

#[cfg(feature = "alloc")]
extern crate alloc;

mod answer;
mod call;
pub mod code;
mod image;
mod key;
pub mod layout;
mod ledger;
mod machine;
mod mapping;
mod memory;
#[cfg(feature = "alloc")]
mod owned;
mod page;
mod record;
mod refusal;
mod registers;
mod rights;
mod rule;
mod slot;
mod unfit;
mod values;

pub use answer::Answer;
pub use call::{Call, Row};
pub use image::{BadImage, Block};
pub use key::Key;
pub use ledger::Ledger;
pub use machine::Machine;
pub use mapping::Mapping;
pub use memory::Memory;
pub use page::{Page, Space, State, Thread};
pub use record::Record;
pub use refusal::Refusal;
pub use registers::Registers;
pub use rights::Rights;
pub use rule::Rule;
pub use slot::Slot;
pub use unfit::{List, Unfit};
pub use values::Values;
