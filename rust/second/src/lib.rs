//! The second program: the monitor's rules once more, in plain Rust over
//! typed pages, written from the rules' text alone (docs/RULES.md holds them).
//! It shares no line with the proved program, so that a slip in one is no slip
//! in the other.
//!
//! The services over the lent words, as the rules name them: [`boot`],
//! [`accepts`] and [`batch`]; for saved images [`image_blocks`],
//! [`image_write`], [`image_read`] and [`image_end`]. [`why`] says why
//! acceptance says no, [`reason`] why an access ends the run of a thread.
//!
//! Readings chosen where the text was open:
//!
//! - Refusal 4 of calls 6, 7 and 8 means "not building", as in calls 3 and 4;
//!   only call 5 says "stopped 4".
//! - A stopped space sets free the memory of its table pages alone. Records
//!   keep their layout: an index below 256, a well-formed mapping word.
//! - A batch of no records on a refused state draws 18 all the same.
//! - A record's arguments are counted by its call's row; every word after
//!   them must be zero, so a record of zeros (number 0) draws 19.
//! - A load or a store that faults ends the run with 33 and leaves the thread
//!   unsuspended, as call 40 does.
//! - Of the reasons of a failed access the first is named: misaligned also
//!   where the address is too high or its page is not mapped, an empty slot
//!   also to a store. A load never names the write right.
//! - ADDR and call 37 walk to the page address, rights cleared. To ADDR "no
//!   table" is 8, and an empty slot is what it wants.
//! - Call 34 answers 0 and then 1 or 0; a wrong MAC is no refusal.
//! - MapData may ask for the execute right; MapInsecure may not.
//! - Stop of a stopped space is done once more. Remove of a spare page asks
//!   nothing of its owner's state.
//! - A lent block that is not 512 bytes draws 18 from the writer, which must
//!   fill it, and is a bad block to the reader. A writer's index that no block
//!   has draws 18.
//! - A bad block is named by its place in what came, whatever its own words
//!   say. Too few blocks name the first that is missing, one too many the
//!   total.
//! - A reading that has met a bad block keeps that answer. The image's number
//!   is that of its first block.
//! - The header has 64 words in every box, however few its pages. Of a block
//!   only word 2 says 65,536 more: indexes and the number of blocks do not.

pub mod accept;
pub mod calls;
pub mod cases;
pub mod crc;
pub mod direct;
pub mod layout;
pub mod ledger;
pub mod machine;
pub mod mapping;
pub mod random;
pub mod sha;
pub mod shift;
pub mod vectors;

mod demand;
mod enclave;
mod host;
mod image;
mod monitor;
mod reason;
mod service;
mod walk;

pub use accept::{Broken, Place, Rule};
pub use image::{image_blocks, image_end, image_read, image_write, BAD_BLOCK, NOT_ACCEPTED};
pub use machine::Machine;
pub use reason::Reason;
pub use service::{accepts, batch, boot, reason, why, DONE, UNFIT};
