//! The proved enclave monitor, safe to call from Rust.
//!
//! A box lends its memory and a ledger of its secure pages. The monitor has
//! services over them: *boot* writes a fresh ledger, *acceptance* says whether
//! the words are in order, a *batch* obeys a list of calls, and a state is
//! *saved* as an image in blocks and restored from them. The code behind them is
//! proved; this crate gives its words names and types.
//!
//! ```
//! use monitor::{Answer, Call, Key, Machine, Mapping, Monitor, Refusal};
//!
//! # fn main() -> Result<(), monitor::Unfit> {
//! let key = Key::new([1, 2, 3, 4, 5, 6, 7, 8]);
//! let mut bench = Monitor::boot(Machine::BOX_A, &key)?;
//! bench.memory_mut().frame_mut(5).unwrap()[0] = 77;
//!
//! // An address space on pages 0 and 1, a table on 2, frame 5 copied to page 3.
//! let map = Mapping::at(4096).unwrap().writable();
//! let build = [
//!     Call::InitAddrSpace { space: 0, first: 0 },
//!     Call::InitAddrSpace { space: 0, first: 1 },
//!     Call::InitTable { space: 0, page: 2, index: 0 },
//!     Call::MapSecure { space: 0, page: 3, map, frame: 5 },
//!     Call::MapSecure { space: 0, page: 4, map, frame: 5 },
//!     Call::InitThread { space: 0, page: 4, entry: 4096 },
//!     Call::Finalise { space: 0 },
//! ];
//! let answers = bench.batch(&build)?;
//! assert_eq!(answers[0], Answer::Refused(Refusal::NotFree));
//! assert_eq!(answers[3], Answer::Done);
//! assert_eq!(answers[4], Answer::Refused(Refusal::SlotTaken));
//!
//! // Its thread runs, and loads what was copied.
//! let Answer::Runs(registers) = bench.call(Call::Enter { thread: 4, x: 7, y: 8, z: 9 })? else {
//!     panic!("the thread is ready")
//! };
//! assert_eq!(registers.r[15], 4096);
//! assert_eq!(bench.call(Call::Load { address: 4096 })?, Answer::Loaded(77));
//! assert!(bench.accepted());
//! # Ok(())
//! # }
//! ```
//!
//! - [`Monitor`] keeps a machine's numbers with its memory and ledger, owned
//!   or borrowed, and hands them to the services.
//! - [`Call`] and [`Answer`] are the table of calls; [`Refusal`] the reasons.
//! - [`Monitor::image`] gives the blocks of a saved image, [`Restore`] takes them;
//!   [`BadImage`] is why an image is refused.
//! - [`Memory`], [`Ledger`], [`Page`] and [`Slot`] read the lent words.
//! - [`words`] is the services as they are exported, words and numbers;
//!   [`layout`] has the sizes and places.
//!
//! It needs no `std`. The feature `alloc`, which is on unless it is turned off,
//! adds the forms that own their words: `Monitor::boot`, `Monitor::batch`,
//! `Memory::zeros` and `Ledger::zeros`. Without it a box lends what it has:
//!
//! ```
//! use monitor::{Answer, Call, Key, Ledger, Machine, Memory, Monitor};
//!
//! const BOX: Machine = Machine::BOX_A;
//! # fn main() -> Result<(), monitor::Unfit> {
//! let (mut memory, mut ledger) = ([0; BOX.memory_words()], [0; BOX.ledger_words()]);
//! let (memory, ledger) = (Memory::over(&mut memory[..]), Ledger::over(&mut ledger[..]));
//! let mut bench = Monitor::boot_over(BOX, memory, ledger, &Key::new([9; 8]))?;
//! let answers = bench.batch_of([Call::InitAddrSpace { space: 0, first: 1 }, Call::FreePages])?;
//! assert_eq!(answers, [Answer::Done, Answer::Free { count: 6, lowest: 2 }]);
//! # Ok(())
//! # }
//! ```

#![no_std]

#[cfg(feature = "alloc")]
extern crate alloc;

mod image;
mod monitor;
#[cfg(feature = "alloc")]
mod owned;
pub mod words;

pub use image::{Blocks, Restore};
pub use monitor::Monitor;
pub use types::*;
