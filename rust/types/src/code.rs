//! The codes of services and of answer records that are no refusals.

/// Done.
pub const DONE: u32 = 0;
/// Of a whole service: numbers or lengths do not fit, or acceptance says no.
pub const UNFIT: u32 = 18;
/// Of an image that is read: a bad block, which the progress names.
pub const BAD_BLOCK: u32 = 25;
/// Of an image that is read: its blocks are good, and acceptance says no.
pub const NOT_ACCEPTED: u32 = 26;
/// The run has ended, the thread is suspended.
pub const INTERRUPTED: u32 = 32;
/// The run has ended as a fault.
pub const FAULTED: u32 = 33;
