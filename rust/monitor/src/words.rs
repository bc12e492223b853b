//! The services over plain words, as the library exports them. Nothing is
//! asked of the words: what does not fit gets 18, or a no, and stays put.
//! [`crate::Unfit`] then has the reason.
//!
//! ```
//! use monitor::layout::{KEY_WORDS, RECORD_WORDS};
//! use monitor::{words, Machine};
//!
//! let machine = Machine::BOX_A;
//! let mut memory = vec![0; machine.memory_words()];
//! let mut ledger = vec![0; machine.ledger_words()];
//! assert_eq!(words::boot(machine, &[0; 7], &mut memory, &mut ledger), words::UNFIT);
//! assert_eq!(words::boot(machine, &[0; KEY_WORDS], &mut memory, &mut ledger), words::DONE);
//! assert!(words::accepts(machine, &memory, &ledger));
//!
//! let mut calls = [0; RECORD_WORDS];
//! calls[0] = 1; // GetPhysPages
//! let mut answers = [0; RECORD_WORDS];
//! assert_eq!(words::batch(machine, &mut memory, &mut ledger, &calls, &mut answers), words::DONE);
//! assert_eq!(answers[..2], [0, 8]);
//! ```

pub use types::code::{DONE, UNFIT};
use types::Machine;

/// As in `include/monitor.h`. A slice is a pointer and a count of words; the
/// library reads and writes within the slices, for as long as a call takes.
mod c {
    extern "C" {
        pub fn monitor_boot(
            frames: u32,
            secure: u32,
            pages: u32,
            monitor: u32,
            monitors: u32,
            key: *const u32,
            key_words: usize,
            memory: *mut u32,
            memory_words: usize,
            ledger: *mut u32,
            ledger_words: usize,
        ) -> u32;

        pub fn monitor_accepts(
            frames: u32,
            secure: u32,
            pages: u32,
            monitor: u32,
            monitors: u32,
            memory: *const u32,
            memory_words: usize,
            ledger: *const u32,
            ledger_words: usize,
        ) -> bool;

        pub fn monitor_batch(
            frames: u32,
            secure: u32,
            pages: u32,
            monitor: u32,
            monitors: u32,
            memory: *mut u32,
            memory_words: usize,
            ledger: *mut u32,
            ledger_words: usize,
            calls: *const u32,
            calls_words: usize,
            answers: *mut u32,
            answers_words: usize,
        ) -> u32;

        pub fn monitor_image_blocks(
            frames: u32,
            secure: u32,
            pages: u32,
            monitor: u32,
            monitors: u32,
        ) -> u32;

        pub fn monitor_image_write(
            frames: u32,
            secure: u32,
            pages: u32,
            monitor: u32,
            monitors: u32,
            memory: *const u32,
            memory_words: usize,
            ledger: *const u32,
            ledger_words: usize,
            number: u32,
            index: u32,
            block: *mut u8,
            block_bytes: usize,
        ) -> u32;

        pub fn monitor_image_read(
            frames: u32,
            secure: u32,
            pages: u32,
            monitor: u32,
            monitors: u32,
            memory: *mut u32,
            memory_words: usize,
            ledger: *mut u32,
            ledger_words: usize,
            progress: *mut u32,
            progress_words: usize,
            block: *const u8,
            block_bytes: usize,
        ) -> u32;

        pub fn monitor_image_end(
            frames: u32,
            secure: u32,
            pages: u32,
            monitor: u32,
            monitors: u32,
            memory: *const u32,
            memory_words: usize,
            ledger: *const u32,
            ledger_words: usize,
            progress: *mut u32,
            progress_words: usize,
        ) -> u32;
    }
}

/// Boot: a fresh ledger with all pages free and this key, secure
/// frames zero, other frames unchanged. [`DONE`] or [`UNFIT`].
pub fn boot(m: Machine, key: &[u32], memory: &mut [u32], ledger: &mut [u32]) -> u32 {
    // SAFETY: pointers and lengths are those of live slices; what is written
    // is borrowed alone, so that nothing overlaps it.
    unsafe {
        c::monitor_boot(
            m.frames,
            m.secure,
            m.pages,
            m.monitor,
            m.monitors,
            key.as_ptr(),
            key.len(),
            memory.as_mut_ptr(),
            memory.len(),
            ledger.as_mut_ptr(),
            ledger.len(),
        )
    }
}

/// Acceptance: whether these words are in order. Nothing is written.
pub fn accepts(m: Machine, memory: &[u32], ledger: &[u32]) -> bool {
    // SAFETY: pointers and lengths are those of live slices.
    unsafe {
        c::monitor_accepts(
            m.frames,
            m.secure,
            m.pages,
            m.monitor,
            m.monitors,
            memory.as_ptr(),
            memory.len(),
            ledger.as_ptr(),
            ledger.len(),
        )
    }
}

/// A batch of up to [`crate::layout::MOST_CALLS`] call records; `answers` is as
/// long as `calls`. [`DONE`], or [`UNFIT`] and every word stays as it was.
pub fn batch(
    m: Machine,
    memory: &mut [u32],
    ledger: &mut [u32],
    calls: &[u32],
    answers: &mut [u32],
) -> u32 {
    // SAFETY: as for `boot`.
    unsafe {
        c::monitor_batch(
            m.frames,
            m.secure,
            m.pages,
            m.monitor,
            m.monitors,
            memory.as_mut_ptr(),
            memory.len(),
            ledger.as_mut_ptr(),
            ledger.len(),
            calls.as_ptr(),
            calls.len(),
            answers.as_mut_ptr(),
            answers.len(),
        )
    }
}

/// How many blocks a saved image of this box has; 0 where the numbers do not
/// fit.
pub fn image_blocks(m: Machine) -> u32 {
    // SAFETY: nothing is lent.
    unsafe { c::monitor_image_blocks(m.frames, m.secure, m.pages, m.monitor, m.monitors) }
}

/// Writes block `index` of the image of this state under this number, whether
/// the state is accepted or not. The block is 512 bytes. [`DONE`] or [`UNFIT`].
pub fn image_write(
    m: Machine,
    memory: &[u32],
    ledger: &[u32],
    number: u32,
    index: u32,
    block: &mut [u8],
) -> u32 {
    // SAFETY: as for `boot`.
    unsafe {
        c::monitor_image_write(
            m.frames,
            m.secure,
            m.pages,
            m.monitor,
            m.monitors,
            memory.as_ptr(),
            memory.len(),
            ledger.as_ptr(),
            ledger.len(),
            number,
            index,
            block.as_mut_ptr(),
            block.len(),
        )
    }
}

/// Reads the next block into a spare memory and ledger. Progress is 4 words,
/// all zero before the first block. [`DONE`] where the block is good, 25 from
/// the first bad one on, 26 where acceptance has said no, or [`UNFIT`].
pub fn image_read(
    m: Machine,
    memory: &mut [u32],
    ledger: &mut [u32],
    progress: &mut [u32],
    block: &[u8],
) -> u32 {
    // SAFETY: as for `boot`.
    unsafe {
        c::monitor_image_read(
            m.frames,
            m.secure,
            m.pages,
            m.monitor,
            m.monitors,
            memory.as_mut_ptr(),
            memory.len(),
            ledger.as_mut_ptr(),
            ledger.len(),
            progress.as_mut_ptr(),
            progress.len(),
            block.as_ptr(),
            block.len(),
        )
    }
}

/// No more blocks come. [`DONE`] where all were good and the spare is accepted,
/// 25 where one was bad or is missing, 26 where acceptance says no, or
/// [`UNFIT`].
pub fn image_end(m: Machine, memory: &[u32], ledger: &[u32], progress: &mut [u32]) -> u32 {
    // SAFETY: as for `boot`.
    unsafe {
        c::monitor_image_end(
            m.frames,
            m.secure,
            m.pages,
            m.monitor,
            m.monitors,
            memory.as_ptr(),
            memory.len(),
            ledger.as_ptr(),
            ledger.len(),
            progress.as_mut_ptr(),
            progress.len(),
        )
    }
}
