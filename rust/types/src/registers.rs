use crate::layout::{REGISTERS, SAVED_WORDS};

/// r0-r15 and the flags. They are an enclave's; printed for debugging, in a call,
/// an answer or a page too, they are shown.
#[derive(Clone, Copy, Debug, Default, PartialEq, Eq, Hash)]
pub struct Registers {
    /// r0 to r15; a run starts at r15.
    pub r: [u32; REGISTERS],
    /// The flags, in the top 4 bits.
    pub flags: u32,
}

impl Registers {
    /// The registers of these words, the flags last.
    pub(crate) fn of(words: [u32; SAVED_WORDS]) -> Registers {
        Registers { r: core::array::from_fn(|place| words[place]), flags: words[REGISTERS] }
    }

    pub(crate) fn words(&self) -> [u32; SAVED_WORDS] {
        core::array::from_fn(|place| *self.r.get(place).unwrap_or(&self.flags))
    }
}
