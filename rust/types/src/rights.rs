use core::fmt;

pub(crate) const READ: u32 = 1;
pub(crate) const WRITE: u32 = 2;
pub(crate) const EXECUTE: u32 = 4;
pub(crate) const RIGHTS: u32 = READ | WRITE | EXECUTE;

/// Bits 0-2 of a mapping word or of a slot: read, write and execute. Read is among
/// them wherever the word is in order.
#[derive(Clone, Copy, Debug, PartialEq, Eq, Hash)]
pub struct Rights(u32);

impl Rights {
    /// The rights in bits 0-2 of a word, whatever its other bits are.
    pub const fn of(word: u32) -> Rights {
        Rights(word & RIGHTS)
    }

    /// The three bits.
    pub const fn bits(self) -> u32 {
        self.0
    }

    /// Whether read is among them.
    pub const fn reads(self) -> bool {
        self.0 & READ != 0
    }

    /// Whether write is among them.
    pub const fn writes(self) -> bool {
        self.0 & WRITE != 0
    }

    /// Whether execute is among them.
    pub const fn executes(self) -> bool {
        self.0 & EXECUTE != 0
    }
}

/// As `rw-`.
impl fmt::Display for Rights {
    fn fmt(&self, out: &mut fmt::Formatter) -> fmt::Result {
        let letter = |letter, there| if there { letter } else { '-' };
        let (read, write) = (letter('r', self.reads()), letter('w', self.writes()));
        write!(out, "{read}{write}{}", letter('x', self.executes()))
    }
}
