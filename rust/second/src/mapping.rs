//! Addresses, mapping words and second-level slots.

use crate::layout::{FRAME_WORDS, MOST_TABLES};

/// Read, which every mapping and every slot has.
pub const READ: u32 = 1;
/// The right to store.
pub const WRITE: u32 = 2;
/// The right to execute.
pub const EXECUTE: u32 = 4;
/// All rights.
pub const RIGHTS: u32 = READ | WRITE | EXECUTE;

/// Bytes in a word of memory.
pub const WORD_BYTES: u32 = 4;
/// Addresses are below.
pub const ADDRESSES: u32 = 1 << 30;
/// Where an address has its first-level index; the lower bits are one table's.
pub const INDEX_SHIFT: u32 = 22;
/// Where an address has its slot, and a slot word its frame.
pub const PAGE_SHIFT: u32 = 12;
/// The bits of a page address.
pub const PAGE_ADDRESS: u32 = ADDRESSES - (1 << PAGE_SHIFT);

/// Whether a thread may start here: a multiple of 4 below 2^30.
pub fn is_legal_entry(word: u32) -> bool {
    word.is_multiple_of(WORD_BYTES) && word < ADDRESSES
}

/// A mapping word: page address in bits 12-29, rights in bits 0-2.
#[derive(Clone, Copy, Debug, PartialEq, Eq)]
pub struct Mapping(pub u32);

impl Mapping {
    /// The mapping word of this place with these rights.
    pub fn at(index: usize, slot: usize, rights: u32) -> Self {
        Mapping((index as u32) << INDEX_SHIFT | (slot as u32) << PAGE_SHIFT | rights)
    }

    /// Read is set and only the address and the rights have ones.
    pub fn well_formed(self) -> bool {
        self.0 & READ != 0 && self.0 & !(PAGE_ADDRESS | RIGHTS) == 0
    }

    /// The first-level slot (bits 22-29).
    pub fn index(self) -> usize {
        (self.0 >> INDEX_SHIFT) as usize % MOST_TABLES
    }

    /// The second-level slot (bits 12-21).
    pub fn slot(self) -> usize {
        (self.0 >> PAGE_SHIFT) as usize % FRAME_WORDS
    }

    /// Bits 0-2.
    pub fn rights(self) -> u32 {
        self.0 & RIGHTS
    }

    /// Whether the execute right is asked.
    pub fn executes(self) -> bool {
        self.0 & EXECUTE != 0
    }

    /// The page address, rights cleared.
    pub fn address(self) -> u32 {
        self.0 & PAGE_ADDRESS
    }
}

/// What a non-empty second-level slot says.
#[derive(Clone, Copy, Debug, PartialEq, Eq)]
pub struct Leaf {
    /// The frame it names.
    pub frame: u32,
    /// Read, write and execute.
    pub rights: u32,
}

impl Leaf {
    /// The leaf in a slot word: no leaf in zero, nor in a word that is not
    /// frame·4096 + rights with read set.
    pub fn read(word: u32) -> Option<Leaf> {
        let leaf = Leaf { frame: word >> PAGE_SHIFT, rights: word & RIGHTS };
        (leaf.word() == word && leaf.rights & READ != 0).then_some(leaf)
    }

    /// The slot word. Frames are below 16,384, so nothing is lost.
    pub fn word(self) -> u32 {
        self.frame << PAGE_SHIFT | self.rights
    }

    /// Where the word at this address stands in the memory.
    pub fn place(self, va: u32) -> usize {
        self.frame as usize * FRAME_WORDS + (va / WORD_BYTES) as usize % FRAME_WORDS
    }
}
