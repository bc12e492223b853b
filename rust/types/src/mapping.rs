use crate::layout::{FRAME_WORDS, MOST_TABLES};
use crate::rights::{Rights, EXECUTE, READ, RIGHTS, WRITE};
use core::fmt;

/// Where an address has its index, and its slot.
const INDEX_SHIFT: u32 = 22;
const PAGE_SHIFT: u32 = 12;
/// Slots in a table.
const SLOTS: u32 = FRAME_WORDS as u32;
/// The bits of a page address.
const PAGE_ADDRESS: u32 = (MOST_TABLES << INDEX_SHIFT) - (1 << PAGE_SHIFT);

/// A mapping word: a page address in bits 12-29 and rights in bits 0-2.
///
/// It is a type of its own, so that it can't be mixed with a frame or a page.
/// Any word can be one; [`Mapping::is_well_formed`] says whether calls take it.
///
/// ```
/// # extern crate types as monitor;
/// use monitor::Mapping;
///
/// let map = Mapping::new(0, 1).unwrap().writable();
/// assert_eq!(map.word(), 4099);
/// assert_eq!(Mapping::at(4096).map(Mapping::writable), Some(map));
/// assert_eq!((Mapping::new(256, 0), Mapping::new(0, 1024)), (None, None));
/// assert_eq!((Mapping::at(4100), Mapping::at(1 << 30)), (None, None));
/// assert_eq!((map.index(), map.slot(), map.address()), (0, 1, 4096));
/// assert!(map.is_well_formed() && !Mapping::from_word(4098).is_well_formed());
/// assert_eq!((map.to_string(), map.rights().bits()), ("4096 rw-".to_string(), 3));
/// ```
#[derive(Clone, Copy, Debug, PartialEq, Eq, Hash)]
pub struct Mapping(u32);

impl Mapping {
    /// The page at a first-level index and a slot of its table, to be read
    /// only; none where there is no such index or slot.
    pub const fn new(index: u32, slot: u32) -> Option<Mapping> {
        if index < MOST_TABLES && slot < SLOTS {
            Some(Mapping((index << INDEX_SHIFT) | (slot << PAGE_SHIFT) | READ))
        } else {
            None
        }
    }

    /// The page at an address in bytes, to be read only; none where no page
    /// starts there, or none can be mapped.
    pub const fn at(address: u32) -> Option<Mapping> {
        if address & !PAGE_ADDRESS == 0 {
            Some(Mapping(address | READ))
        } else {
            None
        }
    }

    /// Any word as a mapping word.
    pub const fn from_word(word: u32) -> Mapping {
        Mapping(word)
    }

    /// The word itself.
    pub const fn word(self) -> u32 {
        self.0
    }

    /// The same with the write right.
    pub const fn writable(self) -> Mapping {
        Mapping(self.0 | WRITE)
    }

    /// The same with the execute right.
    pub const fn executable(self) -> Mapping {
        Mapping(self.0 | EXECUTE)
    }

    /// The first-level index, bits 22-29.
    pub const fn index(self) -> u32 {
        (self.0 >> INDEX_SHIFT) % MOST_TABLES
    }

    /// The slot of the second-level table, bits 12-21.
    pub const fn slot(self) -> u32 {
        (self.0 >> PAGE_SHIFT) % SLOTS
    }

    /// The page address, rights cleared.
    pub const fn address(self) -> u32 {
        self.0 & PAGE_ADDRESS
    }

    /// The rights, bits 0-2.
    pub const fn rights(self) -> Rights {
        Rights::of(self.0)
    }

    /// Whether the write right is in it.
    pub const fn writes(self) -> bool {
        self.rights().writes()
    }

    /// Whether the execute right is in it.
    pub const fn executes(self) -> bool {
        self.rights().executes()
    }

    /// Whether read is set, and no bit but those of address and rights.
    pub const fn is_well_formed(self) -> bool {
        self.rights().reads() && self.0 & !(PAGE_ADDRESS | RIGHTS) == 0
    }
}

/// The address and the rights, as `4096 rw-`; the bare word where ill-formed.
impl fmt::Display for Mapping {
    fn fmt(&self, out: &mut fmt::Formatter) -> fmt::Result {
        if !self.is_well_formed() {
            return write!(out, "ill-formed {}", self.0);
        }
        write!(out, "{} {}", self.address(), self.rights())
    }
}
