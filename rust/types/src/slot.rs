use crate::rights::{Rights, RIGHTS};

/// Where a slot has its frame.
const FRAME_SHIFT: u32 = 12;

/// A slot of a second-level table that is in use: it names a frame with rights.
///
/// The tables are in the house's own format. A host that fills the hardware's from
/// them reads the space's first-level page, where a word is a table's page plus 1,
/// or 0; and then each table, whose slot j stands for
/// [`Mapping::new`](crate::Mapping::new)`(index, j)`:
///
/// ```
/// # extern crate types as monitor;
/// use monitor::{Machine, Memory, Slot};
///
/// let machine = Machine::BOX_A;
/// let mut memory = Memory::zeros(machine);
/// let table = machine.secure + 2; // the frame of page 2
/// memory.frame_mut(table).unwrap()[1] = 4096 * 9 + 3;
///
/// let words = memory.frame(table).unwrap();
/// let used: Vec<(usize, Slot)> =
///     (0..).zip(words).filter_map(|(j, word)| Some((j, Slot::decode(*word)?))).collect();
/// let [(1, slot)] = used[..] else { panic!("one slot is in use") };
/// assert_eq!((slot.frame(), slot.rights().to_string()), (9, "rw-".to_string()));
/// assert_eq!(machine.page_in(slot.frame()), Some(3));
/// assert_eq!(slot.encode(), words[1]);
/// ```
#[derive(Clone, Copy, Debug, PartialEq, Eq, Hash)]
pub struct Slot(u32);

impl Slot {
    /// The slot of a word of a table. None for zero, which is an empty slot, and for
    /// a word without read or with a bit between rights and frame, which acceptance
    /// refuses. Acceptance asks for more.
    pub const fn decode(word: u32) -> Option<Slot> {
        let slot = Slot(word);
        if slot.rights().reads() && word == (slot.frame() << FRAME_SHIFT | word & RIGHTS) {
            Some(slot)
        } else {
            None
        }
    }

    /// The word.
    pub const fn encode(self) -> u32 {
        self.0
    }

    /// The frame that it names.
    pub const fn frame(self) -> u32 {
        self.0 >> FRAME_SHIFT
    }

    /// The rights that it gives.
    pub const fn rights(self) -> Rights {
        Rights::of(self.0)
    }
}
