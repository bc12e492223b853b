//! A host whose box is known when it is built: lengths and words are constants.

use types::{Key, Ledger, Machine, Memory};

const BOX: Machine = Machine { frames: 40, secure: 8, pages: 24, monitor: 2, monitors: 1 };
const _: () = assert!(BOX.fits() && BOX.broken_rule().is_none());
const _: () = assert!(BOX.is_insecure(3) && !BOX.is_insecure(2) && BOX.page_in(7).is_none());
const _: () = assert!(!Machine { monitor: 9, ..BOX }.fits());

static M: [u32; BOX.memory_words()] = [5; BOX.memory_words()];
static L: [u32; BOX.ledger_words()] = [0; BOX.ledger_words()];
static MEMORY: Memory<&[u32]> = Memory::over(&M);
static LEDGER: Ledger<&[u32]> = Ledger::over(&L);

#[test]
fn words_of_a_known_box() {
    assert_eq!(MEMORY.frame(BOX.frames - 1).map(|frame| frame[0]), Some(5));
    assert_eq!(MEMORY.frame(BOX.frames), None);
    assert_eq!(LEDGER.page_count(), BOX.pages);
}

/// Numbers that do not fit ask for no memory.
#[cfg(feature = "alloc")]
#[test]
fn zeros_of_a_box_that_fits() {
    assert_eq!(Memory::zeros(BOX).words().len(), BOX.memory_words());
    assert_eq!(Ledger::zeros(BOX).words().len(), BOX.ledger_words());
    for unfit in [
        Machine { frames: u32::MAX, ..BOX },
        Machine { pages: u32::MAX, ..BOX },
        Machine { monitors: 0, ..BOX },
    ] {
        assert!(Memory::zeros(unfit).words().is_empty(), "{unfit:?}");
        assert!(Ledger::zeros(unfit).words().is_empty(), "{unfit:?}");
    }
}

/// There are two ways to find it moved where it is also copied: then this is not
/// built.
trait Moved<By> {
    fn is_moved() {}
}
impl<T> Moved<()> for T {}
impl<T: Copy> Moved<u8> for T {}

#[test]
fn a_key_is_not_copied_by_the_way() {
    <Key as Moved<_>>::is_moved();
}
