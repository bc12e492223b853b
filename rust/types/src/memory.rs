use crate::layout::FRAME_WORDS;
use core::fmt;

/// The memory: [`FRAME_WORDS`] a frame. `W` holds the words: a `Vec<u32>` owns
/// them, a `&mut [u32]` borrows them, a `&[u32]` only reads them.
///
/// Secure frames hold what enclaves keep to themselves. Printed for debugging
/// it shows how many words it has, and none of them.
///
/// ```
/// # extern crate types as monitor;
/// use monitor::layout::FRAME_WORDS;
/// use monitor::{Machine, Memory};
///
/// let mut memory = Memory::zeros(Machine::BOX_A);
/// memory.frame_mut(5).unwrap()[3] = 9;
/// assert_eq!(memory.frame(5).unwrap()[..4], [0, 0, 0, 9]);
/// assert_eq!(memory.frame(16), None);
/// assert_eq!(format!("{memory:?}"), "Memory { words: 16384 }");
///
/// let mut mine = [0; 2 * FRAME_WORDS];
/// assert_eq!(Memory::over(&mut mine[..]).frame_mut(1).unwrap().len(), FRAME_WORDS);
/// ```
#[derive(Clone, PartialEq, Eq)]
pub struct Memory<
    #[cfg(feature = "alloc")] W = alloc::vec::Vec<u32>,
    #[cfg(not(feature = "alloc"))] W,
>(W);

fn range_of(frame: u32) -> core::ops::Range<usize> {
    let start = (frame as usize).saturating_mul(FRAME_WORDS);
    start..start.saturating_add(FRAME_WORDS)
}

impl<W> Memory<W> {
    /// A memory over these words.
    pub const fn over(words: W) -> Memory<W> {
        Memory(words)
    }

    /// The words back.
    pub fn into_words(self) -> W {
        self.0
    }
}

impl<W: AsRef<[u32]>> Memory<W> {
    /// All words.
    pub fn words(&self) -> &[u32] {
        self.0.as_ref()
    }

    /// The words of a frame, if there is such a frame.
    pub fn frame(&self, frame: u32) -> Option<&[u32]> {
        self.words().get(range_of(frame))
    }
}

impl<W: AsMut<[u32]>> Memory<W> {
    /// All words, to be written.
    pub fn words_mut(&mut self) -> &mut [u32] {
        self.0.as_mut()
    }

    /// The words of a frame, to be written.
    pub fn frame_mut(&mut self, frame: u32) -> Option<&mut [u32]> {
        self.words_mut().get_mut(range_of(frame))
    }
}

impl<W: AsRef<[u32]>> fmt::Debug for Memory<W> {
    fn fmt(&self, out: &mut fmt::Formatter) -> fmt::Result {
        out.debug_struct("Memory").field("words", &self.words().len()).finish()
    }
}
