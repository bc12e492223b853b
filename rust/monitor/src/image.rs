//! Saved images: blocks out of a box, and blocks into a spare one.

use crate::monitor::Monitor;
use crate::words;
use core::fmt;
use types::code::{BAD_BLOCK, DONE};
use types::layout::{progress, BLOCK_BYTES, PROGRESS_WORDS};
use types::{BadImage, Block, Ledger, Machine, Memory, Unfit};

impl<M: AsRef<[u32]>, L: AsRef<[u32]>> Monitor<M, L> {
    /// This state as a saved image: its blocks in order, under a number of the
    /// host's choice. The state is borrowed for as long, so that an image is of one
    /// state. It need not be accepted; [`Restore::end`] asks that.
    ///
    /// The blocks hold the key and every secure page: they are kept as the ledger is.
    pub fn image(&self, number: u32) -> Result<Blocks<'_>, Unfit> {
        let (machine, memory) = (self.machine(), self.memory().words());
        let blocks = Blocks { machine, memory, ledger: self.ledger().words(), number, next: 0 };
        match blocks.written() {
            Some(_) => Ok(blocks),
            // It is proved to refuse the first block for numbers and lengths alone.
            None => {
                let unfit = Unfit::of_accepts(machine, memory, blocks.ledger);
                Err(unfit.expect("numbers or lengths"))
            }
        }
    }
}

/// The blocks of a saved image, one by one. Printed for debugging it shows no word
/// of them; a [`Block`] itself does.
#[derive(Clone)]
#[must_use = "blocks are written as they are asked for"]
pub struct Blocks<'a> {
    machine: Machine,
    memory: &'a [u32],
    ledger: &'a [u32],
    number: u32,
    next: u32,
}

impl Blocks<'_> {
    /// The next block, where there is one.
    fn written(&self) -> Option<Block> {
        let Blocks { machine, memory, ledger, number, next } = *self;
        let mut block = [0; BLOCK_BYTES];
        let code = words::image_write(machine, memory, ledger, number, next, &mut block);
        (code == DONE).then_some(block)
    }

    fn left(&self) -> usize {
        (words::image_blocks(self.machine) - self.next) as usize
    }
}

impl Iterator for Blocks<'_> {
    type Item = Block;

    fn next(&mut self) -> Option<Block> {
        self.written().inspect(|_| self.next += 1)
    }

    fn size_hint(&self) -> (usize, Option<usize>) {
        (self.left(), Some(self.left()))
    }
}

impl ExactSizeIterator for Blocks<'_> {}
impl core::iter::FusedIterator for Blocks<'_> {}

impl fmt::Debug for Blocks<'_> {
    fn fmt(&self, out: &mut fmt::Formatter) -> fmt::Result {
        let (number, left) = (&self.number, &self.left());
        out.debug_struct("Blocks").field("number", number).field("left", left).finish()
    }
}

/// A saved image on its way into a spare: a memory and a ledger as long as the
/// box's own, owned or borrowed, which are not in use. Printed for debugging it
/// shows no word of them.
///
/// Frames that are not secure stay as they were lent. A spare that is refused holds
/// the part of the image that came, mostly with the key in it, and nothing wipes it:
/// that is the host's to do.
///
/// Restoring rewinds history. An older image is as good as the newest: which one is
/// taken up again is the host's to decide.
///
/// ```
/// use monitor::{BadImage, Block, Call, Key, Ledger, Machine, Memory, Monitor, Restore};
///
/// const BOX: Machine = Machine::BOX_A;
/// # fn main() -> Result<(), Box<dyn std::error::Error>> {
/// let mut bench = Monitor::boot(BOX, &Key::new([1, 2, 3, 4, 5, 6, 7, 8]))?;
/// bench.call(Call::InitAddrSpace { space: 0, first: 1 })?;
/// let mut saved: Vec<Block> = bench.image(7)?.collect();
/// assert_eq!(saved.len(), 69);
///
/// let mut restore = Restore::over(BOX, Memory::zeros(BOX), Ledger::zeros(BOX))?;
/// for block in &saved {
///     restore.take(block)?;
/// }
/// let again = restore.end().map_err(|(bad, _)| bad)?;
/// assert_eq!(again.ledger(), bench.ledger());
///
/// // A block that was changed is named, and the spare comes back.
/// saved[5][100] ^= 1;
/// let mut restore = Restore::over(BOX, Memory::zeros(BOX), Ledger::zeros(BOX))?;
/// assert_eq!(saved.iter().try_for_each(|block| restore.take(block)), Err(BadImage::Block(5)));
/// let (bad, restore) = restore.end().unwrap_err();
/// assert_eq!(bad, BadImage::Block(5));
/// let (memory, ledger) = restore.into_parts();
/// # let _ = (memory, ledger);
/// # Ok(())
/// # }
/// ```
#[derive(Clone)]
#[must_use = "nothing is restored before the end says so"]
pub struct Restore<
    #[cfg(feature = "alloc")] M = alloc::vec::Vec<u32>,
    #[cfg(feature = "alloc")] L = alloc::vec::Vec<u32>,
    #[cfg(not(feature = "alloc"))] M,
    #[cfg(not(feature = "alloc"))] L,
> {
    machine: Machine,
    memory: Memory<M>,
    ledger: Ledger<L>,
    progress: [u32; PROGRESS_WORDS],
}

impl<M: AsMut<[u32]>, L: AsMut<[u32]>> Restore<M, L> {
    /// Into these words; nothing is asked of what they hold. Where it says no, words
    /// that were moved in are gone: borrow them, if they are wanted afterwards.
    pub fn over(
        machine: Machine,
        mut memory: Memory<M>,
        mut ledger: Ledger<L>,
    ) -> Result<Restore<M, L>, Unfit> {
        let (mem, led) = (memory.words_mut(), ledger.words_mut());
        // Of an image that is refused already the service says so again, unless
        // numbers or lengths do not fit.
        match words::image_end(machine, mem, led, &mut [BAD_BLOCK, 0, 0, 0]) {
            BAD_BLOCK => Ok(Restore { machine, memory, ledger, progress: [0; PROGRESS_WORDS] }),
            _ => Err(Unfit::of_accepts(machine, mem, led).expect("numbers or lengths")),
        }
    }

    /// Takes the next block. A bad one, of another length too, leaves the spare as it
    /// is; from then on every answer is the same.
    pub fn take(&mut self, block: &[u8]) -> Result<(), BadImage> {
        let (memory, ledger) = (self.memory.words_mut(), self.ledger.words_mut());
        let code = words::image_read(self.machine, memory, ledger, &mut self.progress, block);
        self.said(code)
    }

    /// Says that no block follows. The monitor over the restored state, which is
    /// accepted; or what is bad, and the spare as the good blocks left it.
    pub fn end(mut self) -> Result<Monitor<M, L>, (BadImage, Restore<M, L>)> {
        let (memory, ledger) = (self.memory.words_mut(), self.ledger.words_mut());
        let code = words::image_end(self.machine, memory, ledger, &mut self.progress);
        match self.said(code) {
            Ok(()) => Ok(Monitor::over(self.machine, self.memory, self.ledger)),
            Err(bad) => Err((bad, self)),
        }
    }
}

impl<M, L> Restore<M, L> {
    /// Numbers and lengths fitted at the start, and are the same since.
    fn said(&self, code: u32) -> Result<(), BadImage> {
        match code {
            DONE => Ok(()),
            _ => Err(BadImage::from_answer(code, &self.progress).expect("what is bad")),
        }
    }

    /// How many good blocks came.
    pub fn came(&self) -> u32 {
        self.progress[progress::CAME]
    }

    /// The image's number, once a good block came.
    pub fn number(&self) -> Option<u32> {
        (self.came() > 0).then_some(self.progress[progress::NUMBER])
    }

    /// The spare back.
    pub fn into_parts(self) -> (Memory<M>, Ledger<L>) {
        (self.memory, self.ledger)
    }
}

impl<M, L> fmt::Debug for Restore<M, L> {
    fn fmt(&self, out: &mut fmt::Formatter) -> fmt::Result {
        let (machine, came) = (&self.machine, &self.came());
        out.debug_struct("Restore").field("machine", machine).field("came", came).finish()
    }
}
