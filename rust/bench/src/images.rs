//! What is run for saved images: all blocks of a box, one after the other,
//! written, or read into a spare. Acceptance, with which a reading ends, has
//! rows of its own.

use crate::boxes::Lent;
use crate::meter::Side;
use crate::plain;
use crate::sides::numbers;
use second::layout::{BLOCK_BYTES, PROGRESS_WORDS};
use second::{Machine, DONE};
use std::hint::black_box;

/// A program's writer of a block.
pub type Write = fn(Machine, &[u32], &[u32], u32, u32, &mut [u8]) -> u32;
/// A program's reader of a block.
pub type Read = fn(Machine, &mut [u32], &mut [u32], &mut [u32], &[u8]) -> u32;

/// How many blocks the proved library says that an image has.
pub fn blocks(m: Machine) -> u32 {
    monitor::words::image_blocks(numbers(m))
}

/// The proved library's writer.
pub fn write(
    m: Machine,
    memory: &[u32],
    ledger: &[u32],
    number: u32,
    index: u32,
    block: &mut [u8],
) -> u32 {
    monitor::words::image_write(numbers(m), memory, ledger, number, index, block)
}

/// The proved library's reader.
pub fn read(
    m: Machine,
    memory: &mut [u32],
    ledger: &mut [u32],
    progress: &mut [u32],
    block: &[u8],
) -> u32 {
    monitor::words::image_read(numbers(m), memory, ledger, progress, block)
}

/// The sides of a row: the library, then the plain twin.
pub const WRITERS: [Write; 2] = [write, plain::image::write];
/// The same of a row that reads.
pub const READERS: [Read; 2] = [read, plain::image::read];

/// The number of the image that is written.
const NUMBER: u32 = 7;

/// What stands in the bytes and words that are lent before.
const BEFORE: (u8, u32) = (0xaa, 0xbbbb_bbbb);

/// A box written.
pub struct Saving<'b> {
    lent: &'b Lent,
    image: Vec<u8>,
    write: Write,
}

impl<'b> Saving<'b> {
    /// This box, by this writer.
    pub fn new(lent: &'b Lent, write: Write) -> Self {
        Saving { lent, image: vec![0; BLOCK_BYTES * blocks(lent.machine) as usize], write }
    }

    /// The blocks of the last run.
    pub fn image(&self) -> &[u8] {
        &self.image
    }
}

impl Side for Saving<'_> {
    fn prepare(&mut self) {
        self.image.fill(BEFORE.0);
    }

    fn run(&mut self) {
        let Lent { machine, memory, ledger } = black_box(self.lent);
        for (index, block) in (0..).zip(self.image.chunks_exact_mut(BLOCK_BYTES)) {
            assert_eq!((self.write)(*machine, memory, ledger, NUMBER, index, block), DONE);
        }
    }
}

/// An image read.
pub struct Loading<'b> {
    image: &'b [u8],
    spare: Lent,
    progress: [u32; PROGRESS_WORDS],
    read: Read,
}

impl<'b> Loading<'b> {
    /// These blocks of an image of a box, into a spare as large, by this reader.
    pub fn new(image: &'b [u8], start: &Lent, read: Read) -> Self {
        Loading { image, spare: start.clone(), progress: [0; PROGRESS_WORDS], read }
    }

    /// The spare and the progress as the last run left them.
    pub fn left(&self) -> (&Lent, &[u32]) {
        (&self.spare, &self.progress)
    }
}

impl Side for Loading<'_> {
    fn prepare(&mut self) {
        self.spare.memory.fill(BEFORE.1);
        self.spare.ledger.fill(BEFORE.1);
        self.progress.fill(0);
    }

    fn run(&mut self) {
        let Lent { machine, memory, ledger } = &mut self.spare;
        for block in black_box(self.image).chunks_exact(BLOCK_BYTES) {
            assert_eq!((self.read)(*machine, memory, ledger, &mut self.progress, block), DONE);
        }
    }
}
