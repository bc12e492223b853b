//! The second program with another reading of saved images, and what such
//! readings are made of.

use differ::images::saved;
use differ::images::stream::{mend, set, word, CHECK};
use differ::services::{Images, Services};
use differ::tally::Tally;
use second::cases::BOX_A;
use second::layout::{BLOCK_BYTES, BLOCK_HEAD, CHECKED_BYTES, FRAME_WORDS, PAYLOAD_WORDS};
use second::random::{fresh, Rng, View};
use second::shift::record;
use second::{
    accepts, batch, boot, image_blocks, image_end, image_read, image_write, Machine, DONE,
};

pub type Blocks = fn(Machine) -> u32;
pub type Write = fn(Machine, &[u32], &[u32], u32, u32, &mut [u8]) -> u32;
pub type Read = fn(Machine, &mut [u32], &mut [u32], &mut [u32], &[u8]) -> u32;
pub type End = fn(Machine, &[u32], &[u32], &mut [u32]) -> u32;

/// The four services by whichever reading.
#[derive(Clone, Copy)]
pub struct Wrong {
    pub blocks: Blocks,
    pub write: Write,
    pub read: Read,
    pub end: End,
}

/// As the rules have it.
pub const RIGHT: Wrong =
    Wrong { blocks: image_blocks, write: image_write, read: image_read, end: image_end };

/// One service is another.
pub fn blocks(blocks: Blocks) -> Wrong {
    Wrong { blocks, ..RIGHT }
}

pub fn write(write: Write) -> Wrong {
    Wrong { write, ..RIGHT }
}

pub fn read(read: Read) -> Wrong {
    Wrong { read, ..RIGHT }
}

pub fn end(end: End) -> Wrong {
    Wrong { end, ..RIGHT }
}

/// The first difference in that part of so many rounds which saves images. Box A
/// has a running thread there.
pub fn difference(images: &dyn Images, rounds: u64) -> Option<String> {
    let mut tally = Tally::default();
    (0..rounds).find_map(|seed| {
        let rng = &mut Rng::new(seed);
        let (mut memory, mut ledger) = fresh(rng, BOX_A);
        let calls = [&[2, 0, 1][..], &[3, 0, 2, 4096], &[8, 0], &[9, 2]].map(record).concat();
        let answers = &mut vec![0; calls.len()];
        assert_eq!(batch(BOX_A, &mut memory, &mut ledger, &calls, answers), DONE);
        let state = View { machine: BOX_A, memory: &memory, ledger: &ledger };
        let found = saved(images, rng, seed, state, &mut tally.images).err();
        found.map(|what| format!("seed {seed}: {what}"))
    })
}

pub fn told_apart(name: &str, flaw: Wrong) {
    let found = difference(&flaw, 120);
    println!("{name}: {}", found.as_deref().unwrap_or("NOT FOUND"));
    assert!(found.is_some(), "{name}");
}

/// Whether a reading that was good has met this answer just now.
pub fn just_now(code: u32, answer: u32, before: &[u32]) -> bool {
    code == answer && before.first() == Some(&0)
}

/// A writer that changes what it has written.
macro_rules! writes {
    ($name:literal, $change:expr) => {
        $crate::wrong_images::told_apart(
            $name,
            $crate::wrong_images::write(|m, mem, led, number, index, block| {
                $crate::wrong_images::rewritten(m, (mem, led), (number, index), block, $change)
            }),
        )
    };
}

/// A reader that sees another block than it is lent.
macro_rules! sees {
    ($name:literal, $amend:expr) => {
        $crate::wrong_images::told_apart(
            $name,
            $crate::wrong_images::read(|m, mem, led, progress, block| {
                let amend: fn(second::Machine, &[u32], &[u8]) -> Vec<u8> = $amend;
                let seen = match progress.len() {
                    4 => amend(m, progress, block),
                    _ => block.to_vec(),
                };
                second::image_read(m, mem, led, progress, &seen)
            }),
        )
    };
}

/// A reader that does something after the rules' reader has answered: it is
/// given that answer, the lent lists and the progress before.
macro_rules! after_reading {
    ($name:literal, $after:expr) => {
        $crate::wrong_images::told_apart(
            $name,
            $crate::wrong_images::read(|m, mem, led, progress, block| {
                type After<'a> = (second::Machine, &'a mut [u32], &'a mut [u32], &'a mut [u32]);
                let after: fn(u32, After, &[u32], &[u8]) -> u32 = $after;
                let before = progress.to_vec();
                let code = second::image_read(m, mem, led, progress, block);
                after(code, (m, mem, led, progress), &before, block)
            }),
        )
    };
}

/// The words of an image in their order.
pub fn image(m: Machine, memory: &[u32], ledger: &[u32]) -> Vec<u32> {
    [ledger, secure(m, memory)].concat()
}

/// The words of the secure frames.
pub fn secure(m: Machine, memory: &[u32]) -> &[u32] {
    &memory[m.words_of(0).start..][..FRAME_WORDS * m.page_count()]
}

/// Gives a block that was written the payload that this list has at its place,
/// zeros behind its end.
pub fn refill(words: &[u32], index: u32, block: &mut [u8]) {
    let payload = words.iter().skip(index as usize * PAYLOAD_WORDS).chain(std::iter::repeat(&0));
    for (place, new) in payload.take(PAYLOAD_WORDS).enumerate() {
        set(block, BLOCK_HEAD + place, *new);
    }
    mend(block);
}

/// The payload of a block, whatever its bytes.
pub fn payload(block: &[u8]) -> Vec<u32> {
    (BLOCK_HEAD..CHECK).map(|place| word(block, place)).collect()
}

/// Stores a payload at this index of a spare, ledger first.
pub fn store(m: Machine, memory: &mut [u32], ledger: &mut [u32], index: u32, payload: &[u32]) {
    let mut words = image(m, memory, ledger);
    let first = index as usize * PAYLOAD_WORDS;
    words.iter_mut().skip(first).zip(payload).for_each(|(word, new)| *word = *new);
    let (new, rest) = words.split_at(ledger.len());
    ledger.copy_from_slice(new);
    memory[m.words_of(0).start..][..rest.len()].copy_from_slice(rest);
}

/// Whether a block has its length and its check is right.
pub fn is_whole(block: &[u8]) -> bool {
    let mut mended = block.to_vec();
    block.len() == BLOCK_BYTES && {
        mend(&mut mended);
        mended == block
    }
}

/// A block with these changes and a right check, if its own was right.
pub fn amended(block: &[u8], change: impl FnOnce(&mut [u8])) -> Vec<u8> {
    let mut block = block.to_vec();
    if is_whole(&block) {
        change(&mut block);
        mend(&mut block);
    }
    block
}

/// A block that no reader takes.
pub fn spoiled(block: &[u8]) -> Vec<u8> {
    let mut block = amended(block, |_| ());
    block.iter_mut().take(1).for_each(|byte| *byte ^= 1);
    block
}

/// A block in whose place another check stands, or should.
pub fn with_check(block: &[u8], check: fn(&[u8]) -> u32) -> Option<u32> {
    (block.len() == BLOCK_BYTES).then(|| check(&block[..CHECKED_BYTES]))
}

impl Images for Wrong {
    fn blocks(&self, m: Machine) -> u32 {
        (self.blocks)(m)
    }

    fn write(
        &self,
        m: Machine,
        memory: &[u32],
        ledger: &[u32],
        number: u32,
        index: u32,
        block: &mut [u8],
    ) -> u32 {
        (self.write)(m, memory, ledger, number, index, block)
    }

    fn read(
        &self,
        m: Machine,
        memory: &mut [u32],
        ledger: &mut [u32],
        progress: &mut [u32],
        block: &[u8],
    ) -> u32 {
        (self.read)(m, memory, ledger, progress, block)
    }

    fn end(&self, m: Machine, memory: &[u32], ledger: &[u32], progress: &mut [u32]) -> u32 {
        (self.end)(m, memory, ledger, progress)
    }
}

impl Services for Wrong {
    fn boot(&self, m: Machine, key: &[u32], memory: &mut [u32], ledger: &mut [u32]) -> u32 {
        boot(m, key, memory, ledger)
    }

    fn accepts(&self, m: Machine, memory: &[u32], ledger: &[u32]) -> bool {
        accepts(m, memory, ledger)
    }

    fn batch(
        &self,
        m: Machine,
        memory: &mut [u32],
        ledger: &mut [u32],
        calls: &[u32],
        answers: &mut [u32],
    ) -> u32 {
        batch(m, memory, ledger, calls, answers)
    }

    fn images(&self) -> &dyn Images {
        self
    }
}

/// What a writer of the rules makes of a block, changed where it is done.
pub fn rewritten(
    m: Machine,
    (memory, ledger): (&[u32], &[u32]),
    (number, index): (u32, u32),
    block: &mut [u8],
    change: fn(Machine, (&[u32], &[u32]), u32, &mut [u8]),
) -> u32 {
    let code = image_write(m, memory, ledger, number, index, block);
    if code == DONE {
        change(m, (memory, ledger), index, block);
    }
    code
}
