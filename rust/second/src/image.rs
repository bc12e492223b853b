//! Saved images: the ledger and the secure frames as blocks of 512 bytes, each
//! with its own check, written and read one block at a time.

use crate::accept::{accepted, fitting};
use crate::crc::crc32;
use crate::layout::{
    BLOCK_BYTES, BLOCK_HEAD, CHECKED_BYTES, FRAME_WORDS, PAYLOAD_WORDS, PROGRESS_WORDS, TOTAL_FROM,
};
use crate::machine::Machine;
use crate::service::{DONE, UNFIT};

/// The reader's answer from the first bad block on.
pub const BAD_BLOCK: u32 = 25;
/// The reader's answer where all blocks were good and acceptance says no.
pub const NOT_ACCEPTED: u32 = 26;

/// How many blocks an image of this box has; 0 where the numbers do not fit.
pub fn image_blocks(m: Machine) -> u32 {
    if m.fits() {
        blocks(m)
    } else {
        0
    }
}

/// Block `index` of the image of this state, whatever state it is, under this
/// number.
pub fn image_write(
    m: Machine,
    mem: &[u32],
    led: &[u32],
    number: u32,
    index: u32,
    block: &mut [u8],
) -> u32 {
    let Ok(bytes) = <&mut [u8; BLOCK_BYTES]>::try_from(block) else { return UNFIT };
    if fitting(m, mem, led).is_err() || index >= blocks(m) {
        return UNFIT;
    }
    let mut payload = [0; PAYLOAD_WORDS];
    for (word, place) in payload.iter_mut().zip(places(m, index)) {
        *word = match place {
            Place::Ledger(place) => led[place],
            Place::Memory(place) => mem[place],
            Place::Fill => 0,
        };
    }
    *bytes = Block { number, index, total: total_word(m), payload }.encode();
    DONE
}

/// The next block, into a spare memory and ledger.
pub fn image_read(
    m: Machine,
    mem: &mut [u32],
    led: &mut [u32],
    progress: &mut [u32],
    block: &[u8],
) -> u32 {
    let Ok(words) = <&mut [u32; PROGRESS_WORDS]>::try_from(progress) else { return UNFIT };
    if fitting(m, mem, led).is_err() {
        return UNFIT;
    }
    let mut reading = match Progress::of(words) {
        Progress::Over(answer) => return answer,
        Progress::At(reading) => reading,
    };
    let Some(block) = reading.next(m, block) else { return over(words, BAD_BLOCK) };
    for (word, place) in block.payload.into_iter().zip(places(m, block.index)) {
        match place {
            Place::Ledger(place) => led[place] = word,
            Place::Memory(place) => mem[place] = word,
            Place::Fill => {}
        }
    }
    reading.came += 1;
    reading.number = block.number;
    reading.store(words);
    DONE
}

/// No more blocks come: 0 where all have come and the spare is accepted.
pub fn image_end(m: Machine, mem: &[u32], led: &[u32], progress: &mut [u32]) -> u32 {
    let Ok(words) = <&mut [u32; PROGRESS_WORDS]>::try_from(progress) else { return UNFIT };
    if fitting(m, mem, led).is_err() {
        return UNFIT;
    }
    match Progress::of(words) {
        Progress::Over(answer) => answer,
        Progress::At(reading) if reading.came < blocks(m) => over(words, BAD_BLOCK),
        Progress::At(_) if accepted(m, mem, led).is_err() => over(words, NOT_ACCEPTED),
        Progress::At(_) => DONE,
    }
}

/// The words of an image: ledger, then secure frames.
fn image_words(m: Machine) -> usize {
    m.ledger_words() + FRAME_WORDS * m.page_count()
}

/// The least number of blocks that hold them.
fn blocks(m: Machine) -> u32 {
    image_words(m).div_ceil(PAYLOAD_WORDS) as u32
}

/// The word by which each block says how many there are.
fn total_word(m: Machine) -> u32 {
    blocks(m) + TOTAL_FROM
}

/// Where a word of a payload belongs.
#[derive(Clone, Copy)]
enum Place {
    Ledger(usize),
    Memory(usize),
    /// Behind the image.
    Fill,
}

/// Where the words of a block's payload belong.
fn places(m: Machine, index: u32) -> impl Iterator<Item = Place> {
    let first = index as usize * PAYLOAD_WORDS;
    (first..first + PAYLOAD_WORDS).map(move |word| match word.checked_sub(m.ledger_words()) {
        None => Place::Ledger(word),
        Some(_) if word >= image_words(m) => Place::Fill,
        Some(word) => Place::Memory(m.words_of(0).start + word),
    })
}

/// A block without its check.
struct Block {
    number: u32,
    index: u32,
    /// The word for the total.
    total: u32,
    payload: [u32; PAYLOAD_WORDS],
}

impl Block {
    fn encode(&self) -> [u8; BLOCK_BYTES] {
        let head = [self.number, self.index, self.total];
        let words = head.into_iter().chain(self.payload);
        let mut bytes: Vec<u8> = words.flat_map(u32::to_le_bytes).collect();
        bytes.extend(crc32(&bytes).to_le_bytes());
        bytes.try_into().expect("a whole block")
    }

    /// The block in these bytes, if they are as many and their check is right.
    fn decode(bytes: &[u8]) -> Option<Block> {
        let bytes: &[u8; BLOCK_BYTES] = bytes.try_into().ok()?;
        let word = |place: usize| {
            let at = |byte| bytes[4 * place + byte];
            u32::from_le_bytes([at(0), at(1), at(2), at(3)])
        };
        let block = Block {
            number: word(0),
            index: word(1),
            total: word(2),
            payload: std::array::from_fn(|place| word(BLOCK_HEAD + place)),
        };
        (crc32(&bytes[..CHECKED_BYTES]) == word(CHECKED_BYTES / 4)).then_some(block)
    }

    /// Whether the words behind the image are zero.
    fn fill_is_right(&self, m: Machine) -> bool {
        let mut words = self.payload.iter().zip(places(m, self.index));
        words.all(|(word, place)| *word == 0 || !matches!(place, Place::Fill))
    }
}

/// The places of the progress words.
const ANSWER: usize = 0;
const CAME: usize = 1;
const NUMBER: usize = 2;

/// How far a reading has come.
enum Progress {
    /// It has this answer for good.
    Over(u32),
    /// All blocks were good so far.
    At(Reading),
}

/// A reading without a bad block.
struct Reading {
    /// How many blocks came.
    came: u32,
    /// The image's number, once a block has come.
    number: u32,
}

impl Progress {
    fn of(words: &[u32; PROGRESS_WORDS]) -> Progress {
        match words[ANSWER] {
            0 => Progress::At(Reading { came: words[CAME], number: words[NUMBER] }),
            NOT_ACCEPTED => Progress::Over(NOT_ACCEPTED),
            _ => Progress::Over(BAD_BLOCK),
        }
    }
}

impl Reading {
    /// The block in these bytes, if it is the good one that comes next.
    fn next(&self, m: Machine, bytes: &[u8]) -> Option<Block> {
        let block = Block::decode(bytes)?;
        let good = block.index == self.came
            && block.index < blocks(m)
            && block.total == total_word(m)
            && (self.came == 0 || block.number == self.number)
            && block.fill_is_right(m);
        good.then_some(block)
    }

    fn store(&self, words: &mut [u32; PROGRESS_WORDS]) {
        words[CAME] = self.came;
        words[NUMBER] = self.number;
    }
}

/// The reading is over, with this answer.
fn over(words: &mut [u32; PROGRESS_WORDS], answer: u32) -> u32 {
    words[ANSWER] = answer;
    answer
}
