//! Damage to the blocks of an image, by kinds.

use super::stream::{mend, set, word, Stream, CHECK};
use crate::checks::random_bytes;
use second::crc::crc32;
use second::layout::{BLOCK_BYTES, BLOCK_HEAD, CHECKED_BYTES, PAYLOAD_WORDS, TOTAL_FROM};
use second::random::{fresh, Rng};
use second::{image_blocks, image_write, Machine};

/// A kind of damage.
#[derive(Clone, Copy)]
pub struct Kind {
    /// What is done.
    pub name: &'static str,
    act: fn(&mut Hurt) -> Option<usize>,
}

impl Kind {
    /// Does this damage to good blocks and gives the place of the first that is
    /// hurt; None, with nothing changed, where there is nothing of the kind.
    pub fn apply(&self, rng: &mut Rng, stream: &mut Stream) -> Option<usize> {
        (self.act)(&mut Hurt { rng, stream })
    }
}

/// All kinds of damage.
pub fn kinds() -> &'static [Kind] {
    macro_rules! kinds {
        ($($name:literal $act:ident;)*) => {
            &[$(Kind { name: $name, act: |hurt| hurt.$act() }),*]
        };
    }
    kinds! {
        "a bit flipped" bit;
        "a byte changed, the check right" byte;
        "a payload word changed, the check right" payload;
        "a payload word changed, the check as it was" unchecked;
        "another number" number;
        "another index" index;
        "another total" total;
        "a wrong fill" fill;
        "a block dropped" dropped;
        "a block doubled" doubled;
        "two blocks swapped" swapped;
        "cut short" cut;
        "one more block" one_more;
        "the last block again" last_again;
        "the first block again" first_again;
        "a block of another length" length;
        "blocks of two images" mixed;
        "a block of another box" other_box;
        "a check stored big-endian" big_endian_check;
        "a check not inverted at the start" check_from_zero;
        "a check not inverted at the end" check_not_inverted;
        "a check with bits high first" check_high_first;
        "a check of 504 bytes" short_check;
        "a block of big-endian words" big_endian;
        "a block of random bytes" random;
        "a block of random bytes, the check right" random_checked;
        "a block of zeros, the check right" zeros;
    }
}

struct Hurt<'a> {
    rng: &'a mut Rng,
    stream: &'a mut Stream,
}

/// Choosing.
impl Hurt<'_> {
    fn any(&mut self) -> Option<usize> {
        let many = self.stream.blocks.len() as u32;
        (many > 0).then(|| self.rng.below(many) as usize)
    }

    fn last(&self) -> Option<usize> {
        self.stream.blocks.len().checked_sub(1).filter(|_| self.stream.has_last())
    }

    /// Changes a block.
    fn change(&mut self, change: impl FnOnce(&mut Rng, &mut Vec<u8>)) -> Option<usize> {
        let place = self.any()?;
        change(self.rng, &mut self.stream.blocks[place]);
        Some(place)
    }

    /// Changes a word of a block to one of these or to any, and mends the check.
    fn reword(&mut self, place: usize, number: usize, words: &[u32]) -> Option<usize> {
        let block = &mut self.stream.blocks[place];
        let other = self.rng.word();
        let new = self.rng.pick(&[words, &[other]].concat());
        let new = if new == word(block, number) { !new } else { new };
        set(block, number, new);
        mend(block);
        Some(place)
    }

    /// Gives a block the check that this finds for it.
    fn recheck(&mut self, check: fn(&[u8]) -> u32) -> Option<usize> {
        self.change(|_, block| {
            let check = check(&block[..CHECKED_BYTES]);
            set(block, CHECK, check);
        })
    }
}

/// Words, bytes and bits.
impl Hurt<'_> {
    fn bit(&mut self) -> Option<usize> {
        self.change(|rng, block| {
            let bit = rng.below(8 * BLOCK_BYTES as u32) as usize;
            block[bit / 8] ^= 1 << (bit % 8);
        })
    }

    fn byte(&mut self) -> Option<usize> {
        self.change(|rng, block| {
            block[rng.below(CHECKED_BYTES as u32) as usize] ^= 1 + rng.below(255) as u8;
            mend(block);
        })
    }

    fn payload(&mut self) -> Option<usize> {
        let place = self.any()?;
        let number = BLOCK_HEAD + self.rng.below(PAYLOAD_WORDS as u32) as usize;
        self.reword(place, number, &[])
    }

    fn unchecked(&mut self) -> Option<usize> {
        self.change(|rng, block| {
            let place = BLOCK_HEAD + rng.below(PAYLOAD_WORDS as u32) as usize;
            let other = word(block, place) ^ rng.nonzero();
            set(block, place, other);
        })
    }

    fn number(&mut self) -> Option<usize> {
        let (place, number) = (self.any()?, self.stream.number);
        self.reword(place, 0, &[0, number.wrapping_add(1), u32::MAX])
    }

    fn index(&mut self) -> Option<usize> {
        let (place, total) = (self.any()?, self.stream.total());
        let index = self.stream.first + place as u32;
        let others = [0, index.wrapping_sub(1), index + 1, index + TOTAL_FROM, total, u32::MAX];
        self.reword(place, 1, &others)
    }

    fn total(&mut self) -> Option<usize> {
        let (place, total) = (self.any()?, self.stream.total());
        let word = total + TOTAL_FROM;
        let others = [0, total, TOTAL_FROM, word - 1, word + 1, word + TOTAL_FROM, u32::MAX];
        self.reword(place, 2, &others)
    }

    /// One word behind the image, the first or the last one often.
    fn fill(&mut self) -> Option<usize> {
        let (place, machine) = (self.last()?, self.stream.machine);
        let words = machine.ledger_words() + 1024 * machine.page_count();
        let begin = words - PAYLOAD_WORDS * (self.stream.total() as usize - 1);
        let many = PAYLOAD_WORDS.checked_sub(begin).filter(|many| *many > 0)?;
        let any = begin + self.rng.below(many as u32) as usize;
        let word = self.rng.pick(&[begin, any, PAYLOAD_WORDS - 1]);
        self.reword(place, BLOCK_HEAD + word, &[1, 1 << 31])
    }

    fn length(&mut self) -> Option<usize> {
        self.change(|rng, block| {
            let any = rng.below(BLOCK_BYTES as u32) as usize;
            let lengths = [0, 1, BLOCK_BYTES - 4, BLOCK_BYTES - 1, BLOCK_BYTES + 1, any, any];
            block.resize(rng.pick(&lengths), 0);
        })
    }
}

/// Whole blocks.
impl Hurt<'_> {
    fn dropped(&mut self) -> Option<usize> {
        let place = self.any()?;
        self.stream.blocks.remove(place);
        Some(place)
    }

    fn doubled(&mut self) -> Option<usize> {
        let place = self.any()?;
        let block = self.stream.blocks[place].clone();
        self.stream.blocks.insert(place, block);
        Some(place)
    }

    fn swapped(&mut self) -> Option<usize> {
        let (one, other) = (self.any()?, self.any()?);
        self.stream.blocks.swap(one, other);
        (one != other).then_some(one.min(other))
    }

    fn cut(&mut self) -> Option<usize> {
        let place = self.any()?;
        self.stream.blocks.truncate(place);
        Some(place)
    }

    /// The block that would come after the last, with a payload or without.
    fn one_more(&mut self) -> Option<usize> {
        let mut block = self.stream.blocks[self.last()?].clone();
        if self.rng.once_in(2) {
            block[4 * BLOCK_HEAD..CHECKED_BYTES].fill(0);
        }
        set(&mut block, 1, self.stream.total());
        mend(&mut block);
        self.stream.blocks.push(block);
        self.last_place()
    }

    fn last_again(&mut self) -> Option<usize> {
        let block = self.stream.blocks[self.last()?].clone();
        self.stream.blocks.push(block);
        self.last_place()
    }

    fn first_again(&mut self) -> Option<usize> {
        self.last()?;
        self.stream.blocks.push(self.stream.blocks[0].clone());
        self.last_place()
    }

    fn last_place(&self) -> Option<usize> {
        self.stream.blocks.len().checked_sub(1)
    }

    /// From a block on those of another image of the same state.
    fn mixed(&mut self) -> Option<usize> {
        let (place, number) = (self.any()?, self.stream.number ^ self.rng.nonzero());
        for block in &mut self.stream.blocks[place..] {
            set(block, 0, number);
            mend(block);
        }
        Some(place)
    }

    fn other_box(&mut self) -> Option<usize> {
        let pages = if self.stream.machine.pages == 1 { 2 } else { 1 };
        let machine = Machine { frames: pages + 1, secure: 1, pages, monitor: 0, monitors: 1 };
        let (memory, ledger) = fresh(self.rng, machine);
        let Stream { number, first, .. } = *self.stream;
        self.change(|rng, block| {
            let index = first.min(rng.below(image_blocks(machine)));
            image_write(machine, &memory, &ledger, number, index, block);
        })
    }

    fn random(&mut self) -> Option<usize> {
        self.change(|rng, block| *block = random_bytes(rng, BLOCK_BYTES))
    }

    fn random_checked(&mut self) -> Option<usize> {
        self.change(|rng, block| {
            *block = random_bytes(rng, BLOCK_BYTES);
            mend(block);
        })
    }

    fn zeros(&mut self) -> Option<usize> {
        self.change(|_, block| {
            block.fill(0);
            mend(block);
        })
    }
}

/// Other checks, and other orders of bytes.
impl Hurt<'_> {
    fn big_endian_check(&mut self) -> Option<usize> {
        self.recheck(|bytes| crc32(bytes).swap_bytes())
    }

    /// The CRC is linear: what the first inversion adds is that of zeros.
    fn check_from_zero(&mut self) -> Option<usize> {
        self.recheck(|bytes| !(crc32(bytes) ^ crc32(&[0; CHECKED_BYTES])))
    }

    fn check_not_inverted(&mut self) -> Option<usize> {
        self.recheck(|bytes| !crc32(bytes))
    }

    fn check_high_first(&mut self) -> Option<usize> {
        self.recheck(|bytes| {
            let turned: Vec<u8> = bytes.iter().map(|byte| byte.reverse_bits()).collect();
            crc32(&turned).reverse_bits()
        })
    }

    fn short_check(&mut self) -> Option<usize> {
        self.recheck(|bytes| crc32(&bytes[..CHECKED_BYTES - 4]))
    }

    fn big_endian(&mut self) -> Option<usize> {
        self.change(|_, block| {
            block.chunks_exact_mut(4).for_each(|word| word.reverse());
            let check = crc32(&block[..CHECKED_BYTES]).swap_bytes();
            set(block, CHECK, check);
        })
    }
}
