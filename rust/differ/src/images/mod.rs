//! Images of the states of a round: written by both programs, then read back,
//! whole and damaged.

pub mod damage;
pub mod savers;
pub mod stream;
pub mod tally;

use crate::checks::random_bytes;
use crate::lent::random_words;
use crate::services::Images;
use crate::{expect, old, Outcome};
use damage::kinds;
use savers::Savers;
use second::layout::{
    BLOCK_BYTES, FRAME_WORDS, MOST_FRAMES, MOST_PAGES, PAYLOAD_WORDS, PROGRESS_WORDS, RUNNING,
    TOTAL_FROM,
};
use second::random::{damage, fresh, next_call, Rng, View};
use second::{
    accepts, batch, image_blocks, image_write, Machine, BAD_BLOCK, DONE, NOT_ACCEPTED, UNFIT,
};
use stream::{mend, set, Stream};
use tally::{tried, Images as Tally};

/// Pages up to which an image is written and read whole, always and at times.
const FEW: u32 = 8;
const SOME: u32 = 64;
/// Pages of the smallest box whose image has no fill, and whose old one had none.
const FULL: u32 = 30;
const OLD_FULL: u32 = 15;
/// Blocks that are written of a longer one.
const WINDOW: u32 = 6;
/// Frames from which on a spare is costly.
const LARGE: u32 = 300;

/// One round: an image of the state that a shift has led to, and one of a small
/// box that is accepted, damaged or of random words, by turns.
pub fn saved(
    images: &dyn Images,
    rng: &mut Rng,
    seed: u64,
    state: View,
    tally: &mut Tally,
) -> Outcome {
    let mut desk = Desk { images, rng, tally, turn: seed as usize };
    desk.totals()?;
    desk.image(tried::ACCEPTED, state)?;
    let machine = desk.small_box();
    let (mut memory, mut ledger) = desk.walked(machine);
    let name = [tried::ACCEPTED, tried::DAMAGED, tried::RANDOM][seed as usize % 3];
    if name == tried::DAMAGED {
        damage(desk.rng, machine, &mut memory, &mut ledger);
    } else if name == tried::RANDOM {
        memory = random_words(desk.rng, memory.len());
        ledger = random_words(desk.rng, ledger.len());
    }
    desk.image(name, View { machine, memory: &memory, ledger: &ledger })
}

/// Whatever is lent, fitting or not: the four services, and how many refused.
pub fn as_lent(savers: &mut Savers, rng: &mut Rng, tally: &mut Tally) -> Result<u64, String> {
    savers.set_progress(&[0, rng.below(2), rng.below(2), 0]);
    let block = random_bytes(rng, BLOCK_BYTES);
    let mut refused = u64::from(savers.blocks(tally)? == 0);
    for service in 0..3 {
        let answer = match service {
            0 => savers.write(rng.word(), rng.below(9), &block, tally)?,
            1 => savers.read(&block, tally)?,
            _ => savers.end(tally)?,
        };
        refused += u64::from(answer == UNFIT);
    }
    Ok(refused)
}

/// Who does the round, and what it has met.
struct Desk<'s, 'r> {
    images: &'s dyn Images,
    rng: &'r mut Rng,
    tally: &'r mut Tally,
    /// Kinds of damage have their turns from here.
    turn: usize,
}

/// Boxes, states and spares.
impl<'s> Desk<'s, '_> {
    /// How many blocks boxes of every size have.
    fn totals(&mut self) -> Outcome {
        let machine = |pages: u32| Machine {
            frames: MOST_FRAMES,
            secure: MOST_FRAMES - pages,
            pages,
            monitor: 0,
            monitors: 1,
        };
        let mut savers = Savers::new(self.images, machine(0), &[], &[]);
        for pages in 0..=MOST_PAGES + 1 {
            savers.machine = machine(pages);
            savers.blocks(self.tally)?;
        }
        savers.machine = Machine { frames: MOST_FRAMES + 1, ..machine(1) };
        savers.blocks(self.tally).map(drop)
    }

    /// Mostly of few pages; now and then of those whose image has no fill.
    fn small_box(&mut self) -> Machine {
        let pages = match self.turn % 8 {
            0 => FULL,
            4 => OLD_FULL,
            _ => 1 + self.rng.below(FEW),
        };
        let (before, after) = (self.rng.below(3), self.rng.below(3));
        let secure = 1 + before;
        Machine { frames: secure + pages + after, secure, pages, monitor: 0, monitors: 1 }
    }

    /// Booted, then some calls.
    fn walked(&mut self, machine: Machine) -> (Vec<u32>, Vec<u32>) {
        let (mut memory, mut ledger) = fresh(self.rng, machine);
        for _ in 0..self.rng.below(40) {
            let view = View { machine, memory: &memory, ledger: &ledger };
            let call = next_call(self.rng, view);
            batch(machine, &mut memory, &mut ledger, &call, &mut vec![0; call.len()]);
        }
        (memory, ledger)
    }

    /// A spare of random words; in a large box the memory is of one.
    fn spare(&mut self, machine: Machine) -> Savers<'s> {
        let ledger = random_words(self.rng, machine.ledger_words());
        let memory = match machine.frames {
            LARGE.. => vec![self.rng.word(); machine.memory_words()],
            _ => random_words(self.rng, machine.memory_words()),
        };
        Savers::new(self.images, machine, &memory, &ledger)
    }

    /// All blocks where they are few, else mostly some, at either end or between.
    fn window(&mut self, machine: Machine) -> (u32, u32) {
        let total = image_blocks(machine);
        let cheap = machine.pages <= SOME && machine.frames < LARGE;
        if machine.pages <= FEW || cheap && self.rng.once_in(12) {
            return (0, total);
        }
        let (any, last) = (self.rng.below(total - WINDOW), total - WINDOW);
        let border = (machine.ledger_words() / PAYLOAD_WORDS) as u32;
        let first = self.rng.pick(&[0, border.saturating_sub(2), any, last, last]);
        (first, first + WINDOW)
    }
}

/// Writing and reading.
impl<'s> Desk<'s, '_> {
    /// An image of this state: written, read as it is, and read damaged.
    fn image(&mut self, name: &'static str, state: View) -> Outcome {
        let machine = state.machine;
        let mut savers = Savers::new(self.images, machine, state.memory, state.ledger);
        let window = self.window(machine);
        let stream = Stream::written(&mut savers, self.rng, window, self.tally)?;
        self.tally.pages.insert(machine.pages);
        if name == tried::ACCEPTED && state.ledger[RUNNING] != 0 {
            self.tally.met(tried::RUNNING);
        }
        self.not_written(&mut savers)?;
        let mut spare = self.spare(machine);
        self.old(&mut spare, state)?;
        if stream.is_whole() {
            self.tally.met(name);
            self.read_whole(spare.clone(), &stream, state)?;
        }
        self.damages(&mut spare, &stream)?;
        let turns = if machine.frames < LARGE { 4 } else { 1 };
        for _ in 0..turns {
            self.any_progress(&mut spare, &stream)?;
            self.any_progress(&mut savers, &stream)?;
        }
        self.other_progress(&mut spare)
    }

    /// Some kinds of damage, each read into the spare; it is a new one each time
    /// where that costs little.
    fn damages(&mut self, spare: &mut Savers<'s>, stream: &Stream) -> Outcome {
        let new = (spare.machine.frames < LARGE).then(|| spare.clone());
        let damages = if new.is_some() { 9 } else { 3 };
        for turn in 0..damages {
            let kind = kinds()[(self.turn * damages + turn) % kinds().len()];
            let mut hurt = stream.clone();
            if let Some(place) = kind.apply(self.rng, &mut hurt) {
                self.tally.met(kind.name);
                self.read_hurt(spare, &hurt, stream, place)?;
            }
            new.iter().for_each(|new| *spare = new.clone());
        }
        Ok(())
    }

    /// Indices and blocks that the writer refuses.
    fn not_written(&mut self, savers: &mut Savers) -> Outcome {
        let total = image_blocks(savers.machine);
        let beyond = total + self.rng.below(u32::MAX - total);
        let index = self.rng.pick(&[total, total, total + 1, beyond, u32::MAX]);
        let block = random_bytes(self.rng, BLOCK_BYTES);
        self.tally.met(tried::WRITERS_INDEX);
        expect(savers.write(self.rng.word(), index, &block, self.tally)?, UNFIT)?;
        let short = self.rng.below(BLOCK_BYTES as u32) as usize;
        let length = self.rng.pick(&[0, BLOCK_BYTES - 1, BLOCK_BYTES + 1, short]);
        let block = random_bytes(self.rng, length);
        self.tally.met(tried::WRITERS_BLOCK);
        expect(savers.write(self.rng.word(), self.rng.below(total), &block, self.tally)?, UNFIT)
    }

    /// Images in the old form, and of today's words under the total alone, are
    /// refused at block 0, and nothing of them is written.
    fn old(&mut self, spare: &mut Savers, state: View) -> Outcome {
        let View { machine, memory, ledger } = state;
        let number = self.rng.word();
        let mut plain = vec![0; BLOCK_BYTES];
        image_write(machine, memory, ledger, number, 0, &mut plain);
        set(&mut plain, 2, image_blocks(machine));
        mend(&mut plain);
        self.refused_at_once(spare, tried::PLAIN_TOTAL, &[plain])?;
        if machine.pages <= old::PAGES {
            let blocks: Vec<_> = old::blocks(state, number).take(3).collect();
            self.refused_at_once(spare, tried::OLD, &blocks)?;
        }
        Ok(())
    }

    fn refused_at_once(
        &mut self,
        spare: &mut Savers,
        what: &'static str,
        blocks: &[Vec<u8>],
    ) -> Outcome {
        self.tally.met(what);
        let before = (spare.lent().memory.clone(), spare.lent().ledger.clone());
        let number = self.rng.word();
        spare.set_progress(&[0, 0, number, 0]);
        for block in blocks {
            expect(spare.read(block, self.tally)?, BAD_BLOCK)?;
        }
        expect(spare.end(self.tally)?, BAD_BLOCK)?;
        let after = spare.lent();
        let same = (&after.memory, &after.ledger) == (&before.0, &before.1);
        match same && after.progress.words() == [BAD_BLOCK, 0, number, 0] {
            true => Ok(()),
            false => Err(format!("{what} is not refused at block 0 with nothing written")),
        }
    }

    /// All blocks are good: the spare holds the image, and acceptance decides.
    fn read_whole(&mut self, mut savers: Savers, stream: &Stream, state: View) -> Outcome {
        let View { machine, memory, ledger } = state;
        savers.set_progress(&[0, 0, self.rng.word(), self.rng.word()]);
        for block in &stream.blocks {
            expect(savers.read(block, self.tally)?, DONE)?;
        }
        let yes = accepts(machine, memory, ledger);
        expect(savers.end(self.tally)?, if yes { DONE } else { NOT_ACCEPTED })?;
        let secure = |words: &[u32]| {
            let words = &words[machine.words_of(0).start..];
            words[..FRAME_WORDS * machine.page_count()].to_vec()
        };
        let lent = savers.lent();
        if lent.ledger.words() != ledger || secure(lent.memory.words()) != secure(memory) {
            return Err("an image was read whole and the spare has other words".into());
        }
        self.tally.met(tried::END_AGAIN);
        expect(savers.end(self.tally)?, if yes { DONE } else { NOT_ACCEPTED })?;
        if yes {
            self.tally.met(tried::AFTER_YES);
        }
        let block = &stream.blocks[self.rng.below(stream.blocks.len() as u32) as usize];
        expect(savers.read(block, self.tally)?, if yes { BAD_BLOCK } else { NOT_ACCEPTED })
    }

    /// Reads from a little before the damage to a little after it, and ends.
    fn read_hurt(
        &mut self,
        savers: &mut Savers,
        hurt: &Stream,
        whole: &Stream,
        place: usize,
    ) -> Outcome {
        let from = place.saturating_sub(self.rng.below(3) as usize);
        let to = hurt.blocks.len().min(place + 1 + self.rng.below(3) as usize);
        let came = hurt.first + from as u32;
        let number = if came == 0 { self.rng.word() } else { whole.number };
        savers.set_progress(&[0, came, number, self.rng.word()]);
        for block in &hurt.blocks[from..to] {
            if self.rng.once_in(16) {
                self.tally.met(tried::END_EARLY);
                savers.end(self.tally)?;
            }
            savers.read(block, self.tally)?;
        }
        self.read_on(savers, whole)
    }

    /// Ends, perhaps twice; the good block that should have come does not help.
    fn read_on(&mut self, savers: &mut Savers, whole: &Stream) -> Outcome {
        let answer = savers.end(self.tally)?;
        if self.rng.once_in(2) {
            self.tally.met(tried::END_AGAIN);
            expect(savers.end(self.tally)?, answer)?;
        }
        let came = savers.lent().progress.words()[1];
        let next = came.wrapping_sub(whole.first) as usize;
        if let Some(block) = whole.blocks.get(next).filter(|_| answer == BAD_BLOCK) {
            self.tally.met(tried::AFTER_BAD);
            expect(savers.read(block, self.tally)?, BAD_BLOCK)?;
            expect(savers.end(self.tally)?, BAD_BLOCK)?;
        }
        Ok(())
    }

    /// Progress words that no reading may have left, and a block that fits them
    /// or does not.
    fn any_progress(&mut self, savers: &mut Savers, stream: &Stream) -> Outcome {
        self.tally.met(tried::PROGRESS);
        let (any, total) = (self.rng.word(), stream.total());
        let answer =
            self.rng.pick(&[0, 0, 0, 0, 1, 7, UNFIT, 24, BAD_BLOCK, NOT_ACCEPTED, 27, 28, any]);
        let place = self.rng.below(stream.blocks.len() as u32);
        let index = stream.first + place;
        let shifted = total + TOTAL_FROM;
        let came =
            [index, index, index, 0, total - 1, total, total, total + 1, shifted, u32::MAX, any];
        let came = self.rng.pick(&came);
        let number = self.rng.pick(&[stream.number, stream.number, 0, any]);
        savers.set_progress(&[answer, came, number, self.rng.word()]);
        let mut block = stream.blocks[place as usize].clone();
        if self.rng.once_in(3) {
            set(&mut block, 1, came);
            mend(&mut block);
        }
        for _ in 0..3 {
            match self.rng.below(2) {
                0 => savers.read(&block, self.tally)?,
                _ => savers.end(self.tally)?,
            };
        }
        Ok(())
    }

    /// Progress of another length.
    fn other_progress(&mut self, savers: &mut Savers) -> Outcome {
        let any = PROGRESS_WORDS as u32 + 1 + self.rng.below(40);
        let length = self.rng.pick(&[0, 1, 2, 3, 5, any]) as usize;
        let answer = self.rng.pick(&[0, 1, BAD_BLOCK, NOT_ACCEPTED]);
        let mut words = random_words(self.rng, length);
        words.iter_mut().take(1).for_each(|word| *word = answer);
        savers.set_progress(&words);
        self.tally.met(tried::PROGRESS_LENGTH);
        let block = random_bytes(self.rng, BLOCK_BYTES);
        expect(savers.read(&block, self.tally)?, UNFIT)?;
        expect(savers.end(self.tally)?, UNFIT)
    }
}
