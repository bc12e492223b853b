//! The same words and the same block lent to both programs, for writing images
//! and reading them.

use super::tally::{Images as Tally, Service};
use crate::lent::{Fenced, Lendable};
use crate::services::{Images, Second};
use crate::Outcome;
use second::layout::PROGRESS_WORDS;
use second::Machine;
use std::fmt::Display;

/// What the four services are lent.
#[derive(Clone)]
pub struct Shelf {
    /// The memory, or the spare one.
    pub memory: Fenced,
    /// The ledger, or the spare one.
    pub ledger: Fenced,
    /// What the reader keeps.
    pub progress: Fenced,
    /// The block.
    pub block: Fenced<u8>,
}

/// A shelf for the program under test and one for the second program, always
/// the same words but while a service is at work.
#[derive(Clone)]
pub struct Savers<'s> {
    images: &'s dyn Images,
    /// The numbers lent with the words.
    pub machine: Machine,
    ours: Shelf,
    theirs: Shelf,
}

impl Shelf {
    /// These lists, and progress words of a reading not begun.
    pub fn new(memory: Fenced, ledger: Fenced) -> Shelf {
        let (progress, block) = (Fenced::new(&[0; PROGRESS_WORDS]), Fenced::new(&[]));
        Shelf { memory, ledger, progress, block }
    }
}

impl<'s> Savers<'s> {
    /// Both get these words.
    pub fn new(
        images: &'s dyn Images,
        machine: Machine,
        memory: &[u32],
        ledger: &[u32],
    ) -> Savers<'s> {
        let shelf = Shelf::new(Fenced::new(memory), Fenced::new(ledger));
        Savers::of(images, machine, [shelf.clone(), shelf])
    }

    /// Ours and theirs, which hold the same words.
    pub fn of(images: &'s dyn Images, machine: Machine, shelves: [Shelf; 2]) -> Savers<'s> {
        let [ours, theirs] = shelves;
        Savers { images, machine, ours, theirs }
    }

    /// Ours and theirs.
    pub fn shelves(self) -> [Shelf; 2] {
        [self.ours, self.theirs]
    }

    /// The lent words.
    pub fn lent(&self) -> &Shelf {
        &self.theirs
    }

    /// Both get these progress words.
    pub fn set_progress(&mut self, words: &[u32]) {
        self.ours.progress.set(words);
        self.theirs.progress.set(words);
    }

    /// How many blocks there are, by both.
    pub fn blocks(&self, tally: &mut Tally) -> Result<u32, String> {
        let (ours, theirs) = (self.images.blocks(self.machine), Second.blocks(self.machine));
        tally.answered(Service::Blocks, theirs);
        match ours == theirs {
            true => Ok(theirs),
            false => Err(format!("{:?} has {theirs} blocks, ours says {ours}", self.machine)),
        }
    }

    /// A block written by both over these bytes.
    pub fn write(
        &mut self,
        number: u32,
        index: u32,
        over: &[u8],
        tally: &mut Tally,
    ) -> Result<u32, String> {
        let machine = self.machine;
        let run = |images: &dyn Images, shelf: &mut Shelf| {
            shelf.block.set(over);
            let Shelf { memory, ledger, block, .. } = shelf;
            images.write(machine, memory.words(), ledger.words(), number, index, block.words_mut())
        };
        let answers = (run(self.images, &mut self.ours), run(&Second, &mut self.theirs));
        self.agree(Service::Write, answers, tally)
    }

    /// A block read by both.
    pub fn read(&mut self, bytes: &[u8], tally: &mut Tally) -> Result<u32, String> {
        let machine = self.machine;
        let run = |images: &dyn Images, shelf: &mut Shelf| {
            shelf.block.set(bytes);
            let Shelf { memory, ledger, progress, block } = shelf;
            let (memory, ledger) = (memory.words_mut(), ledger.words_mut());
            images.read(machine, memory, ledger, progress.words_mut(), block.words())
        };
        let answers = (run(self.images, &mut self.ours), run(&Second, &mut self.theirs));
        self.agree(Service::Read, answers, tally)
    }

    /// A reading ended by both.
    pub fn end(&mut self, tally: &mut Tally) -> Result<u32, String> {
        let machine = self.machine;
        let run = |images: &dyn Images, shelf: &mut Shelf| {
            let Shelf { memory, ledger, progress, .. } = shelf;
            images.end(machine, memory.words(), ledger.words(), progress.words_mut())
        };
        let answers = (run(self.images, &mut self.ours), run(&Second, &mut self.theirs));
        self.agree(Service::End, answers, tally)
    }

    /// The answer both gave, if it is one answer and all words agree.
    fn agree(
        &self,
        service: Service,
        (ours, theirs): (u32, u32),
        tally: &mut Tally,
    ) -> Result<u32, String> {
        tally.answered(service, theirs);
        self.words_agree()
            .and_then(|()| match ours == theirs {
                true => Ok(theirs),
                false => Err(format!("ours answers {ours}, the second program {theirs}")),
            })
            .map_err(|what| format!("{service}: {what}; {}", self.lent_in_words()))
    }

    fn words_agree(&self) -> Outcome {
        let (ours, theirs) = (&self.ours, &self.theirs);
        same("progress word", &ours.progress, &theirs.progress)?;
        same("block byte", &ours.block, &theirs.block)?;
        same("ledger word", &ours.ledger, &theirs.ledger)?;
        same("memory word", &ours.memory, &theirs.memory)
    }

    /// Numbers, lengths and progress, as far as they help to find the fault.
    fn lent_in_words(&self) -> String {
        let Shelf { memory, ledger, progress, block } = &self.theirs;
        let (memory, ledger) = (memory.words().len(), ledger.words().len());
        let (progress, block) = (progress.words(), block.words());
        let (head, bytes) = (&block[..block.len().min(12)], block.len());
        let lengths = format!("{memory} words of memory, {ledger} of ledger, {bytes} bytes");
        format!("{:?}, {lengths}, progress {progress:?}, block {head:02x?}..", self.machine)
    }
}

/// What is lent of one kind agrees.
fn same<T: Lendable + Display>(what: &str, ours: &Fenced<T>, theirs: &Fenced<T>) -> Outcome {
    match ours.difference(theirs) {
        None => Ok(()),
        Some((place, our, their)) => {
            Err(format!("{what} {place}: ours {our}, the second program {their}"))
        }
    }
}
