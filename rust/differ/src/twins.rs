//! The same words lent to both programs.

use crate::images::savers::{Savers, Shelf};
use crate::lent::{random_words, Lent, NAMES};
use crate::services::{Second, Services};
use crate::tally::Tally;
use crate::Outcome;
use second::layout::{HEADER_WORDS, RECORD_WORDS};
use second::random::{next_call, Rng, View};
use second::{Machine, DONE};
use std::mem::take;

/// What is lent to the program under test and to the second program, always
/// the same words but while a service is at work.
#[derive(Clone)]
pub struct Twins<'s> {
    services: &'s dyn Services,
    /// The numbers lent with the words.
    pub machine: Machine,
    ours: Lent,
    theirs: Lent,
}

impl<'s> Twins<'s> {
    /// Both get these words.
    pub fn new(services: &'s dyn Services, machine: Machine, lent: Lent) -> Twins<'s> {
        Twins { services, machine, ours: lent.clone(), theirs: lent }
    }

    /// The lent words.
    pub fn lent(&self) -> &Lent {
        &self.theirs
    }

    /// The state, for choosing what to do next.
    pub fn view(&self) -> View<'_> {
        let (memory, ledger) = (self.theirs.memory.words(), self.theirs.ledger.words());
        View { machine: self.machine, memory, ledger }
    }

    /// Whether all pages are free.
    pub fn is_fresh(&self) -> bool {
        self.theirs.ledger.words()[HEADER_WORDS..].iter().all(|word| *word == 0)
    }

    /// Changes the words of both in the same way.
    pub fn change<T>(&mut self, change: impl FnOnce(&mut Lent) -> T) -> T {
        let changed = change(&mut self.theirs);
        for place in 0..NAMES.len() {
            let Twins { ours, theirs, .. } = self;
            if ours.list(place) != theirs.list(place) {
                ours.list(place).clone_from(theirs.list(place));
            }
        }
        changed
    }

    /// Boot, by both.
    pub fn boot(&mut self, tally: &mut Tally) -> Result<u32, String> {
        tally.boots += 1;
        let machine = self.machine;
        let run = |services: &dyn Services, lent: &mut Lent| {
            let Lent { key, memory, ledger, .. } = lent;
            services.boot(machine, key.words(), memory.words_mut(), ledger.words_mut())
        };
        let answers = (run(self.services, &mut self.ours), run(&Second, &mut self.theirs));
        self.agree("boot", answers)
    }

    /// Acceptance, by both.
    pub fn accepts(&self) -> Result<bool, String> {
        let machine = self.machine;
        let run = |services: &dyn Services, lent: &Lent| {
            services.accepts(machine, lent.memory.words(), lent.ledger.words())
        };
        let answers = (run(self.services, &self.ours), run(&Second, &self.theirs));
        let answers = (u32::from(answers.0), u32::from(answers.1));
        self.agree("acceptance", answers).map(|yes| yes == 1)
    }

    /// A batch, by both; the answers hold random words before.
    pub fn batch(
        &mut self,
        rng: &mut Rng,
        calls: &[u32],
        tally: &mut Tally,
    ) -> Result<u32, String> {
        self.change(|lent| {
            lent.calls.set(calls);
            lent.answers.set(&random_words(rng, calls.len()));
        });
        let code = self.batch_as_lent()?;
        if code == DONE {
            tally.note(calls, self.theirs.answers.words());
        }
        Ok(code)
    }

    /// A batch of the lists as they are lent.
    pub fn batch_as_lent(&mut self) -> Result<u32, String> {
        let machine = self.machine;
        let run = |services: &dyn Services, lent: &mut Lent| {
            let Lent { memory, ledger, calls, answers, .. } = lent;
            let (mem, led) = (memory.words_mut(), ledger.words_mut());
            services.batch(machine, mem, led, calls.words(), answers.words_mut())
        };
        let answers = (run(self.services, &mut self.ours), run(&Second, &mut self.theirs));
        self.agree("batch", answers)
    }

    /// Lends memory and ledger of both for saving images, and takes them back.
    pub fn lend<T>(&mut self, work: impl FnOnce(&mut Savers<'s>) -> T) -> T {
        let lent = [&mut self.ours, &mut self.theirs];
        let shelves = lent.map(|lent| Shelf::new(take(&mut lent.memory), take(&mut lent.ledger)));
        let mut savers = Savers::of(self.services.images(), self.machine, shelves);
        let done = work(&mut savers);
        for (lent, shelf) in [&mut self.ours, &mut self.theirs].into_iter().zip(savers.shelves()) {
            (lent.memory, lent.ledger) = (shelf.memory, shelf.ledger);
        }
        done
    }

    /// So many calls drawn one after the other, each for the state that the
    /// ones before it lead to; the twins stay where they are.
    pub fn draw(&self, rng: &mut Rng, records: usize) -> Vec<u32> {
        if records == 1 {
            return next_call(rng, self.view()).to_vec();
        }
        let machine = self.machine;
        let (mut memory, mut ledger) =
            (self.theirs.memory.words().to_vec(), self.theirs.ledger.words().to_vec());
        let mut calls = Vec::new();
        for _ in 0..records {
            let call = next_call(rng, View { machine, memory: &memory, ledger: &ledger });
            second::batch(machine, &mut memory, &mut ledger, &call, &mut [0; RECORD_WORDS]);
            calls.extend(call);
        }
        calls
    }

    /// The answer both gave, if it is one answer and all words agree.
    fn agree(&self, service: &str, (ours, theirs): (u32, u32)) -> Result<u32, String> {
        self.words_agree()
            .and_then(|()| match ours == theirs {
                true => Ok(theirs),
                false => Err(format!("ours answers {ours}, the second program {theirs}")),
            })
            .map_err(|what| format!("{service}: {what}; {}", self.lent_in_words()))
    }

    fn words_agree(&self) -> Outcome {
        for (name, (ours, theirs)) in
            NAMES.iter().zip(self.ours.lists().into_iter().zip(self.theirs.lists()))
        {
            if let Some((place, our, their)) = ours.difference(theirs) {
                return Err(format!("{name} word {place}: ours {our}, the second program {their}"));
            }
        }
        Ok(())
    }

    /// Numbers, lengths and the calls, as far as they help to find the fault.
    fn lent_in_words(&self) -> String {
        let calls = self.theirs.calls.words();
        let lengths = self.theirs.lists().map(|list| list.words().len());
        let shown = &calls[..calls.len().min(RECORD_WORDS)];
        format!("{:?}, lengths {NAMES:?} {lengths:?}, first call {shown:?}", self.machine)
    }
}
