//! The second program with another walk: for a load or a store that is alone
//! in a batch, or for the address of a call that maps a page.

use differ::services::{Images, Second, Services};
use second::calls::{number, Code};
use second::layout::{record_of, word, FRAME_WORDS, RECORD_WORDS, RUNNING};
use second::mapping::{Mapping, PAGE_SHIFT, WORD_BYTES};
use second::shift::record;
use second::{accepts, batch, boot, Machine, Reason, DONE};

/// What is lent, before a call.
#[derive(Clone, Copy)]
pub struct Before<'a> {
    pub machine: Machine,
    pub memory: &'a [u32],
    pub ledger: &'a [u32],
}

impl Before<'_> {
    fn record(&self, page: u32) -> &[u32] {
        &self.ledger[record_of(page as usize)]
    }

    /// The running thread's space.
    fn running(&self) -> Option<u32> {
        Some(self.record(self.ledger[RUNNING].checked_sub(1)?)[word::OWNER])
    }

    /// Where the slot of this address stands, if its index has a table: by bits
    /// 22-29 and 12-21, whatever the others are.
    fn slot(&self, space: u32, va: u32) -> Option<usize> {
        let place = |page: u32, slot: usize| self.machine.words_of(page as usize).start + slot;
        let first = self.record(space)[word::FIRST];
        let table = self.memory[place(first, Mapping(va).index())].checked_sub(1)?;
        Some(place(table, Mapping(va).slot()))
    }
}

/// A load or a store of the running thread, in the words before it.
#[derive(Clone, Copy)]
pub struct Access<'a> {
    pub before: Before<'a>,
    pub va: u32,
    pub store: bool,
    /// What is stored.
    pub word: u32,
}

impl Access<'_> {
    /// The word of its slot, if its index has a table.
    pub fn slot(&self) -> Option<u32> {
        let space = self.before.running()?;
        self.before.slot(space, self.va).map(|place| self.before.memory[place])
    }

    /// Where its word stands by that slot.
    pub fn place(&self) -> Option<usize> {
        let word = (self.va / WORD_BYTES) as usize % FRAME_WORDS;
        self.slot().map(|slot| (slot >> PAGE_SHIFT) as usize * FRAME_WORDS + word)
    }

    /// Whether the slot lacks this right.
    pub fn lacks(&self, right: u32) -> bool {
        self.slot().is_some_and(|slot| slot & right == 0)
    }

    /// Each of the five tests by itself, in the words of the rules: where there
    /// is no table there is no slot, and an empty slot has no right.
    pub fn holds(&self, reason: Reason) -> bool {
        match reason {
            Reason::Misaligned => self.va & 3 != 0,
            Reason::TooHigh => self.va >= 1 << 30,
            Reason::NoTable => self.slot().is_none(),
            Reason::EmptySlot => self.slot() == Some(0),
            Reason::NoWrite => self.store && self.lacks(2),
        }
    }

    /// The first of these that holds.
    pub fn first_of(&self, order: &[Reason]) -> Option<Reason> {
        order.iter().copied().find(|reason| self.holds(*reason))
    }

    /// The first of the five that holds.
    pub fn plain(&self) -> Option<Reason> {
        self.first_of(&Reason::ALL)
    }

    /// The same access at another address.
    pub fn at(self, va: u32) -> Self {
        Access { va, ..self }
    }
}

/// The words after a call.
pub struct After<'a> {
    pub memory: &'a mut [u32],
    pub ledger: &'a mut [u32],
    pub answer: &'a mut [u32],
}

impl After<'_> {
    /// The whole answer record.
    pub fn answers(&mut self, words: &[u32]) {
        self.answer.copy_from_slice(&record(words));
    }

    /// The record of a page.
    pub fn page(&mut self, page: u32) -> &mut [u32] {
        &mut self.ledger[record_of(page as usize)]
    }
}

/// Why an access fails, by some reading.
pub type Why = Box<dyn Fn(&Access) -> Option<Reason>>;
/// What is done besides where it does.
pub type Fault = Box<dyn Fn(&Access, Reason, &mut After)>;

/// Another reading of loads and stores.
pub struct Walks {
    pub why: Why,
    pub fault: Fault,
}

impl Walks {
    /// Another reason, the rest as the rules have it.
    pub fn why(why: impl Fn(&Access) -> Option<Reason> + 'static) -> Walks {
        Walks { why: Box::new(why), fault: Box::new(|_, _, _| ()) }
    }

    /// Another fault, the rest as the rules have it.
    pub fn fault(fault: impl Fn(&Access, Reason, &mut After) + 'static) -> Walks {
        Walks { why: Box::new(|it| it.plain()), fault: Box::new(fault) }
    }

    fn access(&self, it: &Access, after: &mut After) {
        if let Some(reason) = (self.why)(it) {
            after.answers(&[Code::Faulted as u32]);
            after.ledger[RUNNING] = 0;
            return (self.fault)(it, reason, after);
        }
        // Where a flaw lets pass what has no word, nothing is read or written.
        let place = it.place();
        if it.store {
            place.into_iter().for_each(|place| after.memory[place] = it.word);
            after.answers(&[DONE]);
        } else {
            after.answers(&[DONE, place.map_or(0, |place| after.memory[place])]);
        }
    }
}

/// The answer to one call, tried on copies.
fn tried(m: Machine, memory: &[u32], ledger: &[u32], call: &[u32]) -> Option<u32> {
    let mut answer = [0; RECORD_WORDS];
    let code = batch(m, &mut memory.to_vec(), &mut ledger.to_vec(), call, &mut answer);
    (code == DONE && call.len() == RECORD_WORDS).then_some(answer[0])
}

/// Boot, acceptance and images as the second program has them.
macro_rules! the_rest_is_right {
    () => {
        fn boot(&self, m: Machine, key: &[u32], memory: &mut [u32], ledger: &mut [u32]) -> u32 {
            boot(m, key, memory, ledger)
        }

        fn accepts(&self, m: Machine, memory: &[u32], ledger: &[u32]) -> bool {
            accepts(m, memory, ledger)
        }

        fn images(&self) -> &dyn Images {
            &Second
        }
    };
}

impl Services for Walks {
    the_rest_is_right!();

    fn batch(
        &self,
        m: Machine,
        memory: &mut [u32],
        ledger: &mut [u32],
        calls: &[u32],
        answers: &mut [u32],
    ) -> u32 {
        let is_access = [number::LOAD, number::STORE].contains(calls.first().unwrap_or(&0));
        let is_alone = is_access && calls.len() == RECORD_WORDS && answers.len() == calls.len();
        let is_asked = |code| [DONE, Code::Faulted as u32].contains(&code);
        if !is_alone || !tried(m, memory, ledger, calls).is_some_and(is_asked) {
            return batch(m, memory, ledger, calls, answers);
        }
        let (words, records) = (memory.to_vec(), ledger.to_vec());
        let before = Before { machine: m, memory: &words, ledger: &records };
        let store = calls[0] == number::STORE;
        let it = Access { before, va: calls[1], store, word: calls[2] };
        self.access(&it, &mut After { memory, ledger, answer: answers });
        DONE
    }
}

/// A place that a call wants to map, or one that UnmapData empties.
pub struct Wanted {
    /// Its address with the rights, as the call or the page's record has it.
    pub map: Mapping,
    /// Its slot's place and word, if there is a table.
    pub slot: Option<(usize, u32)>,
}

impl Wanted {
    /// What ADDR says by the rules: 0 where the call goes on.
    pub fn addr(&self) -> u32 {
        match self.slot {
            None => Code::NoTable as u32,
            Some((_, 0)) => DONE,
            Some(_) => Code::Taken as u32,
        }
    }

    /// Whether the slot is filled and lacks this right.
    pub fn lacks(&self, right: u32) -> bool {
        self.slot.is_some_and(|(_, slot)| slot != 0 && slot & right == 0)
    }
}

/// What another reading does to the words after a call.
pub type Reads = Box<dyn Fn(&Wanted, &Before, &mut After)>;
/// What ADDR says by some reading: 0 where the call goes on.
pub type Says = fn(&Wanted) -> u32;

/// Another reading of the walk by calls that are alone in a batch, where the
/// walk was reached.
pub struct Maps {
    /// The call.
    pub call: u32,
    pub reads: Reads,
}

impl Maps {
    /// What ADDR says by another reading. Where it lets pass what it must not,
    /// the call is answered 0 and does nothing.
    pub fn addr(call: u32, says: Says) -> Maps {
        let reads = move |it: &Wanted, before: &Before, after: &mut After| {
            if says(it) != it.addr() {
                before.refuse(after, says(it));
            }
        };
        Maps { call, reads: Box::new(reads) }
    }

    fn wanted(&self, before: &Before, call: &[u32]) -> Option<Wanted> {
        let running = || before.running();
        let (space, map) = match call[0] {
            number::MAP_SECURE => (call[1], call[3]),
            number::MAP_INSECURE => (call[1], call[2]),
            number::MAP_DATA => (running()?, call[2]),
            _ => (running()?, before.record(call[1])[word::MAPPING]),
        };
        let slot = before.slot(space, map).map(|place| (place, before.memory[place]));
        Some(Wanted { map: Mapping(map), slot })
    }
}

/// Answers of a call that has walked.
const REACHED: [u32; 4] =
    [DONE, Code::Taken as u32, Code::NoTable as u32, Code::NotInsecure as u32];

impl Services for Maps {
    the_rest_is_right!();

    fn batch(
        &self,
        m: Machine,
        memory: &mut [u32],
        ledger: &mut [u32],
        calls: &[u32],
        answers: &mut [u32],
    ) -> u32 {
        let (words, records) = (memory.to_vec(), ledger.to_vec());
        let code = batch(m, memory, ledger, calls, answers);
        let is_alone = code == DONE && calls.len() == RECORD_WORDS;
        if is_alone && calls[0] == self.call && REACHED.contains(&answers[0]) {
            let before = Before { machine: m, memory: &words, ledger: &records };
            let wanted = self.wanted(&before, calls).expect("a space");
            (self.reads)(&wanted, &before, &mut After { memory, ledger, answer: answers });
        }
        code
    }
}

impl Before<'_> {
    /// Nothing is done after all: this code alone is answered.
    pub fn refuse(&self, after: &mut After, code: u32) {
        after.memory.copy_from_slice(self.memory);
        after.ledger.copy_from_slice(self.ledger);
        after.answers(&[code]);
    }
}
