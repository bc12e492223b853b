//! The second program with another reading of what is asked of a thread's
//! entry, by InitThread or by acceptance.

use differ::services::{Images, Second, Services};
use second::calls::{number, Code};
use second::layout::{
    free_bit, kind, record_of, state, word, BLOCK_WORDS, HEADER_WORDS, RECORD_WORDS, RUNNING,
};
use second::mapping::{is_legal_entry, Leaf, Mapping};
use second::shift::record;
use second::{accepts, batch, boot, sha, Machine, DONE, UNFIT};

/// A thread that is there or is asked for, in the words around it.
#[derive(Clone, Copy)]
pub struct Thread<'a> {
    pub page: u32,
    pub space: u32,
    pub entry: u32,
    machine: Machine,
    memory: &'a [u32],
    ledger: &'a [u32],
}

impl Thread<'_> {
    pub fn with_entry(self, entry: u32) -> Self {
        Thread { entry, ..self }
    }

    pub fn is_legal(&self) -> bool {
        is_legal_entry(self.entry)
    }

    pub fn is_suspended(&self) -> bool {
        self.record(self.page)[word::SUSPENDED] == 1
    }

    pub fn is_running(&self) -> bool {
        self.ledger[RUNNING] == self.page + 1
    }

    pub fn is_building(&self) -> bool {
        self.state() == state::BUILDING
    }

    pub fn is_stopped(&self) -> bool {
        self.state() == state::STOPPED
    }

    fn record(&self, page: u32) -> &[u32] {
        &self.ledger[record_of(page as usize)]
    }

    fn state(&self) -> u32 {
        self.record(self.space)[word::STATE]
    }

    /// What its space's tables have at the entry. A stopped space's may hold any
    /// words.
    pub fn leaf(&self) -> Option<Leaf> {
        let map = Mapping(self.entry);
        let table = self.slot(self.record(self.space)[word::FIRST], map.index())?.checked_sub(1)?;
        Leaf::read(self.slot(table, map.slot())?)
    }

    fn slot(&self, page: u32, slot: usize) -> Option<u32> {
        (page < self.machine.pages).then(|| self.memory[self.machine.words_of(page as usize)][slot])
    }
}

/// Whether a thread may have its entry.
pub type May = fn(&Thread) -> bool;

/// What is asked of entries, and when.
#[derive(Clone, Copy)]
pub struct Entries {
    /// The other check of InitThread's that the entry is asked before, by its
    /// place; all of them come first where it is [`CHECKS`].
    pub before: usize,
    /// What InitThread asks of the entry.
    pub call: May,
    /// What its refusal does to the answer and to the ledger.
    pub refuse: fn(&Thread, &mut [u32], &mut [u32]),
    /// What acceptance asks of a thread's entry, all else being in order.
    pub accepts: May,
}

/// How many other checks InitThread has: the record, the time, the space,
/// whether it is building, the page, whether it is free.
pub const CHECKS: usize = 6;

/// As the rules have it.
pub const RIGHT: Entries = Entries {
    before: CHECKS,
    call: |it| it.is_legal(),
    refuse: |_, answer, _| answer[0] = Code::BadEntry as u32,
    accepts: |it| it.is_legal(),
};

/// The answer to a call, tried on a copy; none where the batch is refused.
fn answer(m: Machine, memory: &[u32], ledger: &[u32], call: &[u32]) -> Option<u32> {
    let mut answer = [0; RECORD_WORDS];
    let code = batch(m, &mut memory.to_vec(), &mut ledger.to_vec(), call, &mut answer);
    (code == DONE).then_some(answer[0])
}

/// How many of InitThread's other checks this call, whose entry is legal, passes.
/// 1 is the space's where Finalise, which asks the same of it, is refused too.
fn passed(m: Machine, memory: &[u32], ledger: &[u32], call: &[u32]) -> Option<usize> {
    let of_space = || answer(m, memory, ledger, &record(&[number::FINALISE, call[1]]));
    let refusals = [Code::BadRecord, Code::WrongTime, Code::NotASpace, Code::WrongState];
    Some(match answer(m, memory, ledger, call)? {
        DONE => CHECKS,
        code if code == Code::NotFree as u32 => 5,
        code if code == Code::NoSuchPage as u32 && of_space() == Some(DONE) => 4,
        code if code == Code::NoSuchPage as u32 => 2,
        code => refusals.iter().position(|refusal| *refusal as u32 == code).expect("a refusal"),
    })
}

/// The block by which a thread is measured, added to its space's record.
pub fn measure(it: &Thread, ledger: &mut [u32]) {
    let space = &mut ledger[record_of(it.space as usize)];
    let mut block = [0; BLOCK_WORDS];
    block[..2].copy_from_slice(&[1, it.entry]);
    let hash = &mut space[word::HASH..word::HASH_END];
    let added = sha::add((&*hash).try_into().expect("a hash"), &block);
    hash.copy_from_slice(&added);
    space[word::BLOCKS] += 1;
}

/// The page becomes the thread.
pub fn take(it: &Thread, ledger: &mut [u32]) {
    let words = [kind::THREAD, it.space, it.entry];
    ledger[record_of(it.page as usize)][..words.len()].copy_from_slice(&words);
    ledger[record_of(it.space as usize)][word::COUNT] += 1;
    let (word, bit) = free_bit(it.page as usize);
    ledger[word] &= !bit;
}

impl Services for Entries {
    fn boot(&self, m: Machine, key: &[u32], memory: &mut [u32], ledger: &mut [u32]) -> u32 {
        boot(m, key, memory, ledger)
    }

    fn accepts(&self, m: Machine, memory: &[u32], ledger: &[u32]) -> bool {
        let records = ledger.get(HEADER_WORDS..).unwrap_or_default().chunks_exact(RECORD_WORDS);
        let threads: Vec<u32> = (0..)
            .zip(records)
            .filter(|(_, words)| words[word::TYPE] == kind::THREAD)
            .map(|(page, _)| page)
            .collect();
        let mut rest = ledger.to_vec();
        for page in &threads {
            rest[record_of(*page as usize)][word::ENTRY] = 0;
        }
        accepts(m, memory, &rest)
            && threads.into_iter().all(|page| {
                let words = &ledger[record_of(page as usize)];
                let (space, entry) = (words[word::OWNER], words[word::ENTRY]);
                (self.accepts)(&Thread { page, space, entry, machine: m, memory, ledger })
            })
    }

    /// A batch of one InitThread is read otherwise.
    fn batch(
        &self,
        m: Machine,
        memory: &mut [u32],
        ledger: &mut [u32],
        calls: &[u32],
        answers: &mut [u32],
    ) -> u32 {
        let alone = calls.len() == RECORD_WORDS && answers.len() == RECORD_WORDS;
        if !alone || calls[0] != number::INIT_THREAD {
            return batch(m, memory, ledger, calls, answers);
        }
        let (before, mut legal) = ((memory.to_vec(), ledger.to_vec()), calls.to_vec());
        legal[3] = 0;
        let Some(passed) = passed(m, memory, ledger, &legal) else { return UNFIT };
        let it = Thread {
            page: calls[2],
            space: calls[1],
            entry: calls[3],
            machine: m,
            memory: &before.0,
            ledger: &before.1,
        };
        answers.fill(0);
        if [self.before, CHECKS].contains(&passed) && !(self.call)(&it) {
            (self.refuse)(&it, answers, ledger);
        } else if passed == CHECKS {
            take(&it, ledger);
            measure(&it, ledger);
        } else {
            return batch(m, memory, ledger, &legal, answers);
        }
        DONE
    }

    fn images(&self) -> &dyn Images {
        &Second
    }
}
