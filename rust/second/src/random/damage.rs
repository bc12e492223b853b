//! Damage to accepted words, by kinds, each with what acceptance must say.

use super::entries::{illegal_entry, legal_entry};
use super::{Rng, View};
use crate::layout::kind::{DATA, FIRST, FREE, SECOND, SPACE, SPARE, THREAD};
use crate::layout::state::{BUILDING, FINAL, STOPPED};
use crate::layout::{
    free_bit, kind, record_of, state, word, DATA_BLOCKS, FRAME_WORDS, HASH_WORDS, HEADER_WORDS,
    KEY_START, MAP_END, MOST_PAGES, MOST_TABLES, RECORD_WORDS, RUNNING, SAVED_WORDS,
};
use crate::machine::Machine;
use crate::mapping::{Leaf, Mapping, EXECUTE, PAGE_SHIFT, READ, RIGHTS, WRITE};

/// What acceptance must say after a kind of damage to an accepted state.
#[derive(Clone, Copy, Debug, PartialEq, Eq)]
pub enum Verdict {
    /// It must say yes: the kind is no damage at all.
    Yes,
    /// It must say no.
    No,
    /// It depends on the words drawn.
    Either,
}

/// A kind of damage.
#[derive(Clone, Copy)]
pub struct Kind {
    /// What is done.
    pub name: &'static str,
    /// What acceptance must say afterwards.
    pub verdict: Verdict,
    act: fn(&mut Hurt) -> Option<()>,
}

impl Kind {
    /// Does this damage to accepted words; false, with nothing changed, where
    /// the state has nothing of the kind to damage.
    pub fn apply(&self, rng: &mut Rng, m: Machine, mem: &mut [u32], led: &mut [u32]) -> bool {
        let mut hurt = Hurt { rng, machine: m, memory: mem, ledger: led };
        (self.act)(&mut hurt).is_some()
    }
}

/// Damages accepted words in one way drawn by chance, and gives its name.
pub fn damage(rng: &mut Rng, m: Machine, mem: &mut [u32], led: &mut [u32]) -> &'static str {
    loop {
        let kind = rng.pick(kinds());
        if kind.apply(rng, m, mem, led) {
            return kind.name;
        }
    }
}

/// All kinds of damage.
pub fn kinds() -> &'static [Kind] {
    use Verdict::{Either, No, Yes};
    macro_rules! kinds {
        ($($verdict:ident $name:literal $act:ident;)*) => {
            &[$(Kind { name: $name, verdict: $verdict, act: |hurt| hurt.$act() }),*]
        };
    }
    kinds! {
        No "a count off by one" count_off;
        No "a slot naming a neighbour's page" neighbour_slot;
        No "a slot naming a neighbour's page at its own address" neighbour_place;
        No "a slot naming a page that is no data page" odd_page_slot;
        No "an ill-formed slot" ill_slot;
        No "a slot with another right than the data page" slot_rights;
        No "two tables with one index" one_index;
        No "a data page that stands nowhere" stands_nowhere;
        No "a data page with another mapping word" other_mapping;
        No "a bit of the free map beyond n" bit_beyond;
        No "a bit of the free map turned" bit_turned;
        No "a nonzero word in a free page's last word" free_last_word;
        No "a nonzero word in a space, thread or spare page" idle_memory;
        No "a running thread that is suspended" running_suspended;
        No "a running thread of an owner that is not final" running_not_final;
        No "a running page that is no thread" running_no_thread;
        Yes "another thread running" running_other;
        No "flags or registers of a thread that is not suspended" idle_registers;
        No "low flags of a suspended thread" low_flags;
        No "a suspended thread of a building space" building_suspended;
        No "a thread suspended twice" suspended_twice;
        No "the last word of a first-level page" first_last_word;
        No "the last word of a table" table_last_word;
        No "the first-level word after the last index" first_word_beyond;
        No "a first-level slot changed" first_slot;
        Yes "blocks of 65n" blocks_full;
        No "blocks of 65n+1" blocks_over;
        No "blocks of a building space off by one" building_blocks;
        No "header words after the free map" header_tail;
        No "an unnamed word of a record" unnamed;
        No "another owner" other_owner;
        No "a type that is none" high_type;
        No "a state that is none" high_state;
        No "an index that is none" high_index;
        No "an ill-formed mapping word" ill_mapping;
        No "an illegal entry in a building space" building_entry;
        No "an illegal entry in a final space" final_entry;
        No "an illegal entry in a stopped space" stopped_entry;
        No "an illegal entry of a suspended thread" suspended_entry;
        No "an illegal entry of a running thread" running_entry;
        No "another first-level page in word 2" other_first;
        No "a stopped space's word 2 not below n" stopped_first_high;
        No "a second first-level page" second_first;
        Yes "a stopped space's word 2 below n" stopped_first_low;
        Yes "a stopped space's loose tables" loose_tables;
        Yes "a stopped space's tables with one index" stopped_one_index;
        Yes "a stopped space's second first-level page" stopped_second_first;
        Yes "another legal entry" other_entry;
        Yes "another key or hash" free_words;
        Yes "other words in data pages and in frames that are not secure" free_memory;
        Yes "an insecure slot added" insecure_added;
        Yes "an insecure slot emptied" insecure_emptied;
        Either "another type" other_type;
        Either "another state" other_state;
        Either "two records swapped" swapped;
        Either "any ledger word" any_ledger_word;
        Either "a bit of the ledger" any_ledger_bit;
        Either "any word of a secure page" any_secure_word;
        Either "a bit of a table" any_table_bit;
    }
}

/// Rights of good slots, of slots of insecure frames, and of others.
const READABLE: [u32; 4] = [READ, READ | WRITE, READ | EXECUTE, RIGHTS];
const SHARED: [u32; 2] = [READ, READ | WRITE];
const EXECUTABLE: [u32; 2] = [READ | EXECUTE, RIGHTS];
const UNREADABLE: [u32; 3] = [WRITE, EXECUTE, WRITE | EXECUTE];

struct Hurt<'a> {
    rng: &'a mut Rng,
    machine: Machine,
    memory: &'a mut [u32],
    ledger: &'a mut [u32],
}

/// Looking and choosing.
impl Hurt<'_> {
    fn view(&self) -> View<'_> {
        View { machine: self.machine, memory: self.memory, ledger: self.ledger }
    }

    fn record(&mut self, page: usize) -> &mut [u32] {
        &mut self.ledger[record_of(page)]
    }

    fn words(&mut self, page: usize) -> &mut [u32] {
        &mut self.memory[self.machine.words_of(page)]
    }

    fn page(&mut self, wanted: impl Fn(&View, usize) -> bool) -> Option<usize> {
        let pages = self.view().pages(wanted);
        self.rng.pick_any(&pages)
    }

    /// A page of this type.
    fn of(&mut self, kind: u32) -> Option<usize> {
        self.page(|view, page| view.kind(page) == kind)
    }

    /// A page of this type whose space is not stopped.
    fn live(&mut self, kind: u32) -> Option<usize> {
        self.page(|view, page| view.kind(page) == kind && view.owner_state(page) != STOPPED)
    }

    /// A page of this type whose space is in this state.
    fn in_state(&mut self, kind: u32, state: u32) -> Option<usize> {
        let pages = self.view().of(kind, state);
        self.rng.pick_any(&pages)
    }

    fn nonzero(&mut self) -> u32 {
        self.rng.nonzero()
    }

    fn any_slot(&mut self) -> usize {
        self.rng.below(FRAME_WORDS as u32) as usize
    }

    /// The slot word for a secure page.
    fn leaf(&self, page: usize, rights: u32) -> u32 {
        Leaf { frame: self.machine.frame_of(page) as u32, rights }.word()
    }

    fn insecure_frame(&mut self) -> Option<u32> {
        let machine = self.machine;
        (0..40).map(|_| self.rng.below(machine.frames)).find(|frame| machine.is_insecure(*frame))
    }

    /// The place in the memory of the slot where a live data page stands.
    fn standing(&mut self) -> Option<(usize, usize)> {
        let data = self.live(DATA)?;
        let view = self.view();
        let mapping = Mapping(view.record(data)[word::MAPPING]);
        let mut tables = view.tables(view.owner(data)).into_iter();
        let table =
            tables.find(|table| view.record(*table)[word::INDEX] as usize == mapping.index())?;
        Some((data, self.machine.words_of(table).start + mapping.slot()))
    }

    /// Two tables of one space in a state that is or is not stopped.
    fn two_tables(&mut self, stopped: bool) -> Option<(usize, usize)> {
        let one = self.page(|view, page| {
            view.kind(page) == SECOND && (view.owner_state(page) == STOPPED) == stopped
        })?;
        let other = self.page(|view, page| {
            view.kind(page) == SECOND && page != one && view.owner(page) == view.owner(one)
        })?;
        Some((one, other))
    }
}

/// Slots and tables.
impl Hurt<'_> {
    fn neighbour_slot(&mut self) -> Option<()> {
        let table = self.live(SECOND)?;
        let owner = self.view().owner(table);
        let data = self.page(|view, page| view.kind(page) == DATA && view.owner(page) != owner)?;
        let mapping = Mapping(self.view().record(data)[word::MAPPING]);
        let slot = self.any_slot();
        self.words(table)[slot] = self.leaf(data, mapping.rights());
        Some(())
    }

    /// The place and the rights are right: only the owner is another.
    fn neighbour_place(&mut self) -> Option<()> {
        let data = self.of(DATA)?;
        let (owner, mapping) =
            (self.view().owner(data), Mapping(self.view().record(data)[word::MAPPING]));
        let table = self.page(|view, page| {
            let same_index = view.record(page)[word::INDEX] as usize == mapping.index();
            let live = view.kind(page) == SECOND && view.owner_state(page) != STOPPED;
            live && same_index && view.owner(page) != owner
        })?;
        self.words(table)[mapping.slot()] = self.leaf(data, mapping.rights());
        Some(())
    }

    fn odd_page_slot(&mut self) -> Option<()> {
        let table = self.live(SECOND)?;
        let page = self.page(|view, page| view.kind(page) != DATA)?;
        let (slot, rights) = (self.any_slot(), self.rng.pick(&READABLE));
        self.words(table)[slot] = self.leaf(page, rights);
        Some(())
    }

    fn ill_slot(&mut self) -> Option<()> {
        let (table, slot) = (self.live(SECOND)?, self.any_slot());
        self.words(table)[slot] = self.ill_leaf();
        Some(())
    }

    /// A slot word that no table of a live space may hold.
    fn ill_leaf(&mut self) -> u32 {
        let machine = self.machine;
        let frame = self.insecure_frame().unwrap_or(0);
        match self.rng.below(6) {
            0 => frame << PAGE_SHIFT | self.rng.pick(&UNREADABLE),
            1 => frame << PAGE_SHIFT | READ | 1 << (3 + self.rng.below(9)),
            2 => (machine.monitor + self.rng.below(machine.monitors)) << PAGE_SHIFT | READ,
            3 => machine.frames << PAGE_SHIFT | self.rng.pick(&SHARED),
            4 => frame << PAGE_SHIFT | self.rng.pick(&EXECUTABLE) | 1 << 24,
            _ => frame << PAGE_SHIFT | self.rng.pick(&EXECUTABLE),
        }
    }

    fn table_last_word(&mut self) -> Option<()> {
        let table = self.live(SECOND)?;
        self.words(table)[FRAME_WORDS - 1] = self.ill_leaf();
        Some(())
    }

    fn slot_rights(&mut self) -> Option<()> {
        let (_, place) = self.standing()?;
        self.memory[place] ^= self.rng.pick(&UNREADABLE);
        Some(())
    }

    fn stands_nowhere(&mut self) -> Option<()> {
        let (_, place) = self.standing()?;
        self.memory[place] = 0;
        Some(())
    }

    fn other_mapping(&mut self) -> Option<()> {
        let (data, _) = self.standing()?;
        let bit = self.rng.pick(&[1, 2, 12, 13, 21, 22, 29]);
        self.record(data)[word::MAPPING] ^= 1 << bit;
        Some(())
    }

    fn one_index(&mut self) -> Option<()> {
        let (one, other) = self.two_tables(false)?;
        self.record(one)[word::INDEX] = self.view().record(other)[word::INDEX];
        Some(())
    }

    fn stopped_one_index(&mut self) -> Option<()> {
        let (one, other) = self.two_tables(true)?;
        self.record(one)[word::INDEX] = self.view().record(other)[word::INDEX];
        Some(())
    }

    fn first_last_word(&mut self) -> Option<()> {
        let first = self.live(FIRST)?;
        self.words(first)[FRAME_WORDS - 1] = self.nonzero();
        Some(())
    }

    fn first_word_beyond(&mut self) -> Option<()> {
        let first = self.live(FIRST)?;
        let table = self.page(|view, page| view.kind(page) == SECOND);
        self.words(first)[MOST_TABLES] = table.map_or(1, |table| table as u32 + 1);
        Some(())
    }

    fn first_slot(&mut self) -> Option<()> {
        let first = self.live(FIRST)?;
        let slot = self.rng.pick(&[0, 1, 2, 3, MOST_TABLES - 2, MOST_TABLES - 1]);
        let old = self.view().words(first)[slot];
        let n = self.machine.pages;
        let choices = [0, 1 + self.rng.below(n), n + 1, u32::MAX, old ^ self.rng.nonzero()];
        let new = self.rng.pick(&choices);
        self.words(first)[slot] = new;
        (new != old).then_some(())
    }

    fn loose_tables(&mut self) -> Option<()> {
        let table = self.page(|view, page| {
            matches!(view.kind(page), FIRST | SECOND) && view.owner_state(page) == STOPPED
        })?;
        for _ in 0..=self.rng.below(9) {
            let slot = self.any_slot();
            self.words(table)[slot] = self.rng.word();
        }
        Some(())
    }

    fn insecure_added(&mut self) -> Option<()> {
        let (table, frame) = (self.live(SECOND)?, self.insecure_frame()?);
        let (slot, rights) = (self.any_slot(), self.rng.pick(&SHARED));
        let word = &mut self.words(table)[slot];
        if *word != 0 {
            return None;
        }
        *word = Leaf { frame, rights }.word();
        Some(())
    }

    fn insecure_emptied(&mut self) -> Option<()> {
        let table = self.live(SECOND)?;
        let machine = self.machine;
        let insecure = |word: &&mut u32| **word != 0 && machine.is_insecure(**word >> PAGE_SHIFT);
        *self.words(table).iter_mut().find(insecure)? = 0;
        Some(())
    }

    fn any_table_bit(&mut self) -> Option<()> {
        let table = self.page(|view, page| matches!(view.kind(page), FIRST | SECOND))?;
        let used: Vec<usize> =
            (0..FRAME_WORDS).filter(|slot| self.view().words(table)[*slot] != 0).collect();
        let slot = self.rng.pick_any(&used).unwrap_or(0);
        self.words(table)[slot] ^= 1 << self.rng.below(32);
        Some(())
    }
}

/// The header and the running thread.
impl Hurt<'_> {
    fn bit_beyond(&mut self) -> Option<()> {
        let n = self.machine.pages;
        let page = if n < MOST_PAGES { n + self.rng.below(MOST_PAGES - n) } else { return None };
        let page = self.rng.pick(&[n, page, MOST_PAGES - 1]);
        self.turn_free_bit(page);
        Some(())
    }

    fn bit_turned(&mut self) -> Option<()> {
        let page = self.rng.below(self.machine.pages);
        self.turn_free_bit(page);
        Some(())
    }

    fn turn_free_bit(&mut self, page: u32) {
        let (word, bit) = free_bit(page as usize);
        self.ledger[word] ^= bit;
    }

    fn header_tail(&mut self) -> Option<()> {
        let later = MAP_END + self.rng.below((HEADER_WORDS - MAP_END) as u32) as usize;
        let word = self.rng.pick(&[MAP_END, later, HEADER_WORDS - 1]);
        self.ledger[word] = self.nonzero();
        Some(())
    }

    fn running_suspended(&mut self) -> Option<()> {
        match self.view().running() {
            Some(thread) => self.record(thread)[word::SUSPENDED] = 1,
            None => {
                let thread =
                    self.page(|view, page| view.kind(page) == THREAD && view.suspended(page));
                self.ledger[RUNNING] = thread? as u32 + 1;
            }
        }
        Some(())
    }

    fn running_not_final(&mut self) -> Option<()> {
        let state = self.rng.pick(&[BUILDING, STOPPED]);
        self.ledger[RUNNING] = self.in_state(THREAD, state)? as u32 + 1;
        Some(())
    }

    fn running_no_thread(&mut self) -> Option<()> {
        let page = self.page(|view, page| view.kind(page) != THREAD);
        let n = self.machine.pages;
        let choices = [page.map_or(n, |page| page as u32), n, u32::MAX - 1];
        self.ledger[RUNNING] = self.rng.pick(&choices) + 1;
        Some(())
    }

    fn running_other(&mut self) -> Option<()> {
        let thread = self.page(|view, page| {
            view.kind(page) == THREAD && view.owner_state(page) == FINAL && !view.suspended(page)
        })?;
        self.ledger[RUNNING] = thread as u32 + 1;
        Some(())
    }
}

/// Records.
impl Hurt<'_> {
    fn count_off(&mut self) -> Option<()> {
        let (space, step) = (self.of(SPACE)?, self.rng.pick(&[1, u32::MAX]));
        let count = &mut self.record(space)[word::COUNT];
        *count = count.wrapping_add(step);
        Some(())
    }

    fn idle_registers(&mut self) -> Option<()> {
        let thread = self.page(|view, page| view.kind(page) == THREAD && !view.suspended(page))?;
        let place = word::SAVED + self.rng.below(SAVED_WORDS as u32) as usize;
        let flags = place == word::FLAGS;
        self.record(thread)[place] = if flags { 1 << 31 } else { self.nonzero() };
        Some(())
    }

    fn low_flags(&mut self) -> Option<()> {
        let thread = self.page(|view, page| view.kind(page) == THREAD && view.suspended(page))?;
        let bit = self.rng.pick(&[0, 1, 26, 27]);
        self.record(thread)[word::FLAGS] |= 1 << bit;
        Some(())
    }

    fn building_suspended(&mut self) -> Option<()> {
        let thread = self.in_state(THREAD, BUILDING)?;
        self.record(thread)[word::SUSPENDED] = 1;
        Some(())
    }

    fn suspended_twice(&mut self) -> Option<()> {
        let (thread, word) = (self.of(THREAD)?, self.rng.pick(&[2, 3, 1 << 31]));
        self.record(thread)[word::SUSPENDED] = word;
        Some(())
    }

    /// A space that is final or stopped.
    fn built(&mut self) -> Option<usize> {
        self.page(|view, page| view.kind(page) == SPACE && view.owner_state(page) != BUILDING)
    }

    fn blocks_full(&mut self) -> Option<()> {
        let (space, most) = (self.built()?, DATA_BLOCKS * self.machine.pages);
        let fewer = self.rng.below(most);
        self.record(space)[word::BLOCKS] = self.rng.pick(&[most, most, fewer]);
        Some(())
    }

    fn blocks_over(&mut self) -> Option<()> {
        let (space, over) = (self.built()?, DATA_BLOCKS * self.machine.pages + 1);
        self.record(space)[word::BLOCKS] = self.rng.pick(&[over, over, u32::MAX]);
        Some(())
    }

    fn building_blocks(&mut self) -> Option<()> {
        let (space, step) =
            (self.in_state(SPACE, BUILDING)?, self.rng.pick(&[1, DATA_BLOCKS, u32::MAX]));
        let blocks = &mut self.record(space)[word::BLOCKS];
        *blocks = blocks.wrapping_add(step);
        Some(())
    }

    fn unnamed(&mut self) -> Option<()> {
        let page = self.rng.below(self.machine.pages) as usize;
        let named = match self.view().kind(page) {
            FREE => word::TYPE + 1,
            SPACE => word::HASH_END,
            THREAD => word::SAVED_END,
            SECOND => word::INDEX + 1,
            DATA => word::MAPPING + 1,
            _ => word::OWNER + 1,
        };
        let later = named + self.rng.below((RECORD_WORDS - named) as u32) as usize;
        let place = self.rng.pick(&[named, later, RECORD_WORDS - 1]);
        self.record(page)[place] = self.nonzero();
        Some(())
    }

    fn other_owner(&mut self) -> Option<()> {
        let page = self.page(|view, page| view.kind(page) != FREE)?;
        let (old, n) = (self.view().owner(page) as u32, self.machine.pages);
        let choices = [self.rng.below(n), n, u32::MAX];
        let new = self.rng.pick(&choices);
        self.record(page)[word::OWNER] = new;
        (new != old).then_some(())
    }

    fn high_type(&mut self) -> Option<()> {
        let page = self.rng.below(self.machine.pages) as usize;
        self.record(page)[word::TYPE] =
            self.rng.pick(&[kind::COUNT, kind::COUNT + 1, 1 << 8, u32::MAX]);
        Some(())
    }

    fn other_type(&mut self) -> Option<()> {
        let page = self.rng.below(self.machine.pages) as usize;
        self.record(page)[word::TYPE] = self.rng.below(kind::COUNT);
        Some(())
    }

    fn high_state(&mut self) -> Option<()> {
        let choices = [state::COUNT, state::COUNT + 1, u32::MAX];
        let (space, state) = (self.of(SPACE)?, self.rng.pick(&choices));
        self.record(space)[word::STATE] = state;
        Some(())
    }

    fn other_state(&mut self) -> Option<()> {
        let (space, state) = (self.of(SPACE)?, self.rng.below(state::COUNT));
        self.record(space)[word::STATE] = state;
        Some(())
    }

    fn high_index(&mut self) -> Option<()> {
        let beyond = MOST_TABLES as u32;
        let (table, index) = (self.of(SECOND)?, self.rng.pick(&[beyond, beyond + 1, 1 << 31]));
        self.record(table)[word::INDEX] = index;
        Some(())
    }

    fn ill_mapping(&mut self) -> Option<()> {
        let (data, bit) = (self.of(DATA)?, self.rng.pick(&[0, 3, 4, 11, 30, 31]));
        self.record(data)[word::MAPPING] ^= 1 << bit;
        Some(())
    }

    fn ill_entry(&mut self, thread: Option<usize>) -> Option<()> {
        let (thread, entry) = (thread?, illegal_entry(self.rng));
        self.record(thread)[word::ENTRY] = entry;
        Some(())
    }

    fn building_entry(&mut self) -> Option<()> {
        let thread = self.in_state(THREAD, BUILDING);
        self.ill_entry(thread)
    }

    fn final_entry(&mut self) -> Option<()> {
        let thread = self.in_state(THREAD, FINAL);
        self.ill_entry(thread)
    }

    fn stopped_entry(&mut self) -> Option<()> {
        let thread = self.in_state(THREAD, STOPPED);
        self.ill_entry(thread)
    }

    fn suspended_entry(&mut self) -> Option<()> {
        let thread = self.page(|view, page| view.kind(page) == THREAD && view.suspended(page));
        self.ill_entry(thread)
    }

    fn running_entry(&mut self) -> Option<()> {
        let thread = self.view().running();
        self.ill_entry(thread)
    }

    fn other_entry(&mut self) -> Option<()> {
        let (thread, entry) = (self.of(THREAD)?, legal_entry(self.rng));
        self.record(thread)[word::ENTRY] = entry;
        Some(())
    }

    fn other_first(&mut self) -> Option<()> {
        let space =
            self.page(|view, page| view.kind(page) == SPACE && view.owner_state(page) != STOPPED)?;
        let (old, n) = (self.view().record(space)[word::FIRST], self.machine.pages);
        let choices = [self.rng.below(n), n, u32::MAX];
        let new = self.rng.pick(&choices);
        self.record(space)[word::FIRST] = new;
        (new != old).then_some(())
    }

    fn stopped_first_high(&mut self) -> Option<()> {
        let (space, n) = (self.in_state(SPACE, STOPPED)?, self.machine.pages);
        self.record(space)[word::FIRST] = self.rng.pick(&[n, n + 1, u32::MAX]);
        Some(())
    }

    fn stopped_first_low(&mut self) -> Option<()> {
        let space = self.in_state(SPACE, STOPPED)?;
        self.record(space)[word::FIRST] = self.rng.below(self.machine.pages);
        Some(())
    }

    fn second_first(&mut self) -> Option<()> {
        let spare = self.live(SPARE)?;
        self.record(spare)[word::TYPE] = FIRST;
        Some(())
    }

    fn stopped_second_first(&mut self) -> Option<()> {
        let spare = self.in_state(SPARE, STOPPED)?;
        self.record(spare)[word::TYPE] = FIRST;
        Some(())
    }

    fn free_words(&mut self) -> Option<()> {
        let word = self.rng.word();
        let place = self.rng.below(HASH_WORDS as u32) as usize;
        if self.rng.once_in(2) {
            self.ledger[KEY_START + place] = word;
        } else {
            let space = self.of(SPACE)?;
            self.record(space)[word::HASH + place] = word;
        }
        Some(())
    }

    fn swapped(&mut self) -> Option<()> {
        let n = self.machine.pages;
        let (one, other) = (self.rng.below(n) as usize, self.rng.below(n) as usize);
        for (one, other) in record_of(one).zip(record_of(other)) {
            self.ledger.swap(one, other);
        }
        Some(())
    }

    fn any_ledger_word(&mut self) -> Option<()> {
        let place = self.rng.below(self.ledger.len() as u32) as usize;
        let small = self.rng.below(8);
        self.ledger[place] = self.rng.pick(&[0, 1, small, self.machine.pages, u32::MAX]);
        Some(())
    }

    fn any_ledger_bit(&mut self) -> Option<()> {
        let place = self.rng.below(self.ledger.len() as u32) as usize;
        self.ledger[place] ^= 1 << self.rng.below(32);
        Some(())
    }
}

/// Memory.
impl Hurt<'_> {
    fn free_last_word(&mut self) -> Option<()> {
        let free = self.of(FREE)?;
        self.words(free)[FRAME_WORDS - 1] = self.nonzero();
        Some(())
    }

    fn idle_memory(&mut self) -> Option<()> {
        let page = self.page(|view, page| matches!(view.kind(page), SPACE | THREAD | SPARE))?;
        let choices = [0, self.any_slot(), FRAME_WORDS - 1];
        let place = self.rng.pick(&choices);
        self.words(page)[place] = self.nonzero();
        Some(())
    }

    fn free_memory(&mut self) -> Option<()> {
        let (frame, word) = (self.rng.below(self.machine.frames), self.any_slot());
        let bound = match self.machine.page_in(frame) {
            Some(page) => self.view().kind(page) != DATA,
            None => false,
        };
        if bound {
            return None;
        }
        self.memory[frame as usize * FRAME_WORDS + word] = self.rng.word();
        Some(())
    }

    fn any_secure_word(&mut self) -> Option<()> {
        let (page, slot) = (self.rng.below(self.machine.pages) as usize, self.any_slot());
        self.words(page)[slot] = self.nonzero();
        Some(())
    }
}
