//! A5 to A8: the records of the pages, each by itself.

use super::broken::{a_page, Broken, Rule};
use super::lent::{Lent, Verdict};
use crate::demand::demand;
use crate::layout::{kind, state, word, FLAG_BITS, MOST_TABLES, RECORD_WORDS};
use crate::mapping::{is_legal_entry, Mapping};
use std::fmt;

/// What the layout asks of a word of a record.
enum Asked {
    /// Nothing, or another demand asks it.
    Any,
    /// Zero, in a page of this type.
    Zero(u32),
    /// The page's own number.
    Own(usize),
    /// A number below this one, and what it is.
    Below(u32, &'static str),
    /// A legal entry.
    Entry,
    /// A well-formed mapping word.
    Mapping,
    /// Flags.
    Flags,
}

impl Asked {
    fn holds(&self, word: u32) -> bool {
        match self {
            Asked::Any => true,
            Asked::Zero(_) => word == 0,
            Asked::Own(page) => word as usize == *page,
            Asked::Below(limit, _) => word < *limit,
            Asked::Entry => is_legal_entry(word),
            Asked::Mapping => Mapping(word).well_formed(),
            Asked::Flags => word & !FLAG_BITS == 0,
        }
    }
}

impl fmt::Display for Asked {
    fn fmt(&self, out: &mut fmt::Formatter) -> fmt::Result {
        match self {
            Asked::Any => write!(out, "any word"),
            Asked::Zero(kind) => write!(out, "zero in {}", a_page(*kind)),
            Asked::Own(page) => write!(out, "{page}, since a space owns itself"),
            Asked::Below(limit, name) => write!(out, "{name}, 0 to {}", limit - 1),
            Asked::Entry => write!(out, "a legal entry, a multiple of 4 below 2^30"),
            Asked::Mapping => write!(out, "a well-formed mapping word"),
            Asked::Flags => write!(out, "flags with bits 0-27 zero"),
        }
    }
}

impl Lent<'_> {
    pub(super) fn records(&self) -> Verdict {
        self.pages().try_for_each(|page| self.kind(page))?;
        self.pages().try_for_each(|page| self.layout(page))?;
        self.pages().try_for_each(|page| self.owner(page))?;
        self.pages().try_for_each(|page| self.idle(page))
    }

    /// A5: its type is 0 to 6.
    fn kind(&self, page: usize) -> Verdict {
        let (found, asked) = (self.record(page)[word::TYPE], Asked::Below(kind::COUNT, "a type"));
        demand(asked.holds(found), || expected(Rule::A5, page, word::TYPE, asked, found))
    }

    /// A6: its record has the layout of its type.
    fn layout(&self, page: usize) -> Verdict {
        let record = self.record(page);
        (0..RECORD_WORDS).try_for_each(|place| {
            let (found, asked) = (record[place], self.asked(page, record[word::TYPE], place));
            demand(asked.holds(found), || expected(Rule::A6, page, place, asked, found))
        })
    }

    /// The table of page records, word by word.
    fn asked(&self, page: usize, kind: u32, place: usize) -> Asked {
        use Asked::{Any, Below, Entry, Flags, Mapping, Own, Zero};
        match (kind, place) {
            (_, word::TYPE) => Any, // A5
            (kind::SPACE, word::OWNER) => Own(page),
            (kind::SPACE, word::FIRST) => Below(self.machine.pages, "a first-level page"),
            (kind::SPACE, word::STATE) => Below(state::COUNT, "a state"),
            (kind::SPACE, word::COUNT..word::HASH_END) => Any,
            (kind::THREAD..=kind::SPARE, word::OWNER) => Any, // A7
            (kind::THREAD, word::ENTRY) => Entry,
            (kind::THREAD, word::SUSPENDED) => Below(2, "a suspended word"),
            (kind::THREAD, word::SAVED..word::FLAGS) => Any,
            (kind::THREAD, word::FLAGS) => Flags,
            (kind::SECOND, word::INDEX) => Below(MOST_TABLES as u32, "an index"),
            (kind::DATA, word::MAPPING) => Mapping,
            _ => Zero(kind),
        }
    }

    /// A7: of a page that is not free, word 1 is below n and names a space.
    fn owner(&self, page: usize) -> Verdict {
        let (kind, owner) = (self.record(page)[word::TYPE], self.record(page)[word::OWNER]);
        demand(kind == kind::FREE || self.is_space(owner), || {
            let asked = Asked::Below(self.machine.pages, "an owner");
            if !asked.holds(owner) {
                return expected(Rule::A7, page, word::OWNER, asked, owner);
            }
            let found = a_page(self.record(owner as usize)[word::TYPE]);
            let fault = format!("expected a space as owner, found page {owner}, {found}");
            Broken::record(Rule::A7, page, word::OWNER, fault)
        })
    }

    /// A8: of a thread with word 3 zero, words 4-20 are zero.
    fn idle(&self, page: usize) -> Verdict {
        let record = self.record(page);
        if record[word::TYPE] != kind::THREAD || record[word::SUSPENDED] != 0 {
            return Ok(());
        }
        (word::SAVED..word::SAVED_END).try_for_each(|place| {
            demand(record[place] == 0, || {
                let found = record[place];
                let fault = format!("expected zero in a thread not suspended, found {found}");
                Broken::record(Rule::A8, page, place, fault)
            })
        })
    }
}

fn expected(rule: Rule, page: usize, place: usize, asked: Asked, found: u32) -> Broken {
    Broken::record(rule, page, place, format!("expected {asked}, found {found}"))
}
