//! A9 to A13: zero pages, and the counts of the spaces, over typed pages.

use super::broken::{a_page, Broken, Place, Rule};
use super::lent::{Lent, Verdict};
use crate::demand::demand;
use crate::layout::{word, DATA_BLOCKS};
use crate::ledger::{Ledger, Page, Space, State};

/// The lent words with their pages typed: A1 to A8 hold.
pub(super) struct Pages<'a> {
    pub(super) lent: Lent<'a>,
    pub(super) ledger: &'a Ledger,
}

impl Pages<'_> {
    /// What is asked of single pages and of counts.
    pub(super) fn single(&self) -> Verdict {
        self.lent.pages().try_for_each(|page| self.zero(page))?;
        self.spaces().try_for_each(|(page, _)| self.count(page))?;
        self.spaces().try_for_each(|(page, space)| self.measured(page, space))?;
        self.lent.pages().try_for_each(|page| self.suspended(page))?;
        self.spaces().try_for_each(|(page, space)| self.bound(page, space))
    }

    /// The spaces with their pages.
    pub(super) fn spaces(&self) -> impl Iterator<Item = (usize, &Space)> {
        self.lent.pages().filter_map(|page| Some((page, self.ledger.space(page)?)))
    }

    /// A page's type and owner, in words.
    pub(super) fn described(&self, page: usize) -> String {
        let name = a_page(self.lent.record(page)[word::TYPE]);
        match self.ledger.pages[page].owner() {
            Some(owner) => format!("{name} of space {owner}"),
            None => name.to_string(),
        }
    }

    /// A demand that is broken for this page, described, by a word elsewhere
    /// than in its record.
    pub(super) fn broken(&self, rule: Rule, page: usize, place: Place, fault: String) -> Broken {
        let fault = format!("page {page}, {}: {fault}", self.described(page));
        Broken { rule, page: Some(page), place, fault }
    }

    /// A9: all words of the frame of a free, space, thread or spare page are
    /// zero.
    fn zero(&self, page: usize) -> Verdict {
        if let Page::First { .. } | Page::Second { .. } | Page::Data { .. } =
            self.ledger.pages[page]
        {
            return Ok(());
        }
        let words = self.lent.frame(page);
        let Some(word) = words.iter().position(|word| *word != 0) else { return Ok(()) };
        let fault = format!("expected zero in word {word} of its frame, found {}", words[word]);
        Err(self.broken(Rule::A9, page, Place::Frame { page, word }, fault))
    }

    /// A10: word 4 is the number of pages that the space owns.
    fn count(&self, page: usize) -> Verdict {
        let (owned, found) = (self.ledger.owned(page).count(), self.lent.record(page)[word::COUNT]);
        demand(owned == found as usize, || {
            let fault = format!("expected {owned}, the pages that the space owns, found {found}");
            Broken::record(Rule::A10, page, word::COUNT, fault)
        })
    }

    /// A11: the blocks of a building space are those of its threads and of
    /// its data pages.
    fn measured(&self, page: usize, space: &Space) -> Verdict {
        if space.state != State::Building {
            return Ok(());
        }
        let (mut threads, mut data) = (0, 0);
        for (_, owned) in self.ledger.owned(page) {
            match owned {
                Page::Thread(_) => threads += 1,
                Page::Data { .. } => data += 1,
                _ => {}
            }
        }
        let (asked, found) = (threads + DATA_BLOCKS * data, space.blocks);
        demand(asked == found, || {
            let counted = format!("threads {threads}, data pages {data}");
            let fault = format!("expected {asked} blocks ({counted}), found {found}");
            Broken::record(Rule::A11, page, word::BLOCKS, fault)
        })
    }

    /// A12: no thread of a building space is suspended.
    fn suspended(&self, page: usize) -> Verdict {
        let Some(thread) = self.ledger.thread(page) else { return Ok(()) };
        let building =
            self.ledger.space(thread.owner).is_some_and(|space| space.state == State::Building);
        demand(!building || thread.saved.is_none(), || {
            let owner = thread.owner;
            let fault =
                format!("expected 0 in a thread of space {owner}, which is building, found 1");
            Broken::record(Rule::A12, page, word::SUSPENDED, fault)
        })
    }

    /// A13: the blocks of a final or stopped space are at most 65n.
    fn bound(&self, page: usize, space: &Space) -> Verdict {
        let (most, found) = (DATA_BLOCKS * self.lent.machine.pages, space.blocks);
        demand(space.state == State::Building || found <= most, || {
            let fault = format!("expected at most 65n blocks, {most}, found {found}");
            Broken::record(Rule::A13, page, word::BLOCKS, fault)
        })
    }
}
