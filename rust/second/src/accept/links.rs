//! A14 to A19: the tables of the spaces that are building or final.

use super::broken::{Broken, Place, Rule};
use super::lent::Verdict;
use super::pages::Pages;
use crate::demand::demand;
use crate::layout::{word, MOST_TABLES};
use crate::ledger::{Page, Space, State};
use crate::mapping::{Leaf, Mapping, EXECUTE};

/// The words that are not zero, with their places.
fn nonzero(words: &[u32]) -> impl Iterator<Item = (usize, u32)> + '_ {
    words.iter().copied().enumerate().filter(|(_, word)| *word != 0)
}

/// A page of a space that is building or final.
struct Owned<'a> {
    number: usize,
    page: &'a Page,
    owner: usize,
    /// The space's first-level page.
    first: usize,
}

impl Pages<'_> {
    pub(super) fn links(&self) -> Verdict {
        let mut live = self.spaces().filter(|(_, space)| space.state != State::Stopped);
        live.try_for_each(|(page, space)| self.first_level(page, space))?;
        self.each(Pages::first_slots)?;
        self.each(Pages::named)?;
        self.each(Pages::first_rest)?;
        self.each(Pages::second_slots)?;
        self.each(Pages::stands)
    }

    /// Asks this of every page owned by a space that is not stopped.
    fn each(&self, ask: fn(&Self, &Owned) -> Verdict) -> Verdict {
        self.ledger.pages.iter().enumerate().try_for_each(|(number, page)| {
            let Some(owner) = page.owner() else { return Ok(()) };
            match self.ledger.space(owner) {
                Some(Space { first, state, .. }) if *state != State::Stopped => {
                    ask(self, &Owned { number, page, owner, first: *first })
                }
                _ => Ok(()),
            }
        })
    }

    /// A14: word 2 names a first-level table that the space owns, and it owns
    /// no other.
    fn first_level(&self, page: usize, space: &Space) -> Verdict {
        let broken = |fault| Broken::record(Rule::A14, page, word::FIRST, fault);
        let first = space.first;
        demand(self.ledger.pages[first] == Page::First { owner: page }, || {
            let found = self.described(first);
            broken(format!(
                "expected a first-level table of space {page}, found page {first}, {found}"
            ))
        })?;
        let mut owned =
            self.ledger.owned(page).filter(|(_, page)| matches!(page, Page::First { .. }));
        match owned.find(|(number, _)| *number != first) {
            None => Ok(()),
            Some((other, _)) => Err(broken(format!(
                "expected no first-level table besides page {first}, found page {other}"
            ))),
        }
    }

    /// A15: a slot of a first-level table that is T + 1 names the space's
    /// second-level table of that index.
    fn first_slots(&self, &Owned { number, page, owner, .. }: &Owned) -> Verdict {
        let Page::First { .. } = page else { return Ok(()) };
        nonzero(&self.lent.frame(number)[..MOST_TABLES]).try_for_each(|(slot, word)| {
            let table = word as usize - 1;
            let asked = Page::Second { owner, index: slot as u32 };
            demand(self.ledger.pages.get(table) == Some(&asked), || {
                let fault = format!("slot {slot} names page {table}, {}", self.detailed(table));
                let place = Place::Frame { page: number, word: slot };
                self.broken(Rule::A15, number, place, fault)
            })
        })
    }

    /// A16: the first-level slot of a table's index holds its page + 1.
    fn named(&self, &Owned { number, page, first, .. }: &Owned) -> Verdict {
        let Page::Second { index, .. } = page else { return Ok(()) };
        let slot = *index as usize;
        let (asked, found) = (number as u32 + 1, self.lent.frame(first)[slot]);
        demand(asked == found, || {
            let which = format!("slot {slot} of the first-level table, page {first}");
            let fault = format!("expected {asked} in {which}, found {found}");
            self.broken(Rule::A16, number, Place::Frame { page: first, word: slot }, fault)
        })
    }

    /// A17: words 256-1,023 of a first-level table are zero.
    fn first_rest(&self, &Owned { number, page, .. }: &Owned) -> Verdict {
        let Page::First { .. } = page else { return Ok(()) };
        let mut rest = nonzero(&self.lent.frame(number)[MOST_TABLES..]);
        let Some((place, found)) = rest.next() else { return Ok(()) };
        let word = MOST_TABLES + place;
        let fault = format!("expected zero in word {word} of its frame, found {found}");
        Err(self.broken(Rule::A17, number, Place::Frame { page: number, word }, fault))
    }

    /// A18: each slot of a second-level table is empty or good.
    fn second_slots(&self, &Owned { number, page, owner, .. }: &Owned) -> Verdict {
        let Page::Second { index, .. } = page else { return Ok(()) };
        nonzero(self.lent.frame(number)).try_for_each(|(slot, word)| {
            self.slot(owner, Mapping::at(*index as usize, slot, 0), word).map_err(|fault| {
                let place = Place::Frame { page: number, word: slot };
                self.broken(Rule::A18, number, place, format!("slot {slot} {fault}"))
            })
        })
    }

    /// The slot at this place of the space names an insecure frame without
    /// execute, or a data page of the space whose mapping word is this very
    /// place with these rights.
    fn slot(&self, space: usize, place: Mapping, word: u32) -> Result<(), String> {
        let machine = self.lent.machine;
        let Some(Leaf { frame, rights }) = Leaf::read(word) else {
            return Err(format!("holds {word}, which is no frame with rights 1, 3, 5 or 7"));
        };
        let Some(page) = machine.page_in(frame) else {
            demand(frame < machine.frames, || {
                format!("names frame {frame}, which is not below F")
            })?;
            let insecure = machine.is_insecure(frame);
            demand(insecure, || format!("names frame {frame}, which is the monitor's"))?;
            let executes = rights & EXECUTE != 0;
            return demand(!executes, || {
                format!("names frame {frame}, which is insecure, with rights {rights}, not 1 or 3")
            });
        };
        let asked = Page::Data { owner: space, mapping: Mapping(place.0 | rights) };
        demand(self.ledger.pages[page] == asked, || {
            let found = self.detailed(page);
            format!("names frame {frame} with rights {rights}, which is page {page}, {found}")
        })
    }

    /// A19: there is a table for a data page's mapping word, and its slot
    /// there names the page's frame with its rights. By A15 and A16 the first
    /// level has all tables of the space and nothing else.
    fn stands(&self, &Owned { number, page, owner, first }: &Owned) -> Verdict {
        let Page::Data { mapping, .. } = page else { return Ok(()) };
        let (index, slot) = (mapping.index(), mapping.slot());
        let Some(table) = self.lent.frame(first)[index].checked_sub(1) else {
            let fault = format!("space {owner} has no second-level table with index {index}");
            return Err(Broken::record(Rule::A19, number, word::MAPPING, fault));
        };
        let (frame, table) = (self.lent.machine.frame_of(number) as u32, table as usize);
        let asked = Leaf { frame, rights: mapping.rights() }.word();
        let found = self.lent.frame(table)[slot];
        demand(asked == found, || {
            let which = format!("slot {slot} of its second-level table, page {table}");
            let fault = format!("expected {asked} in {which}, found {found}");
            self.broken(Rule::A19, number, Place::Frame { page: table, word: slot }, fault)
        })
    }

    /// The page that a slot names, which need not be one, with what its
    /// record says of its place.
    fn detailed(&self, page: usize) -> String {
        let detail = match self.ledger.pages.get(page) {
            None => return format!("which is not below {}", self.lent.machine.pages),
            Some(Page::Second { index, .. }) => format!(" with index {index}"),
            Some(Page::Data { mapping, .. }) => format!(" with mapping word {}", mapping.0),
            Some(_) => String::new(),
        };
        self.described(page) + &detail
    }
}
