//! What the picture shows: the state, read into spaces and tables. Any
//! words can be read; what names nothing of the space's own is said in words.

use super::bound::Bounds;
use super::family::{Astray, Family, Named, Table, Target};
use super::words::what;
use crate::fold::{folds, range, Numbered};
use monitor::layout::{HEADER_WORDS, MOST_FRAMES, MOST_PAGES, MOST_TABLES, RECORD_WORDS};
use monitor::{Ledger, Machine, Memory, Page, Space};
use std::collections::BTreeSet;

/// A state.
pub struct Scene<'w> {
    pub machine: Machine,
    pub ledger: Ledger<&'w [u32]>,
    /// Whether runs of like pages are folded.
    pub folded: bool,
    pub bounds: Bounds,
    pub all: Vec<Option<Page>>,
    memory: Memory<&'w [u32]>,
    /// By frame, whether a run of insecure frames ends before it, so that two runs
    /// are the same or share no frame.
    pub cuts: Vec<bool>,
}

/// Words of a ledger, at most; others are not looked at.
const MOST_WORDS: usize = HEADER_WORDS + RECORD_WORDS * MOST_PAGES as usize;

impl<'w> Scene<'w> {
    pub fn new(machine: Machine, memory: &'w [u32], ledger: &'w [u32]) -> Scene<'w> {
        let ledger = Ledger::over(&ledger[..ledger.len().min(MOST_WORDS)]);
        let (bounds, folded) = (Bounds::of(&ledger), folds(&ledger));
        let (all, memory) = (ledger.pages().collect(), Memory::over(memory));
        let cuts = vec![false; MOST_FRAMES as usize + 1];
        let mut scene = Scene { machine, ledger, folded, bounds, all, memory, cuts };
        if folded {
            scene.cut();
        }
        scene
    }

    /// All pages of which this holds, in order.
    pub fn pages(&self, holds: impl Fn(&Page) -> bool) -> Vec<u32> {
        let all = (0..).zip(&self.all);
        all.filter(|(_, page)| page.as_ref().is_some_and(&holds)).map(|(page, _)| page).collect()
    }

    /// These pages with their numbers.
    pub fn numbered(&self, numbers: &[u32]) -> Vec<Numbered> {
        let page = |number: &u32| Some((*number, (*self.all.get(*number as usize)?)?));
        numbers.iter().filter_map(page).collect()
    }

    /// Whether this page is a space.
    pub fn is_space(&self, page: u32) -> bool {
        matches!(self.all.get(page as usize), Some(Some(Page::Space(_))))
    }

    /// The spaces, in order.
    pub fn families(&self) -> Vec<Family> {
        let spaces = (0..).zip(&self.all).filter_map(|(number, page)| match page {
            Some(Page::Space(space)) => Some((number, *space)),
            _ => None,
        });
        let tables = |place| if place < self.bounds.spaces { self.bounds.tables } else { 0 };
        let families = spaces.enumerate();
        families.map(|(place, (number, space))| self.family(number, space, tables(place))).collect()
    }

    /// A space; so many of its tables are drawn at most.
    fn family(&self, number: u32, space: Space, most: usize) -> Family {
        let own =
            |is: fn(&Page) -> bool| self.pages(|page| page.owner() == Some(number) && is(page));
        let firsts = own(|page| matches!(page, Page::FirstTable { .. }));
        let tables = own(|page| matches!(page, Page::Table { .. }));
        let mut data = own(|page| matches!(page, Page::Data { .. })).into_iter().collect();
        let mut rest = own(|page| matches!(page, Page::Thread(_) | Page::Spare { .. }));
        rest.extend(firsts.iter().filter(|page| **page != space.first));
        let first = match firsts.contains(&space.first) {
            true => Ok(space.first),
            false => Err(self.about((space.first, 1))),
        };
        let (tables, mut astray) = self.named_tables(first.as_ref().ok(), tables);
        let more = astray.len().saturating_sub(self.bounds.others);
        astray.truncate(self.bounds.others);
        let tables = tables.into_iter().map(|(page, index)| self.table(page, index, &mut data));
        let mut tables: Vec<Table> = tables.collect();
        let told = tables.split_off(tables.len().min(most));
        let (mut listed, mut spare) = (unseen(&tables, &told), Vec::new());
        if self.folded {
            spare = own(|page| matches!(page, Page::Spare { .. }));
            listed.extend(rest.extract_if(.., |page| firsts.contains(page)));
            rest.retain(|page| !spare.contains(page));
        }
        let loose = data.into_iter().collect();
        Family { number, space, first, tables, told, astray, more, loose, rest, spare, listed }
    }

    /// The tables of a space, with the index where its first level names them,
    /// and what else the first level names.
    fn named_tables(&self, first: Option<&u32>, mut own: Vec<u32>) -> (Vec<Named>, Vec<Astray>) {
        let (mut tables, mut astray) = (Vec::new(), Vec::new());
        for (index, page) in first.iter().flat_map(|first| self.named(**first)) {
            match own.iter().position(|table| *table == page) {
                Some(place) => tables.push((own.remove(place), Some(index))),
                None => astray.push((index, self.about((page, 1)))),
            }
        }
        tables.extend(own.into_iter().map(|page| (page, None)));
        (tables, astray)
    }

    /// The words of a page; none where memory has none.
    pub fn words(&self, page: u32) -> &[u32] {
        let frame = self.machine.secure.checked_add(page);
        frame.and_then(|frame| self.memory.frame(frame)).unwrap_or(&[])
    }

    /// The pages that a first-level table names, with their index.
    fn named(&self, first: u32) -> Vec<(u32, u32)> {
        let slots = (0..MOST_TABLES).zip(self.words(first));
        slots.filter_map(|(index, word)| Some((index, word.checked_sub(1)?))).collect()
    }

    /// A table; the data pages that it names are taken out of the list.
    fn table(&self, page: u32, index: Option<u32>, data: &mut BTreeSet<u32>) -> Table {
        let (mut drawn, mut hidden) = (Vec::new(), Vec::new());
        let (mut own, mut others) = (0, 0);
        for slot in self.slots(page, data) {
            let (rows, most) = match slot.target {
                Target::Data(_) => (&mut own, self.bounds.data),
                _ => (&mut others, self.bounds.others),
            };
            *rows += 1;
            if *rows <= most { &mut drawn } else { &mut hidden }.push(slot);
        }
        Table { page, index, drawn, hidden }
    }

    /// What the pages of a run are that a space names and does not own as it
    /// should: the first of them and how many.
    pub fn about(&self, run: (u32, u32)) -> String {
        match what(&self.ledger, run.0) {
            Some(what) => format!("{} {what}", range(run)),
            None => format!("no page {}", range(run)),
        }
    }

    /// The insecure frames, in order.
    pub fn insecure(&self) -> impl Iterator<Item = u32> + '_ {
        let most = self.machine.frames.min(MOST_FRAMES);
        (0..most).filter(|frame| self.machine.is_insecure(*frame))
    }
}

/// The pages of a space that its tables hold and no row shows: tables for which
/// there is no room, and the data pages that they and hidden slots name.
fn unseen(tables: &[Table], told: &[Table]) -> Vec<u32> {
    let hidden = tables.iter().flat_map(|table| &table.hidden);
    let slots = hidden.chain(told.iter().flat_map(Table::slots));
    let data = slots.flat_map(|slot| slot.data().iter().copied());
    told.iter().map(|table| table.page).chain(data).collect()
}
