//! Runs of pages: those of one type and one owner whose places follow each other.

use super::Numbered;
use crate::picture::details;
use monitor::Page;
use std::cmp::Reverse;
use std::collections::btree_map::{BTreeMap, Entry};

/// Runs of a type that are told each with its place, at most.
const MOST_RUNS: usize = 16;
/// From the address of a page to the next.
const NEXT: u32 = 4096;

/// Pages that go on one from the other, in the order of their places; or
/// scattered ones, which are told together.
pub struct Run<'p> {
    pub pages: Vec<u32>,
    /// Those with the lowest place and with the highest.
    pub first: &'p Page,
    last: &'p Page,
    step: Option<u32>,
    scattered: bool,
}

/// The runs of pages of one type, by their owners and places.
pub fn runs(mut pages: Vec<&Numbered>) -> Vec<Run<'_>> {
    pages.sort_by_key(|(number, page)| (page.owner(), place(page), *number));
    let mut found: Vec<Run> = Vec::new();
    for (number, page) in pages {
        match found.last_mut() {
            Some(run) if run.goes_on(page) => {
                run.step = step(run.last, page);
                run.pages.push(*number);
                run.last = page;
            }
            _ => found.push(Run::of(*number, page)),
        }
    }
    gathered(found)
}

/// Where there are many runs the longest stay, and the pages of the others are
/// told together: what tells nothing one by one hides what does.
fn gathered(mut runs: Vec<Run>) -> Vec<Run> {
    let alone = |run: &Run| matches!(run.first, Page::Thread(_) | Page::Space(_));
    if runs.len() <= MOST_RUNS || runs.iter().any(alone) {
        return runs;
    }
    runs.sort_by_key(|run| Reverse(run.pages.len()));
    let long = runs.iter().take_while(|run| run.pages.len() > 1).count();
    let mut others = runs.split_off(long.min(MOST_RUNS));
    others.sort_by_key(|run| place(run.first));
    runs.sort_by_key(|run| (run.first.owner(), place(run.first)));
    let mut groups: BTreeMap<(Option<u32>, String), Run> = BTreeMap::new();
    for run in others {
        match groups.entry((run.first.owner(), rights(run.first))) {
            Entry::Vacant(group) => {
                group.insert(run);
            }
            Entry::Occupied(group) => group.into_mut().gather(run),
        }
    }
    runs.extend(groups.into_values());
    runs
}

/// The rights that a page is mapped with.
fn rights(page: &Page) -> String {
    match page {
        Page::Data { map, .. } if map.is_well_formed() => map.rights().to_string(),
        Page::Data { .. } => "ill-formed".into(),
        _ => String::new(),
    }
}

impl<'p> Run<'p> {
    fn of(number: u32, page: &'p Page) -> Run<'p> {
        Run { pages: vec![number], first: page, last: page, step: None, scattered: false }
    }

    /// Takes the pages of another run, whose places are higher.
    fn gather(&mut self, other: Run<'p>) {
        self.pages.extend(other.pages);
        self.pages.sort_unstable();
        self.last = other.last;
        self.scattered = true;
    }

    fn goes_on(&self, page: &Page) -> bool {
        let step = step(self.last, page);
        step.is_some() && (self.step.is_none() || self.step == step)
    }

    /// What the records say beside types and owners.
    pub fn what(&self, running: Option<u32>) -> String {
        match (self.first, self.last) {
            (page, _) if self.scattered && rights(page) == "ill-formed" => rights(page),
            (Page::Table { index, .. }, Page::Table { index: last, .. }) if self.scattered => {
                format!("within index {index} to {last}")
            }
            (page @ Page::Data { map, .. }, Page::Data { map: last, .. }) if self.scattered => {
                format!("{} within {} to {}", rights(page), map.address(), last.address())
            }
            (Page::Table { index, .. }, Page::Table { index: last, .. }) if index != last => {
                format!("index {index} to {last}")
            }
            (Page::Data { map, .. }, Page::Data { map: last, .. }) if map != last => {
                format!("at {} to {last}", map.address())
            }
            (Page::Data { map, .. }, _) => format!("at {map}"),
            (page, _) => {
                let [_, what, more] = details(page, self.pages.first().copied() == running);
                let said = [what, more].into_iter().filter(|part| !part.is_empty());
                said.collect::<Vec<_>>().join(", ")
            }
        }
    }
}

/// What orders the pages of a type.
fn place(page: &Page) -> u32 {
    match page {
        Page::Table { index, .. } => *index,
        Page::Data { map, .. } => map.word(),
        _ => 0,
    }
}

/// How far it is to the page that goes on from another; none where it does not.
/// Each thread and each space stands alone.
fn step(from: &Page, to: &Page) -> Option<u32> {
    let apart = place(to).checked_sub(place(from))?;
    let next = match (from, to) {
        (Page::Thread(_) | Page::Space(_), _) => return None,
        (Page::Data { map, .. }, Page::Data { map: to, .. }) => {
            apart == NEXT && map.is_well_formed() && to.is_well_formed()
        }
        _ => apart == 1,
    };
    (from.owner() == to.owner() && (apart == 0 || next)).then_some(apart)
}
