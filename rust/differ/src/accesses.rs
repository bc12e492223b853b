//! Loads and stores of a running thread, chosen so that every reason why an
//! access fails is met. The second program names the reason beforehand; the
//! answer is 33 alone exactly where there is one.

use crate::tally::Tally;
use crate::twins::Twins;
use crate::{expect, Outcome};
use second::calls::number::{LOAD, STORE};
use second::calls::Code;
use second::layout::{record_of, word, Record, FRAME_WORDS, MOST_TABLES, RUNNING};
use second::mapping::{Leaf, Mapping, ADDRESSES, WORD_BYTES, WRITE};
use second::random::{Rng, View};
use second::shift::record;
use second::{reason, Reason, DONE};
use std::fmt;

/// The kinds of access, by whether they store.
const KINDS: [(&str, bool); 2] = [("load", false), ("store", true)];

/// Every end of an access of this kind: done, or one of the reasons.
fn ends(store: bool) -> impl Iterator<Item = Option<Reason>> {
    let failed = Reason::ALL.into_iter().filter(move |end| store || *end != Reason::NoWrite);
    std::iter::once(None).chain(failed.map(Some))
}

/// How often each kind of access came to each end.
#[derive(Default)]
pub struct Met([[u64; 1 + Reason::ALL.len()]; 2]);

impl Met {
    /// How often this kind of access came to this end.
    pub fn count(&self, store: bool, end: Option<Reason>) -> u64 {
        self.0[usize::from(store)][end.map_or(0, Reason::number) as usize]
    }

    fn note(&mut self, store: bool, end: Option<Reason>) {
        self.0[usize::from(store)][end.map_or(0, Reason::number) as usize] += 1;
    }

    /// The ends that have not come up, and the one that must not.
    pub fn missing(&self) -> Vec<String> {
        let strange = self.count(false, Some(Reason::NoWrite)) > 0;
        let all =
            KINDS.iter().flat_map(|(kind, store)| ends(*store).map(move |it| (kind, store, it)));
        all.filter(|(_, store, end)| self.count(**store, *end) == 0)
            .map(|(kind, _, end)| format!("a {kind}: {}", in_words(end)))
            .chain(strange.then(|| format!("no load: {}", Reason::NoWrite)))
            .collect()
    }
}

fn in_words(end: Option<Reason>) -> String {
    end.map_or("done".into(), |reason| reason.to_string())
}

impl fmt::Display for Met {
    fn fmt(&self, out: &mut fmt::Formatter) -> fmt::Result {
        let kinds = KINDS.map(|(kind, store)| {
            let counts: Vec<String> = ends(store)
                .map(|end| format!("{} {}", self.count(store, end), in_words(end)))
                .collect();
            format!("{kind}s: {}", counts.join(", "))
        });
        write!(out, "{}", kinds.join("; "))
    }
}

/// One access of each kind to each end that the tables of the running thread
/// have an address for, and to an edge of the addresses, each on a copy.
pub fn asked(rng: &mut Rng, twins: &Twins, tally: &mut Tally) -> Outcome {
    let Some(pages) = Pages::of(rng, twins.view()) else { return Ok(()) };
    for (_, store) in KINDS {
        let edge = rng.pick(&EDGES);
        let chosen: Vec<u32> =
            ends(store).filter_map(|end| pages.address(rng, store, end)).collect();
        for va in chosen.into_iter().chain([edge]) {
            one(rng, twins, &pages, (va, store), tally)?;
        }
    }
    Ok(())
}

/// The first and the last word below and from 2^30 on.
const EDGES: [u32; 4] = [0, ADDRESSES - WORD_BYTES, ADDRESSES, u32::MAX - (WORD_BYTES - 1)];

fn one(
    rng: &mut Rng,
    twins: &Twins,
    pages: &Pages,
    (va, store): (u32, bool),
    tally: &mut Tally,
) -> Outcome {
    let View { machine, memory, ledger } = twins.view();
    let end = reason(machine, memory, ledger, va, store);
    tally.accesses.note(store, end);
    let mut copy = twins.clone();
    let call = if store { vec![STORE, va, rng.word()] } else { vec![LOAD, va] };
    expect(copy.batch(rng, &record(&call), tally)?, DONE)?;
    let expected = match end {
        Some(_) => record(&[Code::Faulted as u32]),
        None if store => record(&[DONE]),
        None => loaded(pages, memory, va)?,
    };
    let runs = copy.view().ledger[RUNNING] != 0;
    match copy.lent().answers.words() == expected && runs == end.is_none() {
        true => Ok(()),
        false => Err(format!("both answer to {call:?} otherwise than by: {}", in_words(end))),
    }
}

/// The answer of a load that is done.
fn loaded(pages: &Pages, memory: &[u32], va: u32) -> Result<Record, String> {
    let page = Mapping(va).address();
    let found = pages.mapped.iter().find(|(address, _)| *address == page);
    let (_, leaf) = found.ok_or_else(|| format!("no reason for a load at {va}"))?;
    Ok(record(&[DONE, memory[leaf.place(va)]]))
}

/// The page addresses of a space, by what its tables have there.
struct Pages {
    mapped: Vec<(u32, Leaf)>,
    empty: Vec<u32>,
    unlinked: Vec<u32>,
}

impl Pages {
    /// Those of the running thread's space, of an unlinked index one alone.
    fn of(rng: &mut Rng, view: View) -> Option<Pages> {
        let page = |page: u32| &view.memory[view.machine.words_of(page as usize)];
        let record = |page: u32| &view.ledger[record_of(page as usize)];
        let thread = view.ledger[RUNNING].checked_sub(1)?;
        let first = page(record(record(thread)[word::OWNER])[word::FIRST]);
        let mut pages = Pages { mapped: Vec::new(), empty: Vec::new(), unlinked: Vec::new() };
        for (index, table) in first.iter().take(MOST_TABLES).enumerate() {
            let at = |slot| Mapping::at(index, slot, 0).address();
            let Some(table) = table.checked_sub(1) else {
                pages.unlinked.push(at(rng.below(FRAME_WORDS as u32) as usize));
                continue;
            };
            for (slot, word) in page(table).iter().enumerate() {
                match Leaf::read(*word) {
                    Some(leaf) => pages.mapped.push((at(slot), leaf)),
                    None => pages.empty.push(at(slot)),
                }
            }
        }
        Some(pages)
    }

    /// Those that are mapped with the right to store, or without.
    fn mapped(&self, writable: bool) -> Vec<u32> {
        let mapped = self.mapped.iter();
        let wanted = mapped.filter(|(_, leaf)| (leaf.rights & WRITE != 0) == writable);
        wanted.map(|(page, _)| *page).collect()
    }

    /// An address at which this kind of access comes to this end, if there is
    /// one. A misaligned one or one too high is of a page of any kind, so that
    /// each stands together with every reason after it.
    fn address(&self, rng: &mut Rng, store: bool, end: Option<Reason>) -> Option<u32> {
        let (writable, readable) = (self.mapped(true), self.mapped(false));
        let all = [&writable, &readable, &self.empty, &self.unlinked];
        let page = match end {
            None if store || rng.once_in(2) => rng.pick_any(&writable),
            None | Some(Reason::NoWrite) => rng.pick_any(&readable),
            Some(Reason::EmptySlot) => rng.pick_any(&self.empty),
            Some(Reason::NoTable) => rng.pick_any(&self.unlinked),
            Some(Reason::Misaligned | Reason::TooHigh) => {
                let some: Vec<_> = all.into_iter().filter(|pages| !pages.is_empty()).collect();
                let pages = rng.pick_any(&some)?;
                rng.pick_any(pages)
            }
        }?;
        let (first, last) = (0, FRAME_WORDS as u32 - 1);
        let any = rng.below(FRAME_WORDS as u32);
        let va = page + WORD_BYTES * rng.pick(&[first, any, any, last]);
        Some(match end {
            Some(Reason::Misaligned) => va + 1 + rng.below(3) + ADDRESSES * rng.pick(&[0, 0, 1, 3]),
            Some(Reason::TooHigh) => va + ADDRESSES * (1 + rng.below(3)),
            _ => va,
        })
    }
}
