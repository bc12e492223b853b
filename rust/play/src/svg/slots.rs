//! The slots of tables, read: where each leads, and which in a row lead on from
//! each other.

use super::family::{Slot, Target};
use super::scene::Scene;
use super::words::what;
use monitor::layout::FRAME_WORDS;
use monitor::{Mapping, Page};
use std::collections::BTreeSet;

/// Bytes in a frame: a slot is as many times its frame, and rights.
const FRAME_BYTES: u32 = 4 * FRAME_WORDS as u32;

impl Scene<'_> {
    /// The slots of a table that are not empty, runs of them folded.
    pub fn slots(&self, page: u32, data: &mut BTreeSet<u32>) -> Vec<Slot> {
        let mut found: Vec<Slot> = Vec::new();
        for (first, word) in (0..).zip(self.words(page).iter().copied()) {
            if word == 0 {
                continue;
            }
            let target = self.target(word, data);
            match found.last_mut() {
                Some(run) if run.first + run.count == first && self.goes_on(run, word, &target) => {
                    run.count += 1;
                    if let (Target::Data(pages), Target::Data(page)) = (&mut run.target, target) {
                        pages.extend(page);
                    }
                }
                _ => found.push(Slot { first, word, count: 1, target }),
            }
        }
        found
    }

    /// Whether the next slot's word leads on from where a run has led.
    fn goes_on(&self, run: &Slot, word: u32, target: &Target) -> bool {
        let next = |first: u32, to: u32| first.checked_add(run.count) == Some(to);
        let like = self.folded && (run.word ^ word).is_multiple_of(FRAME_BYTES);
        like && match (&run.target, target) {
            (Target::Data(_), Target::Data(_)) => true,
            (Target::Insecure(first), Target::Insecure(frame)) => {
                next(*first, *frame) && self.cuts.get(*frame as usize) == Some(&false)
            }
            (Target::Page(first), Target::Page(page)) => {
                next(*first, *page) && what(&self.ledger, *first) == what(&self.ledger, *page)
            }
            _ => false,
        }
    }

    /// Notes where the runs of slots start and where they have ended, in any table.
    pub fn cut(&mut self) {
        for table in self.pages(|page| matches!(page, Page::Table { .. })) {
            let mut before = 0u32;
            let words = self.words(table).to_vec();
            for word in words.into_iter().chain([0]) {
                if before.checked_add(FRAME_BYTES) != Some(word) {
                    for frame in [before / FRAME_BYTES + 1, word / FRAME_BYTES] {
                        self.cuts.get_mut(frame as usize).into_iter().for_each(|cut| *cut = true);
                    }
                }
                before = word;
            }
        }
    }

    fn target(&self, word: u32, data: &mut BTreeSet<u32>) -> Target {
        let frame = word / FRAME_BYTES;
        if !Mapping::from_word(word % FRAME_BYTES).is_well_formed() {
            return Target::Astray(word);
        }
        if self.machine.is_insecure(frame) {
            return Target::Insecure(frame);
        }
        let Some(page) = self.machine.page_in(frame) else { return Target::Astray(word) };
        match data.remove(&page) {
            true => Target::Data(vec![page]),
            false => Target::Page(page),
        }
    }

    /// What a word leads to that leads astray.
    pub fn elsewhere(&self, word: u32) -> String {
        let frame = word / FRAME_BYTES;
        match Mapping::from_word(word % FRAME_BYTES).is_well_formed() {
            false => format!("word {word}"),
            true if frame < self.machine.frames => format!("monitor's frame {frame}"),
            true => format!("no frame {frame}"),
        }
    }

    /// The addresses of a run of slots, with the rights: of the first, and of the
    /// last where there are more.
    pub fn maps(&self, table: u32, slot: &Slot) -> (String, Option<String>) {
        let home = match self.all.get(table as usize) {
            Some(Some(Page::Table { index, .. })) => *index,
            _ => 0,
        };
        let last = slot.first + slot.count - 1;
        let address = Mapping::new(home, last).map(|map| map.address().to_string());
        let last = address.unwrap_or_else(|| format!("slot {last}"));
        (map(home, slot.first, slot.word), (slot.count > 1).then(|| format!("to {last}")))
    }
}

/// The address of a slot, with the rights of its word.
fn map(index: u32, slot: u32, word: u32) -> String {
    let Some(place) = Mapping::new(index, slot) else { return format!("slot {slot}") };
    let address = place.address();
    let rights = Mapping::from_word(word % FRAME_BYTES);
    match rights.is_well_formed() {
        true => Mapping::from_word(address | rights.word()).to_string(),
        false => format!("{address} ?"),
    }
}
