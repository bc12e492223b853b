//! What a run has tried of saved images.

use super::damage::kinds;
use second::layout::MOST_PAGES;
use second::{BAD_BLOCK, DONE, NOT_ACCEPTED, UNFIT};
use std::collections::{BTreeMap, BTreeSet};
use std::fmt;

/// The four services.
#[derive(Clone, Copy, Debug, PartialEq, Eq, PartialOrd, Ord)]
pub enum Service {
    /// How many blocks there are.
    Blocks,
    /// Writes a block.
    Write,
    /// Reads a block.
    Read,
    /// Ends a reading.
    End,
}

impl fmt::Display for Service {
    fn fmt(&self, out: &mut fmt::Formatter) -> fmt::Result {
        out.pad(match self {
            Service::Blocks => "image blocks",
            Service::Write => "image write",
            Service::Read => "image read",
            Service::End => "image end",
        })
    }
}

/// The answers that each can give; a number of blocks counts as one.
const ANSWERS: [(Service, &[u32]); 4] = [
    (Service::Blocks, &[0, 1]),
    (Service::Write, &[DONE, UNFIT]),
    (Service::Read, &[DONE, UNFIT, BAD_BLOCK, NOT_ACCEPTED]),
    (Service::End, &[DONE, UNFIT, BAD_BLOCK, NOT_ACCEPTED]),
];

/// What is tried besides damage.
pub mod tried {
    #![allow(missing_docs)]
    pub const ACCEPTED: &str = "an accepted state read whole";
    pub const DAMAGED: &str = "a damaged state read whole";
    pub const RANDOM: &str = "random words read whole";
    pub const RUNNING: &str = "an accepted state with a running thread";
    pub const WRITERS_INDEX: &str = "a writer's index from the total on";
    pub const WRITERS_BLOCK: &str = "a writer's block of another length";
    pub const PROGRESS: &str = "random progress words";
    pub const PROGRESS_LENGTH: &str = "progress of another length";
    pub const END_EARLY: &str = "an end before the last block";
    pub const END_AGAIN: &str = "an end after an end";
    pub const AFTER_BAD: &str = "a good block after a bad one";
    pub const AFTER_YES: &str = "a block after a yes";
    pub const OLD: &str = "an old image";
    pub const PLAIN_TOTAL: &str = "an image with the total alone in word 2";
    /// All of these.
    pub const ALL: [&str; 14] = [
        ACCEPTED,
        DAMAGED,
        RANDOM,
        RUNNING,
        WRITERS_INDEX,
        WRITERS_BLOCK,
        PROGRESS,
        PROGRESS_LENGTH,
        END_EARLY,
        END_AGAIN,
        AFTER_BAD,
        AFTER_YES,
        OLD,
        PLAIN_TOTAL,
    ];
}

/// n of boxes that a whole run must have read an image of: the fewest blocks,
/// box A's, one whose old image had no fill, one without fill, the most of old
/// images, the most.
const PAGES: [u32; 6] = [1, 8, 15, 30, 256, MOST_PAGES];

/// Counts over all rounds of a run.
#[derive(Default)]
pub struct Images {
    answers: BTreeMap<(Service, u32), u64>,
    met: BTreeMap<&'static str, u64>,
    /// n of the boxes.
    pub pages: BTreeSet<u32>,
}

impl Images {
    /// Counts an answer.
    pub fn answered(&mut self, service: Service, answer: u32) {
        let answer = if service == Service::Blocks { answer.min(1) } else { answer };
        *self.answers.entry((service, answer)).or_default() += 1;
    }

    /// Counts what was tried.
    pub fn met(&mut self, what: &'static str) {
        *self.met.entry(what).or_default() += 1;
    }

    /// What a whole run must have met and has not, or has and must not.
    pub fn missing(&self) -> Vec<String> {
        let allowed = ANSWERS
            .iter()
            .flat_map(|(service, codes)| codes.iter().map(move |code| (*service, *code)));
        let allowed: BTreeSet<(Service, u32)> = allowed.collect();
        let met: BTreeSet<(Service, u32)> = self.answers.keys().copied().collect();
        let lacks = allowed.difference(&met).map(|(service, code)| format!("{service}: {code}"));
        let strange =
            met.difference(&allowed).map(|(service, code)| format!("no {service}: {code}"));
        let tried = kinds().iter().map(|kind| kind.name).chain(tried::ALL);
        let untried = tried.filter(|what| !self.met.contains_key(what)).map(String::from);
        let pages = PAGES.iter().filter(|pages| !self.pages.contains(pages));
        let pages = pages.map(|pages| format!("an image of {pages} pages"));
        lacks.chain(strange).chain(untried).chain(pages).collect()
    }
}

impl fmt::Display for Images {
    fn fmt(&self, out: &mut fmt::Formatter) -> fmt::Result {
        for (service, _) in ANSWERS {
            write!(out, "{service:16}")?;
            for ((_, code), count) in self.answers.range((service, 0)..=(service, u32::MAX)) {
                write!(out, "  {code}: {count}")?;
            }
            writeln!(out)?;
        }
        for (what, count) in &self.met {
            writeln!(out, "  {what}: {count}")?;
        }
        Ok(())
    }
}
