//! What a run has tried so far.

use crate::{accesses, images, old};
use second::calls::number::FREE_PAGES;
use second::layout::{MOST_CALLS, MOST_FRAMES, MOST_PAGES, RECORD_WORDS};
use second::random::Coverage;
use second::DONE;
use std::collections::{BTreeMap, BTreeSet};
use std::fmt;

/// Counts over all rounds of a run.
#[derive(Default)]
pub struct Tally {
    /// Rounds.
    pub rounds: u64,
    /// Call records obeyed.
    pub calls: u64,
    /// Batches obeyed, by how many records they had.
    pub batches: BTreeMap<usize, u64>,
    /// Boots.
    pub boots: u64,
    /// Damaged states that acceptance judged: refused, accepted.
    pub damaged: [u64; 2],
    /// Services asked with numbers or lengths that do not fit.
    pub unfit: u64,
    /// F of the machines that the services were asked about.
    pub frames: BTreeSet<u32>,
    /// Their n.
    pub pages: BTreeSet<u32>,
    /// How many words the call lists had.
    pub lengths: BTreeSet<usize>,
    /// n of the machines that shifts were on.
    pub shifts: BTreeSet<u32>,
    /// Words of the free map that FreePages found the lowest page in.
    pub lowest: BTreeSet<u32>,
    /// What was tried of old ledgers.
    old: BTreeMap<&'static str, u64>,
    /// Accesses of running threads, by the reasons why they failed.
    pub accesses: accesses::Met,
    /// Answer codes by call.
    pub coverage: Coverage,
    /// Saved images.
    pub images: images::tally::Images,
}

/// What a whole run must have met of each.
const FRAMES: [u32; 6] = [0, 1, 2, MOST_FRAMES, MOST_FRAMES + 1, u32::MAX];
const PAGES: [u32; 6] = [0, 1, 2, MOST_PAGES, MOST_PAGES + 1, u32::MAX];
const BATCHES: [usize; 3] = [0, 1, MOST_CALLS];
const SHIFTS: [u32; 6] = [1, 8, 33, 257, MOST_PAGES - 1, MOST_PAGES];
const LOWEST: [u32; 4] = [0, 1, 8, 31];
const LENGTHS: [usize; 8] = [
    1,
    RECORD_WORDS - 1,
    RECORD_WORDS,
    RECORD_WORDS + 1,
    RECORD_WORDS * MOST_CALLS - 1,
    RECORD_WORDS * MOST_CALLS,
    RECORD_WORDS * MOST_CALLS + 1,
    RECORD_WORDS * (MOST_CALLS + 1),
];

/// What of these is not among those.
fn absent<T: Ord + fmt::Display>(what: &str, wanted: &[T], met: &BTreeSet<T>) -> Vec<String> {
    wanted.iter().filter(|one| !met.contains(one)).map(|one| format!("{what} {one}")).collect()
}

/// Which of these are among those, each after a blank.
fn met<T: Ord + fmt::Display>(wanted: &[T], met: &BTreeSet<T>) -> String {
    wanted.iter().filter(|one| met.contains(one)).map(|one| format!(" {one}")).collect()
}

impl Tally {
    /// Damaged states in all.
    pub fn all_damaged(&self) -> u64 {
        self.damaged.iter().sum()
    }

    /// Counts an obeyed batch.
    pub fn note(&mut self, calls: &[u32], answers: &[u32]) {
        for (call, answer) in
            calls.chunks_exact(RECORD_WORDS).zip(answers.chunks_exact(RECORD_WORDS))
        {
            self.coverage.note(call, answer);
            self.calls += 1;
            if call[0] == FREE_PAGES && answer[0] == DONE && answer[1] > 0 {
                self.lowest.insert(answer[2] / u32::BITS);
            }
        }
        *self.batches.entry(calls.len() / RECORD_WORDS).or_default() += 1;
    }

    /// Counts what was tried of old ledgers.
    pub fn met(&mut self, what: &'static str) {
        *self.old.entry(what).or_default() += 1;
    }

    /// What a whole run must have met and has not, or has and must not.
    pub fn missing(&self) -> Vec<String> {
        let pairs = |(call, code): (u32, u32)| format!("call {call} answered {code}");
        let strange = self.coverage.strange().into_iter().map(pairs);
        let strange = strange.map(|pair| format!("no {pair}"));
        let batches = self.batches.keys().copied().collect();
        let old = self.old.keys().copied().collect();
        [
            self.coverage.missing().into_iter().map(pairs).collect(),
            strange.collect(),
            absent("F of", &FRAMES, &self.frames),
            absent("n of", &PAGES, &self.pages),
            absent("records in a batch:", &BATCHES, &batches),
            absent("words in a call list:", &LENGTHS, &self.lengths),
            absent("a shift with n of", &SHIFTS, &self.shifts),
            absent("the lowest free page in word", &LOWEST, &self.lowest),
            absent("ledgers:", &old::met::ALL, &old),
            self.accesses.missing(),
            self.images.missing(),
        ]
        .concat()
    }
}

impl fmt::Display for Tally {
    fn fmt(&self, out: &mut fmt::Formatter) -> fmt::Result {
        write!(out, "{}{}", self.coverage, self.images)?;
        for (what, count) in &self.old {
            writeln!(out, "  {what}: {count}")?;
        }
        writeln!(out, "{}", self.accesses)?;
        let [refused, accepted] = self.damaged;
        let all: u64 = self.batches.values().sum();
        let of = |size: usize| self.batches.get(&size).copied().unwrap_or(0);
        let [none, one, most] = BATCHES.map(of);
        writeln!(
            out,
            "{} rounds: {} calls in {all} batches ({none} of 0 records, {one} of 1, {most} of {MOST_CALLS})",
            self.rounds, self.calls
        )?;
        writeln!(
            out,
            "{} boots, {} damaged states ({refused} refused, {accepted} accepted)",
            self.boots,
            self.all_damaged()
        )?;
        writeln!(
            out,
            "shifts with n{}; lowest free pages in words{} of the map",
            met(&SHIFTS, &self.shifts),
            met(&LOWEST, &self.lowest)
        )?;
        write!(
            out,
            "{} refusals of what does not fit; met F{}; n{}; call lists of{} words",
            self.unfit,
            met(&FRAMES, &self.frames),
            met(&PAGES, &self.pages),
            met(&LENGTHS, &self.lengths)
        )
    }
}
