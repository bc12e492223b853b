//! Which answers each call has given so far.

use crate::calls::number::*;
use crate::calls::Code::{self, *};
use crate::calls::{by_number, CALLS};
use crate::service::DONE;
use std::collections::BTreeMap;
use std::fmt;

/// What each call's row has besides 0; 19 and 15, which every call can draw,
/// are added below.
const ROWS: [(u32, &[Code]); 24] = [
    (GET_PHYS_PAGES, &[]),
    (INIT_ADDR_SPACE, &[NoSuchPage, NotFree]),
    (INIT_THREAD, &[NoSuchPage, NotASpace, WrongState, NotFree, BadEntry]),
    (INIT_TABLE, &[NoSuchPage, NotASpace, WrongState, NotFree, NoSuchIndex, Taken]),
    (ALLOC_SPARE, &[NoSuchPage, NotASpace, WrongState, NotFree]),
    (
        MAP_SECURE,
        &[NoSuchPage, NotASpace, WrongState, NotFree, BadMapping, NoTable, Taken, NotInsecure],
    ),
    (MAP_INSECURE, &[NoSuchPage, NotASpace, WrongState, BadMapping, NoTable, Taken, NotInsecure]),
    (FINALISE, &[NoSuchPage, NotASpace, WrongState]),
    (ENTER, &[NoSuchPage, NotAThread, NotFinal, Suspended]),
    (RESUME, &[NoSuchPage, NotAThread, NotFinal, NotSuspended]),
    (STOP, &[NoSuchPage, NotASpace]),
    (REMOVE, &[NoSuchPage, AlreadyFree, NotStopped, StillOwns]),
    (FREE_PAGES, &[]),
    (GET_RANDOM, &[]),
    (ATTEST, &[]),
    (VERIFY, &[]),
    (SPARE_TABLE, &[NoSuchPage, NotOwnSpare, NoSuchIndex, Taken]),
    (MAP_DATA, &[NoSuchPage, NotOwnSpare, BadMapping, NoTable, Taken]),
    (UNMAP_DATA, &[NoSuchPage, NotOwnData]),
    (EXIT, &[]),
    (INTERRUPT, &[Interrupted]),
    (FAULT, &[Faulted]),
    (LOAD, &[Faulted]),
    (STORE, &[Faulted]),
];

/// Calls whose every outcome has a number of its own.
const NEVER_DONE: [u32; 2] = [INTERRUPT, FAULT];

/// The call number that stands for all unknown ones.
const UNKNOWN: u32 = 0;

/// Every pair of call number and answer code that the rules allow; call 0
/// stands for every unknown number.
pub fn allowed_pairs() -> Vec<(u32, u32)> {
    let mut pairs = vec![(UNKNOWN, BadRecord as u32)];
    for (call, codes) in ROWS {
        let done = (!NEVER_DONE.contains(&call)).then_some(DONE);
        let codes = codes.iter().chain(&[WrongTime, BadRecord]).map(|code| *code as u32);
        pairs.extend(done.into_iter().chain(codes).map(|code| (call, code)));
    }
    pairs
}

/// How often each pair of call number and answer code has come up.
#[derive(Clone, Debug, Default)]
pub struct Coverage(BTreeMap<(u32, u32), u64>);

impl Coverage {
    /// Counts a call record and its answer record.
    pub fn note(&mut self, call: &[u32], answer: &[u32]) {
        let number = by_number(call[0]).map_or(UNKNOWN, |call| call.number);
        *self.0.entry((number, answer[0])).or_default() += 1;
    }

    /// Adds another count to this one.
    pub fn add(&mut self, other: &Coverage) {
        for (pair, count) in &other.0 {
            *self.0.entry(*pair).or_default() += count;
        }
    }

    /// Allowed pairs that have not come up.
    pub fn missing(&self) -> Vec<(u32, u32)> {
        allowed_pairs().into_iter().filter(|pair| !self.0.contains_key(pair)).collect()
    }

    /// Pairs that have come up and are not allowed.
    pub fn strange(&self) -> Vec<(u32, u32)> {
        let allowed = allowed_pairs();
        self.0.keys().filter(|pair| !allowed.contains(pair)).copied().collect()
    }
}

impl fmt::Display for Coverage {
    fn fmt(&self, out: &mut fmt::Formatter) -> fmt::Result {
        let names = CALLS.iter().map(|call| (call.number, call.name));
        for (number, name) in std::iter::once((UNKNOWN, "unknown")).chain(names) {
            write!(out, "{number:2} {name:13}")?;
            for ((_, code), count) in self.0.range((number, 0)..=(number, u32::MAX)) {
                write!(out, "  {code}: {count}")?;
            }
            writeln!(out)?;
        }
        Ok(())
    }
}
