//! The calls and the answers by number and name.

use crate::layout::{Record, HASH_WORDS, RECORD_WORDS, SAVED_WORDS};

/// The numbers of the calls.
#[allow(missing_docs)]
pub mod number {
    pub const GET_PHYS_PAGES: u32 = 1;
    pub const INIT_ADDR_SPACE: u32 = 2;
    pub const INIT_THREAD: u32 = 3;
    pub const INIT_TABLE: u32 = 4;
    pub const ALLOC_SPARE: u32 = 5;
    pub const MAP_SECURE: u32 = 6;
    pub const MAP_INSECURE: u32 = 7;
    pub const FINALISE: u32 = 8;
    pub const ENTER: u32 = 9;
    pub const RESUME: u32 = 10;
    pub const STOP: u32 = 11;
    pub const REMOVE: u32 = 12;
    pub const FREE_PAGES: u32 = 13;
    pub const GET_RANDOM: u32 = 32;
    pub const ATTEST: u32 = 33;
    pub const VERIFY: u32 = 34;
    pub const SPARE_TABLE: u32 = 35;
    pub const MAP_DATA: u32 = 36;
    pub const UNMAP_DATA: u32 = 37;
    pub const EXIT: u32 = 38;
    pub const INTERRUPT: u32 = 39;
    pub const FAULT: u32 = 40;
    pub const LOAD: u32 = 41;
    pub const STORE: u32 = 42;
    /// Calls from here on are a running thread's.
    pub const ENCLAVE: u32 = GET_RANDOM;
}

/// One row of the table of calls.
#[derive(Debug)]
pub struct Call {
    /// The number in word 0 of a record.
    pub number: u32,
    /// Its name.
    pub name: &'static str,
    /// How many words after the number are arguments.
    pub arguments: usize,
    /// How many values an answer of 0 carries.
    pub values: usize,
}

const fn call(number: u32, name: &'static str, arguments: usize, values: usize) -> Call {
    Call { number, name, arguments, values }
}

/// All calls.
pub const CALLS: [Call; 24] = [
    call(number::GET_PHYS_PAGES, "GetPhysPages", 0, 1),
    call(number::INIT_ADDR_SPACE, "InitAddrSpace", 2, 0),
    call(number::INIT_THREAD, "InitThread", 3, 0),
    call(number::INIT_TABLE, "InitL2PTable", 3, 0),
    call(number::ALLOC_SPARE, "AllocSpare", 2, 0),
    call(number::MAP_SECURE, "MapSecure", 4, 0),
    call(number::MAP_INSECURE, "MapInsecure", 3, 0),
    call(number::FINALISE, "Finalise", 1, 0),
    call(number::ENTER, "Enter", 4, SAVED_WORDS),
    call(number::RESUME, "Resume", 1, SAVED_WORDS),
    call(number::STOP, "Stop", 1, 0),
    call(number::REMOVE, "Remove", 1, 0),
    call(number::FREE_PAGES, "FreePages", 0, 2),
    call(number::GET_RANDOM, "GetRandom", 1, 1),
    call(number::ATTEST, "Attest", HASH_WORDS, HASH_WORDS),
    call(number::VERIFY, "Verify", 3 * HASH_WORDS, 1),
    call(number::SPARE_TABLE, "InitL2PTable", 2, 0),
    call(number::MAP_DATA, "MapData", 2, 0),
    call(number::UNMAP_DATA, "UnmapData", 1, 0),
    call(number::EXIT, "Exit", 1, 1),
    call(number::INTERRUPT, "Interrupt", SAVED_WORDS, 0),
    call(number::FAULT, "Fault", 0, 0),
    call(number::LOAD, "Load", 1, 1),
    call(number::STORE, "Store", 2, 0),
];

/// The call of this number.
pub fn by_number(number: u32) -> Option<&'static Call> {
    CALLS.iter().find(|call| call.number == number)
}

/// Every number an answer record may start with, besides 0.
#[derive(Clone, Copy, Debug, PartialEq, Eq)]
#[repr(u32)]
#[allow(missing_docs)]
pub enum Code {
    NoSuchPage = 1,
    NotFree = 2,
    NotASpace = 3,
    WrongState = 4,
    NotFinal = 5,
    BadMapping = 6,
    Taken = 7,
    NoTable = 8,
    NotInsecure = 9,
    NotAThread = 10,
    Suspended = 11,
    NotSuspended = 12,
    NotStopped = 13,
    StillOwns = 14,
    WrongTime = 15,
    NotOwnSpare = 16,
    NotOwnData = 17,
    BadRecord = 19,
    NoSuchIndex = 21,
    AlreadyFree = 22,
    BadEntry = 23,
    Interrupted = 32,
    Faulted = 33,
}

/// The values of a call that is done, or the number that stands alone in its
/// record: a refusal, or one of the outcomes 32 and 33.
pub type Reply = Result<Vec<u32>, Code>;

/// Done, with no values.
pub(crate) fn done() -> Reply {
    Ok(Vec::new())
}

/// The answer record of a reply.
pub fn record(reply: &Reply) -> Record {
    let mut words = [0; RECORD_WORDS];
    match reply {
        Ok(values) => words[1..=values.len()].copy_from_slice(values),
        Err(code) => words[0] = *code as u32,
    }
    words
}
