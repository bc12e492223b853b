//! Two ways to see that a record is a call's: a known number, and zeros after
//! its arguments.

use second::calls::number::*;
use second::layout::{Record, HASH_WORDS};

/// How a twin reads records.
pub trait Reading {
    /// Whether this is the record of a call that is here.
    fn is_call(record: &[u32]) -> bool;
}

/// The calls that are here, each with its number of arguments.
pub const CALLS: [(u32, usize); 12] = [
    (GET_PHYS_PAGES, 0),
    (ALLOC_SPARE, 2),
    (MAP_SECURE, 4),
    (ENTER, 4),
    (REMOVE, 1),
    (ATTEST, HASH_WORDS),
    (VERIFY, 3 * HASH_WORDS),
    (MAP_DATA, 2),
    (UNMAP_DATA, 1),
    (EXIT, 1),
    (LOAD, 1),
    (STORE, 2),
];

/// By the table, and a loop that stops at the first word that is not zero.
pub struct Plain;

impl Reading for Plain {
    #[inline(always)]
    fn is_call(record: &[u32]) -> bool {
        let Some((_, arguments)) = CALLS.iter().find(|(number, _)| *number == record[0]) else {
            return false;
        };
        !record[1 + arguments..].iter().any(|word| *word != 0)
    }
}

/// By a match, and all words at once from a place that the compiler knows.
pub struct Folded;

impl Reading for Folded {
    #[inline(always)]
    fn is_call(record: &[u32]) -> bool {
        let record: &Record = record.try_into().expect("a record");
        match record[0] {
            GET_PHYS_PAGES => zero_after::<0>(record),
            REMOVE | UNMAP_DATA | EXIT | LOAD => zero_after::<1>(record),
            ALLOC_SPARE | MAP_DATA | STORE => zero_after::<2>(record),
            MAP_SECURE | ENTER => zero_after::<4>(record),
            ATTEST => zero_after::<HASH_WORDS>(record),
            VERIFY => zero_after::<{ 3 * HASH_WORDS }>(record),
            _ => false,
        }
    }
}

fn zero_after<const ARGUMENTS: usize>(record: &Record) -> bool {
    record[1 + ARGUMENTS..].iter().fold(0, |seen, word| seen | word) == 0
}
