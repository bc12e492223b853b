//! The printed shift: the rows of [`crate::cases`], one line a call.
//!
//! ```text
//! line      = number " " call { " " word } " -> " code " " meaning [ values ] "\n"
//! values    = ":" { " " word }
//! ```
//!
//! - `number` counts the rows from 1.
//! - `call` is the call's name; for an unknown number it is `Unknown` followed
//!   by a blank and the number itself.
//! - The words after it are those the row gives after its call number, be
//!   they more or fewer than the call's arguments; the record's other words
//!   are zero and are not printed.
//! - `code` is word 0 of the answer record, `meaning` its words from
//!   [`MEANINGS`].
//! - `values` stands only where the code is 0 and the call has values: as
//!   many words of the answer record as the call answers, from word 1.
//! - All numbers are decimal. There is no blank at the end of a line and
//!   nothing before the first line or after the last.

use crate::calls::{by_number, Code};
use crate::cases::{BOX_A, CASES, KEY};
use crate::layout::{Record, RECORD_WORDS};
use crate::service::{batch, boot, DONE};
use std::fmt::Write;

/// The codes of an answer record, in words.
pub const MEANINGS: [(u32, &str); 24] = [
    (DONE, "done"),
    (Code::NoSuchPage as u32, "no such page"),
    (Code::NotFree as u32, "not free"),
    (Code::NotASpace as u32, "not an address space"),
    (Code::WrongState as u32, "wrong state"),
    (Code::NotFinal as u32, "not final"),
    (Code::BadMapping as u32, "bad mapping"),
    (Code::Taken as u32, "taken"),
    (Code::NoTable as u32, "no table"),
    (Code::NotInsecure as u32, "not insecure"),
    (Code::NotAThread as u32, "not a thread"),
    (Code::Suspended as u32, "suspended"),
    (Code::NotSuspended as u32, "not suspended"),
    (Code::NotStopped as u32, "not stopped"),
    (Code::StillOwns as u32, "still owns"),
    (Code::WrongTime as u32, "wrong time"),
    (Code::NotOwnSpare as u32, "not own spare"),
    (Code::NotOwnData as u32, "not own data"),
    (Code::BadRecord as u32, "bad record"),
    (Code::NoSuchIndex as u32, "no such index"),
    (Code::AlreadyFree as u32, "already free"),
    (Code::BadEntry as u32, "bad entry"),
    (Code::Interrupted as u32, "interrupted"),
    (Code::Faulted as u32, "fault"),
];

fn meaning(code: u32) -> &'static str {
    MEANINGS.iter().find(|(number, _)| *number == code).map_or("unknown", |(_, words)| words)
}

/// Box A before its first call: the memory and the ledger.
pub fn start() -> (Vec<u32>, Vec<u32>) {
    let mut memory: Vec<u32> = (0..BOX_A.memory_words() as u32).collect();
    let mut ledger = vec![0; BOX_A.ledger_words()];
    assert_eq!(boot(BOX_A, &KEY, &mut memory, &mut ledger), DONE);
    (memory, ledger)
}

/// The whole record of a row.
pub fn record(row: &[u32]) -> Record {
    let mut words = [0; RECORD_WORDS];
    words[..row.len()].copy_from_slice(row);
    words
}

/// The rows with their answer records.
pub fn answers() -> Vec<(&'static [u32], Record)> {
    let (mut memory, mut ledger) = start();
    let obey = |row: &&'static [u32]| {
        let mut answer = [0; RECORD_WORDS];
        let code = batch(BOX_A, &mut memory, &mut ledger, &record(row), &mut answer);
        assert_eq!(code, DONE);
        (*row, answer)
    };
    CASES.iter().map(obey).collect()
}

/// The whole text.
pub fn text() -> String {
    let mut text = String::new();
    for (place, (row, answer)) in answers().iter().enumerate() {
        line(&mut text, place + 1, row, answer);
    }
    text
}

fn line(text: &mut String, number: usize, row: &[u32], answer: &Record) {
    let (name, values) = match by_number(row[0]) {
        Some(call) => (call.name.to_string(), call.values),
        None => (format!("Unknown {}", row[0]), 0),
    };
    let values = if answer[0] == DONE { &answer[1..=values] } else { &[] };
    let colon = if values.is_empty() { "" } else { ":" };
    let (code, meaning) = (answer[0], meaning(answer[0]));
    let (given, values) = (blank_before_each(&row[1..]), blank_before_each(values));
    writeln!(text, "{number} {name}{given} -> {code} {meaning}{colon}{values}").expect("a string");
}

fn blank_before_each(words: &[u32]) -> String {
    words.iter().map(|word| format!(" {word}")).collect()
}
