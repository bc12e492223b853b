//! The numbers of a box and of a key, as words.

use crate::decimal::{value, ORDINALS};
use crate::shown::quoted;
use crate::Complaint;
use std::ffi::OsStr;
use types::layout::KEY_WORDS;
use types::{Key, Machine};

/// As many numbers as are wanted, with commas between; or what is wrong with
/// them, in words that repeat none of them.
fn numbers<const N: usize>(word: &OsStr) -> Result<[u32; N], String> {
    let parts: Vec<&[u8]> = word.as_encoded_bytes().split(|byte| *byte == b',').collect();
    if parts.len() != N {
        return Err(format!("found {}", parts.len()));
    }
    let mut numbers = [0; N];
    for (place, part) in parts.into_iter().enumerate() {
        let none = || format!("and the {} is none", ORDINALS[place]);
        numbers[place] = value(part).ok_or_else(none)?;
    }
    Ok(numbers)
}

fn expected(option: &str, of: &str) -> String {
    format!("{option}: expected {of} numbers up to {} with commas between", u32::MAX)
}

/// A key. A complaint does not repeat it: what is said may be kept or seen.
pub fn key_of(word: Option<&OsStr>) -> Result<Key, Complaint> {
    let complain = |what: &str| format!("{}, {what}", expected("--key", &KEY_WORDS.to_string()));
    let word = word.ok_or_else(|| complain("found nothing"))?;
    numbers(word).map(Key::new).map_err(|what| complain(&what))
}

/// The numbers of a box; they fit.
pub fn machine_of(word: Option<&OsStr>) -> Result<Machine, Complaint> {
    let five = expected("--machine", "F,s,n,m,k, five");
    let word = word.ok_or_else(|| format!("{five}, found nothing"))?;
    let [frames, secure, pages, monitor, monitors] =
        numbers(word).map_err(|_| format!("{five}, found {}", quoted(word)))?;
    let machine = Machine { frames, secure, pages, monitor, monitors };
    match machine.broken_rule() {
        None => Ok(machine),
        Some(rule) => Err(format!("--machine: expected {rule}, found {}", quoted(word))),
    }
}
