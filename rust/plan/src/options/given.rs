//! The options and the files among some words, whatever their order.

use super::asked::{Form, Fresh};
use super::numbers::{key_of, machine_of};
use crate::shown::quoted;
use crate::{Complaint, KEY};
use std::ffi::{OsStr, OsString};
use std::os::unix::ffi::OsStrExt;
use types::{Key, Machine};

/// What is given; an option that is not is none.
#[derive(Default)]
pub struct Given {
    pub files: Vec<OsString>,
    pub machine: Option<Machine>,
    pub key: Option<Key>,
    pub json: Option<()>,
    pub ledger: Option<Form>,
    pub state: Option<OsString>,
    pub load: Option<OsString>,
    pub save: Option<OsString>,
}

impl Given {
    /// Reads the words; these options are taken, and at most so many files.
    pub fn read(words: &[OsString], options: &[&str], files: usize) -> Result<Given, Complaint> {
        let mut given = Given::default();
        let mut words = words.iter().map(OsString::as_os_str).peekable();
        while let Some(word) = words.next() {
            match options.iter().find(|option| **option == word) {
                Some(option) => given.option(option, &mut words)?,
                None if is_option(word) => return Err(unknown(word, options)),
                None if given.files.len() == files => return Err(too_many(word, files)),
                None => given.files.push(word.into()),
            }
        }
        Ok(given)
    }

    /// The box that is asked for.
    pub fn fresh(&self) -> Fresh {
        Fresh {
            machine: self.machine.unwrap_or(Machine::BOX_A),
            key: self.key.clone().unwrap_or(KEY),
        }
    }

    fn option<'w>(
        &mut self,
        option: &str,
        words: &mut std::iter::Peekable<impl Iterator<Item = &'w OsStr>>,
    ) -> Result<(), Complaint> {
        match option {
            "--machine" => once(option, &mut self.machine, machine_of(words.next())?),
            "--key" => once(option, &mut self.key, key_of(words.next())?),
            "--json" => once(option, &mut self.json, ()),
            "--ledger" => {
                let end = words.next_if(|word| *word == "end");
                once(option, &mut self.ledger, end.map_or(Form::Ledger, |_| Form::LedgerAtEnd))
            }
            "--state" => once(option, &mut self.state, named(option, "folder", words.next())?),
            "--load" => once(option, &mut self.load, named(option, "file", words.next())?),
            "--save" => once(option, &mut self.save, named(option, "file", words.next())?),
            other => Err(unknown(other.as_ref(), &[])),
        }
    }
}

/// A word that starts with a dash; the dash alone is standard input.
fn is_option(word: &OsStr) -> bool {
    word != "-" && word.as_encoded_bytes().starts_with(b"-")
}

/// The name that an option takes. One that starts with a dash is rather the next
/// option, after a name that was forgotten.
fn named(option: &str, kind: &str, word: Option<&OsStr>) -> Result<OsString, Complaint> {
    let expected = format!("{option}: expected a {kind}, found");
    match word {
        Some(name) if name.as_encoded_bytes().starts_with(b"-") => {
            let hint = "a name that starts with - is given as ./-..";
            Err(format!("{expected} {}: {hint}", before_value(name)))
        }
        Some(name) if !name.is_empty() => Ok(name.into()),
        _ => Err(format!("{expected} nothing")),
    }
}

fn once<T>(option: &str, place: &mut Option<T>, value: T) -> Result<(), Complaint> {
    match place.replace(value) {
        None => Ok(()),
        Some(_) => Err(format!("{option}: expected once, found twice")),
    }
}

fn unknown(word: &OsStr, options: &[&str]) -> Complaint {
    let expected = match options {
        [] => "no option".into(),
        [only] => only.to_string(),
        [first @ .., last] => format!("{} or {last}", first.join(", ")),
    };
    format!("expected {expected}, found {}", before_value(word))
}

/// A word without what follows an equals sign, which may be a key.
fn before_value(word: &OsStr) -> String {
    let bytes = word.as_encoded_bytes();
    match bytes.iter().position(|byte| *byte == b'=') {
        Some(end) => quoted(OsStr::from_bytes(&[&bytes[..=end], b".."].concat())),
        None => quoted(word),
    }
}

fn too_many(word: &OsStr, files: usize) -> Complaint {
    let expected = if files == 1 { "one name" } else { "two names" };
    format!("expected {expected}, found {} as well", quoted(word))
}
