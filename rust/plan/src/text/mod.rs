//! A plan of calls as text. Each call is its number or its name with decimal
//! arguments, perhaps `=` and the words that its answer is expected to start
//! with, then a semicolon; spaces and line feeds stand between, and `#` starts
//! a comment to the end of its line.

mod item;
mod reader;
mod token;

pub use item::Item;
pub use token::Place;

use crate::Complaint;
use reader::Reader;

/// A plan that has been read to its end, with nothing wrong.
#[derive(Debug, Default)]
pub struct Text {
    name: String,
    bytes: Vec<u8>,
    expects: bool,
}

impl Text {
    /// The plan of this name, or the first thing that is wrong: the name, its
    /// line and column, what was expected and what was found.
    pub fn new(name: String, bytes: Vec<u8>) -> Result<Text, Complaint> {
        let mut expects = false;
        for item in Reader::new(&bytes) {
            let item = item.map_err(|fault| format!("{name}:{fault}"))?;
            expects |= !item.expected().is_empty();
        }
        Ok(Text { name, bytes, expects })
    }

    /// Whether it expects any answer.
    pub fn expects(&self) -> bool {
        self.expects
    }

    /// Its name, as it is printed.
    pub fn name(&self) -> &str {
        &self.name
    }

    /// Its bytes back.
    pub fn into_bytes(self) -> Vec<u8> {
        self.bytes
    }

    /// Its calls, one by one.
    pub fn items(&self) -> impl Iterator<Item = Item> + '_ {
        Reader::new(&self.bytes).map(|item| item.expect("a plan that has been read before"))
    }
}
