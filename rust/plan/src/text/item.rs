use super::token::Place;
use std::cmp::Ordering;
use std::fmt;
use types::layout::RECORD_WORDS;
use types::{Record, Refusal, Row};

/// Some words of a record.
#[derive(Clone, Debug, PartialEq, Eq)]
pub(super) struct Words {
    pub record: Record,
    pub count: usize,
}

impl Words {
    pub fn none() -> Words {
        Words { record: [0; RECORD_WORDS], count: 0 }
    }

    /// One word more, where the record has room.
    pub fn push(&mut self, word: u32) -> Option<()> {
        *self.record.get_mut(self.count)? = word;
        self.count += 1;
        Some(())
    }
}

/// One call of a plan.
#[derive(Clone, Debug, PartialEq, Eq)]
pub struct Item {
    /// Where it starts.
    pub place: Place,
    pub(super) call: Words,
    pub(super) expected: Words,
}

impl Item {
    /// The words that it gives: the number and its arguments.
    pub fn words(&self) -> &[u32] {
        &self.call.record[..self.call.count]
    }

    /// Its record: the words that it gives, then zeros.
    pub fn record(&self) -> &Record {
        &self.call.record
    }

    /// The words that its answer is expected to start with; none where nothing
    /// is expected.
    pub fn expected(&self) -> &[u32] {
        &self.expected.record[..self.expected.count]
    }

    /// What its call alone is named, or its number where that is unknown.
    pub fn title(&self) -> String {
        let number = self.call.record[0];
        self.row().map_or(format!("unknown {number}"), |row| row.short.into())
    }

    /// The name of its call, whatever its arguments are.
    pub fn name(&self) -> Option<&'static str> {
        self.row().map(|row| row.name)
    }

    fn row(&self) -> Option<&'static Row> {
        Row::of(self.call.record[0])
    }

    /// Says so where it gives fewer arguments than its row has, or more, as
    /// where a semicolon was forgotten.
    pub fn note(&self) -> Option<String> {
        let row = self.row()?;
        let (takes, given) = (row.words(), self.call.count - 1);
        let then = match given.cmp(&takes) {
            Ordering::Less => "the rest are 0".into(),
            Ordering::Equal => return None,
            Ordering::Greater => {
                format!("refused with {} unless the rest are 0", Refusal::BadRecord.code())
            }
        };
        let (plural, are) =
            (if takes == 1 { "" } else { "s" }, if given == 1 { "is" } else { "are" });
        Some(format!("{} takes {takes} argument{plural}, {given} {are} given: {then}", row.short))
    }
}

/// The call's name and the arguments that are given.
impl fmt::Display for Item {
    fn fmt(&self, out: &mut fmt::Formatter) -> fmt::Result {
        let name = self.name().map_or(self.title(), String::from);
        out.pad(&self.words()[1..].iter().fold(name, |line, word| format!("{line} {word}")))
    }
}
