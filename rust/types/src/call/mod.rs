mod argument;
mod row;
mod table;

pub use row::Row;
pub use table::Call;

use crate::record::{zero_from, Record};
use argument::{Reader, Writer};
use core::fmt;

impl Row {
    /// The row of the call of this number.
    pub fn of(number: u32) -> Option<&'static Row> {
        Call::ROWS.iter().find(|row| row.number == number)
    }
}

impl Call {
    /// The record of this call: number, arguments, zeros.
    pub fn encode(&self) -> Record {
        self.written().record
    }

    /// The call of a record; none exactly where the record draws 19.
    pub fn decode(record: &Record) -> Option<Call> {
        let mut words = Reader { record, at: 0 };
        let call = Call::read(&mut words)?;
        zero_from(record, words.at).then_some(call)
    }

    fn written(&self) -> Writer {
        let mut words = Writer::new();
        self.write(&mut words);
        words
    }
}

/// The name and the arguments, in decimal.
impl fmt::Display for Call {
    fn fmt(&self, out: &mut fmt::Formatter) -> fmt::Result {
        let Writer { record, at } = self.written();
        out.write_str(self.name())?;
        record[1..at].iter().try_for_each(|word| write!(out, " {word}"))
    }
}
