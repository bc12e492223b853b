use crate::call::{Call, Row};
use crate::code::{DONE, FAULTED, INTERRUPTED};
use crate::layout::{KEY_WORDS, REGISTERS};
use crate::record::{part, record_of, Record};
use crate::refusal::Refusal;
use crate::registers::Registers;
use crate::values::Values;
use core::fmt;

/// The answer of a call.
///
/// Printed for debugging it shows all of its values: those of Enter and Resume are
/// the thread's registers, that of Load a word of an enclave's page, that of Attest
/// a MAC. None of them is for a log that others read.
///
/// ```
/// # extern crate types as monitor;
/// use monitor::layout::RECORD_WORDS;
/// use monitor::{Answer, Call, Refusal};
///
/// let mut record = [0; RECORD_WORDS];
/// record[0] = 22;
/// let call = Call::Remove { page: 3 };
/// assert_eq!(Answer::decode(&call, &record), Some(Answer::Refused(Refusal::AlreadyFree)));
/// assert_eq!(Answer::Refused(Refusal::AlreadyFree).encode(), record);
/// ```
#[derive(Clone, Copy, Debug, PartialEq, Eq, Hash)]
pub enum Answer {
    /// Refused: nothing has changed.
    Refused(Refusal),
    /// Done, with nothing more to say.
    Done,
    /// GetPhysPages: n.
    Pages(u32),
    /// FreePages.
    Free {
        /// How many pages are free.
        count: u32,
        /// The lowest of them, n where there is none.
        lowest: u32,
    },
    /// Enter and Resume: the thread runs with these registers.
    Runs(Registers),
    /// GetRandom.
    Random(u32),
    /// Attest: the MAC.
    Attested([u32; KEY_WORDS]),
    /// Verify.
    Verified(bool),
    /// Exit: the run has ended with this value.
    Exited(u32),
    /// Load: the word.
    Loaded(u32),
    /// 32: the run has ended, the thread is suspended.
    Interrupted,
    /// 33: the run has ended as a fault.
    Faulted,
}

impl Answer {
    /// The answer that a record gives to a call; none where the record is not
    /// an answer to such a call.
    pub fn decode(call: &Call, record: &Record) -> Option<Answer> {
        Row::of(call.number()).filter(|row| row.answers(record[0]))?;
        let answer = match record[0] {
            DONE => Answer::done(call, record),
            INTERRUPTED => Answer::Interrupted,
            FAULTED => Answer::Faulted,
            code => Answer::Refused(Refusal::from_code(code)?),
        };
        (answer.encode() == *record).then_some(answer)
    }

    /// The answer of a record that starts with 0, by the call's values.
    fn done(call: &Call, record: &Record) -> Answer {
        match call {
            Call::GetPhysPages => Answer::Pages(record[1]),
            Call::FreePages => Answer::Free { count: record[1], lowest: record[2] },
            Call::Enter { .. } | Call::Resume { .. } => {
                Answer::Runs(Registers::of(part(record, 1)))
            }
            Call::GetRandom { .. } => Answer::Random(record[1]),
            Call::Attest { .. } => Answer::Attested(part(record, 1)),
            Call::Verify { .. } => Answer::Verified(record[1] == 1),
            Call::Exit { .. } => Answer::Exited(record[1]),
            Call::Load { .. } => Answer::Loaded(record[1]),
            _ => Answer::Done,
        }
    }

    /// The number in word 0 of the record.
    pub fn code(&self) -> u32 {
        match self {
            Answer::Refused(refusal) => refusal.code(),
            Answer::Interrupted => INTERRUPTED,
            Answer::Faulted => FAULTED,
            _ => DONE,
        }
    }

    /// The values after the number.
    pub fn values(&self) -> Values {
        match self {
            Answer::Refused(_) | Answer::Done | Answer::Interrupted | Answer::Faulted => {
                Values::of(&[])
            }
            Answer::Free { count, lowest } => Values::of(&[*count, *lowest]),
            Answer::Runs(registers) => Values::of(&registers.words()),
            Answer::Attested(mac) => Values::of(mac),
            Answer::Verified(yes) => Values::of(&[u32::from(*yes)]),
            Answer::Pages(word)
            | Answer::Random(word)
            | Answer::Exited(word)
            | Answer::Loaded(word) => Values::of(&[*word]),
        }
    }

    /// The record of this answer: code, values, zeros.
    pub fn encode(&self) -> Record {
        let (mut record, values) = (record_of(&[self.code()]), self.values());
        record[1..][..values.len()].copy_from_slice(&values);
        record
    }
}

/// The answer in words, without its values.
impl fmt::Display for Answer {
    fn fmt(&self, out: &mut fmt::Formatter) -> fmt::Result {
        match self {
            Answer::Refused(refusal) => refusal.fmt(out),
            Answer::Done => out.write_str("done"),
            Answer::Pages(pages) => write!(out, "{pages} secure pages"),
            Answer::Free { count: 0, .. } => out.write_str("no page is free"),
            Answer::Free { count, lowest } => write!(out, "{count} free, the lowest is {lowest}"),
            Answer::Runs(registers) => write!(out, "runs from {}", registers.r[REGISTERS - 1]),
            Answer::Random(word) => write!(out, "random word {word}"),
            Answer::Attested(_) => out.write_str("attested"),
            Answer::Verified(true) => out.write_str("the MAC is right"),
            Answer::Verified(false) => out.write_str("the MAC is wrong"),
            Answer::Exited(value) => write!(out, "the run ended with {value}"),
            Answer::Loaded(word) => write!(out, "the word is {word}"),
            Answer::Interrupted => out.write_str("interrupted, the thread is suspended"),
            Answer::Faulted => out.write_str("fault, the run has ended"),
        }
    }
}
