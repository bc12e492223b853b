use crate::layout::{KEY_WORDS, MOST_CALLS, RECORD_WORDS};
use crate::machine::Machine;
use crate::rule::Rule;
use core::fmt;

/// A list that a service is lent.
#[derive(Clone, Copy, Debug, PartialEq, Eq, Hash)]
#[allow(missing_docs)] // each is what its name says
pub enum List {
    Key,
    Memory,
    Ledger,
    Calls,
    Answers,
}

/// What does not fit, where a service answers 18 or says no. Nothing has
/// changed.
///
/// The service alone decides whether it is 18, and that is proved. Which reason
/// it is, is worked out afterwards by the types' own checks: numbers first, then
/// lengths, then what is left. It is advice, and is not proved.
///
/// ```
/// # extern crate types as monitor;
/// use monitor::{List, Machine, Rule, Unfit};
///
/// let (memory, ledger) = ([0; 5], [0; 320]);
/// let unfit = Unfit::of_accepts(Machine::BOX_A, &memory, &ledger).unwrap();
/// assert_eq!(unfit, Unfit::Length { list: List::Memory, found: 5, needed: 16384 });
/// assert_eq!(unfit.to_string(), "the memory: expected 16384 words, found 5 (18)");
///
/// let machine = Machine { monitors: 0, ..Machine::BOX_A };
/// let unfit = Unfit::of_accepts(machine, &memory, &ledger).unwrap();
/// assert_eq!(unfit, Unfit::Numbers(Rule::Monitors));
/// assert_eq!(unfit.to_string(), "the box's numbers: expected k of at least 1 (18)");
/// ```
#[derive(Clone, Copy, Debug, PartialEq, Eq, Hash)]
pub enum Unfit {
    /// The machine's numbers break this rule.
    Numbers(Rule),
    /// A list has another length than it needs, in words. Of calls, what is
    /// needed is the nearest length below that is taken.
    #[allow(missing_docs)] // the fields are said above
    Length { list: List, found: usize, needed: usize },
    /// Numbers and lengths fit, and acceptance says no; never boot's reason. Why it
    /// does, `second::why` says as advice, and `./box why` of a state in files.
    Acceptance,
}

/// The arguments are those of the services in words. Each says what does not fit of
/// the numbers and lengths, and nothing where all of them fit.
impl Unfit {
    /// What 18 means, whichever reason it has.
    pub const IN_WORDS: &str = "numbers or lengths do not fit, or acceptance says no";

    /// What does not fit of what acceptance is lent. Nothing, and it says no: then it
    /// is [`Unfit::Acceptance`].
    pub fn of_accepts(machine: Machine, memory: &[u32], ledger: &[u32]) -> Option<Unfit> {
        let numbers = machine.broken_rule().map(Unfit::Numbers);
        numbers
            .or_else(|| length(List::Memory, memory, machine.memory_words()))
            .or_else(|| length(List::Ledger, ledger, machine.ledger_words()))
    }

    /// What does not fit of what boot is lent, exactly where it says 18.
    pub fn of_boot(machine: Machine, key: &[u32], memory: &[u32], ledger: &[u32]) -> Option<Unfit> {
        let lent = Unfit::of_accepts(machine, memory, ledger);
        lent.or_else(|| length(List::Key, key, KEY_WORDS))
    }

    /// What does not fit of what a batch is lent. Nothing, and it gets 18: then it is
    /// [`Unfit::Acceptance`].
    pub fn of_batch(
        machine: Machine,
        memory: &[u32],
        ledger: &[u32],
        calls: &[u32],
        answers: &[u32],
    ) -> Option<Unfit> {
        let whole = (calls.len() / RECORD_WORDS).min(MOST_CALLS) * RECORD_WORDS;
        Unfit::of_accepts(machine, memory, ledger)
            .or_else(|| length(List::Calls, calls, whole))
            .or_else(|| length(List::Answers, answers, calls.len()))
    }
}

fn length(list: List, words: &[u32], needed: usize) -> Option<Unfit> {
    let found = words.len();
    (found != needed).then_some(Unfit::Length { list, found, needed })
}

impl fmt::Display for List {
    fn fmt(&self, out: &mut fmt::Formatter) -> fmt::Result {
        out.write_str(match self {
            List::Key => "the key",
            List::Memory => "the memory",
            List::Ledger => "the ledger",
            List::Calls => "the call list",
            List::Answers => "the answer list",
        })
    }
}

impl fmt::Display for Unfit {
    fn fmt(&self, out: &mut fmt::Formatter) -> fmt::Result {
        match self {
            Unfit::Numbers(rule) => write!(out, "the box's numbers: expected {rule} (18)"),
            Unfit::Length { list: List::Calls, found, .. } => {
                let taken = format_args!("records of {RECORD_WORDS} words, at most {MOST_CALLS}");
                write!(out, "the call list: expected {taken}, found {found} words (18)")
            }
            Unfit::Length { list, found, needed } => {
                write!(out, "{list}: expected {needed} words, found {found} (18)")
            }
            Unfit::Acceptance => out.write_str("the words are not accepted (18)"),
        }
    }
}

impl core::error::Error for Unfit {}
