use crate::refusal::Refusal;

/// One row of the table of calls, which is `Call::ROWS`.
///
/// ```
/// # extern crate types as monitor;
/// use monitor::{Refusal, Row};
///
/// let row = Row::of(35).unwrap();
/// assert_eq!((row.name, row.short), ("InitL2PTable", "SpareTable"));
/// assert_eq!(row.arguments, [("page", 1), ("index", 1)]);
/// assert_eq!(row.words(), 2);
/// assert_eq!(row.refusals.last(), Some(&Refusal::SlotTaken));
/// assert!(row.answers(0) && row.answers(21) && !row.answers(33));
/// assert_eq!(Row::of(14), None);
/// ```
#[derive(Clone, Copy, Debug, PartialEq, Eq)]
pub struct Row {
    /// The number in word 0 of the call's record.
    pub number: u32,
    /// The name in the build description, which 4 and 35 share.
    pub name: &'static str,
    /// The name in `Call`, each call's own.
    pub short: &'static str,
    /// Its arguments in order: the name, and how many words it has.
    pub arguments: &'static [(&'static str, usize)],
    /// Its own refusals in the order in which they are asked; one that is asked
    /// of two pages stands twice. [`Refusal::FIRST`] are asked before them.
    pub refusals: &'static [Refusal],
    /// The codes that it answers where it is not refused, of [`crate::code`].
    pub outcomes: &'static [u32],
}

impl Row {
    /// Whether such a call can be answered with this code: [`Refusal::FIRST`], its
    /// own refusals and its outcomes.
    pub fn answers(&self, code: u32) -> bool {
        let mut refusals = Refusal::FIRST.iter().chain(self.refusals);
        self.outcomes.contains(&code) || refusals.any(|refusal| refusal.code() == code)
    }

    /// How many words all arguments have together.
    pub fn words(&self) -> usize {
        self.arguments.iter().map(|(_, words)| words).sum()
    }
}
