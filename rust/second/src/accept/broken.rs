//! A demand that is broken: which, where, and what was found.

use std::fmt;

/// The demands, numbered as docs/RULES.md numbers them.
#[derive(Clone, Copy, Debug, PartialEq, Eq, PartialOrd, Ord)]
#[allow(missing_docs)]
#[rustfmt::skip]
pub enum Rule { A1, A2, A3, A4, A5, A6, A7, A8, A9, A10, A11, A12, A13, A14, A15, A16, A17, A18, A19 }

/// The demands in the words of docs/RULES.md, each to the end of a clause.
#[rustfmt::skip]
const WORDS: [&str; 19] = [
    "What is lent: the machine numbers fit; memory and ledger have their lengths",
    "Header: word 0 is zero, or t + 1 where t is below n, page t is a thread, its word 3 is 0, and its owner's state is final",
    "Header: the free map is exact, bit by bit, in all its words",
    "Header: words 41-63 are zero",
    "Every page: its type is 0 to 6",
    "Every page: its record has the layout of its type",
    "Every page that is not free: word 1 is below n and names a space",
    "Every thread with word 3 zero: words 4-20 are zero",
    "Every free, space, thread and spare page: all words of its frame are zero",
    "Every space a: word 4 is the number of pages of types 2 to 6 whose word 1 is a",
    "Every building space: word 5 is the number of its threads + 65 × the number of its data pages",
    "Every building space: none of its threads is suspended",
    "Every final or stopped space: word 5 is at most 65n",
    "Word 2 names a first-level table that a owns, and a owns no other",
    "If slot i of that first-level table is T + 1, page T is a second-level table that a owns, with index i",
    "If a owns the second-level table T, the slot of T's index holds T + 1",
    "Words 256-1,023 of that first-level table are zero",
    "Each slot j of each second-level table that a owns, its index i, is empty; or names an insecure frame with rights 1 or 3; or names frame s+d with rights r, where d is a data page that a owns and the mapping word of d has index i, slot j and rights r",
    "For each data page d that a owns: a owns a second-level table with the index of d's mapping word, and there the slot of d's mapping word names frame s+d with its rights",
];

impl Rule {
    /// The demand in the words of docs/RULES.md.
    pub fn words(self) -> &'static str {
        WORDS[self as usize]
    }
}

impl fmt::Display for Rule {
    fn fmt(&self, out: &mut fmt::Formatter) -> fmt::Result {
        write!(out, "{self:?} {}", self.words())
    }
}

/// Where the words do not keep a demand.
#[derive(Clone, Copy, Debug, PartialEq, Eq)]
#[allow(missing_docs)]
pub enum Place {
    /// The machine numbers, or the length of a list.
    Lent,
    /// A word of the ledger's header.
    Header { word: usize },
    /// A word of a page's record.
    Record { page: usize, word: usize },
    /// A word of a page's frame.
    Frame { page: usize, word: usize },
}

/// The first demand that is broken. As text it is two lines: the demand, and
/// the fault. What was found stands in it, in the text and printed for debugging:
/// that may be a word of the key, of a register or of an enclave's page. So it is
/// for those who may see the state.
#[derive(Clone, Debug, PartialEq, Eq)]
pub struct Broken {
    /// The demand.
    pub rule: Rule,
    /// The page that it is broken for, if it speaks of one; below n.
    pub page: Option<usize>,
    /// The word that was found to break it.
    pub place: Place,
    /// Page and word, what was expected and what was found, in one line.
    pub fault: String,
}

impl fmt::Display for Broken {
    fn fmt(&self, out: &mut fmt::Formatter) -> fmt::Result {
        write!(out, "{}\n{}", self.rule, self.fault)
    }
}

impl Broken {
    /// In the numbers or in the length of a list.
    pub(super) fn lent(fault: String) -> Broken {
        Broken { rule: Rule::A1, page: None, place: Place::Lent, fault }
    }

    /// In a word of the header, and of this page if it speaks of one.
    pub(super) fn header(rule: Rule, page: Option<usize>, word: usize, fault: String) -> Broken {
        let fault = format!("header word {word}: {fault}");
        Broken { rule, page, place: Place::Header { word }, fault }
    }

    /// In a word of a page's record.
    pub(super) fn record(rule: Rule, page: usize, word: usize, fault: String) -> Broken {
        let fault = format!("page {page}, word {word} of its record: {fault}");
        Broken { rule, page: Some(page), place: Place::Record { page, word }, fault }
    }
}

/// A page of this type, in words. The type need not be one.
pub(super) fn a_page(kind: u32) -> &'static str {
    let names = [
        "a free page",
        "a space",
        "a thread",
        "a first-level table",
        "a second-level table",
        "a data page",
        "a spare page",
    ];
    names.get(kind as usize).copied().unwrap_or("a page of no type")
}
