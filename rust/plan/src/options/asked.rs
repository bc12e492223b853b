use std::ffi::{OsStr, OsString};
use types::{Key, Machine};

/// What is asked for.
#[derive(Debug, PartialEq, Eq)]
pub enum Asked {
    /// The worked shift.
    Shift,
    /// A plan, with its answers.
    Run(Run),
    /// The table of calls.
    Calls,
    /// A plan, with what its spaces measure.
    Measure(Plan),
    /// Why a state is not accepted.
    Why(Why),
    /// A picture of the box as a file.
    Picture(Picture),
}

impl Asked {
    /// Where the plan stands, if there is one.
    pub fn source(&self) -> Option<&Source> {
        match self {
            Asked::Run(run) => Some(&run.plan.source),
            Asked::Measure(plan) => Some(&plan.source),
            Asked::Picture(picture) => picture.source.as_ref(),
            Asked::Shift | Asked::Calls | Asked::Why(_) => None,
        }
    }
}

/// Where a plan stands.
#[derive(Debug, PartialEq, Eq)]
pub enum Source {
    /// On standard input, which `-` names.
    Input,
    /// In a file.
    File(OsString),
}

impl Source {
    /// The source of this name.
    pub fn named(name: &OsStr) -> Source {
        match name == "-" {
            true => Source::Input,
            false => Source::File(name.into()),
        }
    }
}

/// A fresh box.
#[derive(Clone, Debug, PartialEq, Eq)]
pub struct Fresh {
    /// Its numbers.
    pub machine: Machine,
    /// Its key.
    pub key: Key,
}

/// A plan, and the box that it is played on.
#[derive(Debug, PartialEq, Eq)]
pub struct Plan {
    /// Where it stands.
    pub source: Source,
    /// The box.
    pub fresh: Fresh,
}

/// A plan to be played for its answers.
#[derive(Debug, PartialEq, Eq)]
pub struct Run {
    /// The plan.
    pub plan: Plan,
    /// How the answers are printed.
    pub form: Form,
    /// The folder for the state after the plan.
    pub state: Option<OsString>,
    /// The image that the box is restored from; none is a fresh box.
    pub load: Option<OsString>,
    /// The file for an image of the box after the plan.
    pub save: Option<OsString>,
}

/// How answers are printed.
#[derive(Clone, Copy, Debug, PartialEq, Eq)]
pub enum Form {
    /// As a table.
    Table,
    /// As JSON, a line each.
    Json,
    /// As a table, with the ledger after each call.
    Ledger,
    /// As a table, with the ledger once, at the end.
    LedgerAtEnd,
}

/// A state that is to be explained.
#[derive(Debug, PartialEq, Eq)]
pub struct Why {
    /// The folder that it stands in.
    pub folder: OsString,
    /// The box that it is of.
    pub machine: Machine,
}

/// A picture to be written.
#[derive(Debug, PartialEq, Eq)]
pub struct Picture {
    /// The file to be written.
    pub file: OsString,
    /// The plan after which the box is drawn; none draws box A in the middle
    /// of the shift, another box fresh.
    pub source: Option<Source>,
    /// The box.
    pub fresh: Fresh,
}
