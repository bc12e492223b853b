//! Why the program ends before its work is done, and what it says then.

use crate::Complaint;
use std::io::{self, Write};
use std::process::ExitCode;

/// Why it ends early.
#[derive(Debug)]
pub enum Stop {
    /// What was asked is wrong.
    Asked(Complaint),
    /// The output cannot be written.
    Output(io::Error),
    /// A file cannot be written: its name, and why.
    File(String, io::Error),
}

impl From<Complaint> for Stop {
    fn from(complaint: Complaint) -> Stop {
        Stop::Asked(complaint)
    }
}

/// Errors that are passed on as they are: of the output.
impl From<io::Error> for Stop {
    fn from(fault: io::Error) -> Stop {
        Stop::Output(fault)
    }
}

impl Stop {
    /// Says why, in one line, and gives the status. A reader that has seen
    /// enough may close the pipe.
    pub fn said(self) -> ExitCode {
        let unwritten =
            |what: &str, fault| format!("{what} cannot be written: {}", in_words(fault));
        let (line, status) = match &self {
            Stop::Asked(complaint) => (complaint.clone(), 2),
            Stop::Output(fault) if fault.kind() == io::ErrorKind::BrokenPipe => {
                return ExitCode::SUCCESS;
            }
            Stop::Output(fault) => (unwritten("the output", fault), 1),
            Stop::File(name, fault) => (unwritten(name, fault), 1),
        };
        say(&line);
        ExitCode::from(status)
    }
}

/// Says a line on standard error; where that is closed there is nobody to tell.
pub fn say(line: &str) {
    let _ = writeln!(io::stderr(), "box: {line}");
}

/// What the system says, without its number.
fn in_words(fault: &io::Error) -> String {
    let words = fault.to_string();
    words.split(" (os error").next().unwrap_or_default().to_string()
}
