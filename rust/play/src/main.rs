//! Plays what the words ask for. What is wrong is said in one line, with
//! status 2, and nothing is printed then; status 1 says that an answer was not
//! as the plan expects it, that a state is not accepted, or that something
//! cannot be written. After `--checked` the plan stands on standard input,
//! whatever its name is.

use plan::options::{self, Asked};
use plan::stop::Stop;
use plan::text::Text;
use plan::{calls, files};
use play::write::Patient;
use play::{run, shift, why};
use std::ffi::OsString;
use std::io::{self, BufWriter, IsTerminal, Write};
use std::process::ExitCode;

fn main() -> ExitCode {
    let words: Vec<OsString> = std::env::args_os().skip(1).collect();
    match played(&words) {
        Ok(true) => ExitCode::SUCCESS,
        Ok(false) => ExitCode::FAILURE,
        Err(stop) => stop.said(),
    }
}

/// Does it; whether all was as expected.
fn played(words: &[OsString]) -> Result<bool, Stop> {
    let passed_on = words.first().is_some_and(|word| word == "--checked");
    let asked = options::read(&words[usize::from(passed_on)..])?;
    let looked = files::look(&asked, passed_on)?;
    let (text, state) = (&looked.text, &looked.state);
    let out = &mut Patient::new(BufWriter::new(io::stdout()), goes_on(&asked, text));
    let mut print = |printed: String| -> Result<(), Stop> {
        Ok(out.write_all(printed.as_bytes()).and_then(|()| out.flush())?)
    };
    match &asked {
        Asked::Shift => print(shift::shift(in_colour())?).map(|()| true),
        Asked::Run(asked) => run::run(asked, text, &looked.images, in_colour(), out),
        Asked::Calls => print(calls::calls()).map(|()| true),
        Asked::Measure(plan) => run::measure(&plan.fresh, text, out),
        Asked::Why(asked) => {
            let (accepted, said) = why::why(asked.machine, &state.memory, &state.ledger);
            print(said).map(|()| accepted)
        }
        Asked::Picture(asked) => run::draw(asked, text),
    }
}

/// Whether more than printing is asked for, so that a closed pipe ends nothing:
/// a state or an image that is written, or a verdict for the status.
fn goes_on(asked: &Asked, text: &Text) -> bool {
    match asked {
        Asked::Run(run) => run.state.is_some() || run.save.is_some() || text.expects(),
        Asked::Measure(_) => text.expects(),
        Asked::Why(_) => true,
        Asked::Shift | Asked::Calls | Asked::Picture(_) => false,
    }
}

/// Colour on a terminal that has it, unless it is not wanted.
fn in_colour() -> bool {
    let variable = |name| std::env::var_os(name).unwrap_or_default();
    io::stdout().is_terminal() && variable("NO_COLOR").is_empty() && variable("TERM") != "dumb"
}
