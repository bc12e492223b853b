//! Checks the words of `./box` and the files that they name. What is wrong is
//! said in one line, with status 2. The plan is passed on to standard output: what
//! stood in a pipe could not be read again. The table of calls, which needs no
//! library, is printed.

use plan::options::{self, Asked};
use plan::stop::Stop;
use plan::{calls, files};
use std::ffi::OsString;
use std::io::{self, Write};
use std::process::ExitCode;

fn main() -> ExitCode {
    let words: Vec<OsString> = std::env::args_os().skip(1).collect();
    match checked(&words) {
        Ok(()) => ExitCode::SUCCESS,
        Err(stop) => stop.said(),
    }
}

fn checked(words: &[OsString]) -> Result<(), Stop> {
    let asked = options::read(words)?;
    let looked = files::look(&asked, false)?;
    let printed = match asked {
        Asked::Calls => calls::calls().into_bytes(),
        _ => looked.text.into_bytes(),
    };
    let mut out = io::stdout();
    out.write_all(&printed)?;
    Ok(out.flush()?)
}
