//! Prints the tables. `--instructions FILE` names the file of the emulator's
//! counter, `--callgrind FILE` the file of callgrind's dumps.

use bench::meter::Meter;
use bench::rows::{self, Told};
use bench::{bound, show};
use std::io::{ErrorKind, Result, Write};
use std::process::ExitCode;

fn main() -> ExitCode {
    let words: Vec<String> = std::env::args().skip(1).collect();
    let meter = match words.iter().map(String::as_str).collect::<Vec<_>>()[..] {
        [] => Meter::Clock,
        ["--instructions", file] => Meter::Emulator(file.into()),
        ["--callgrind", file] => Meter::Callgrind(file.into(), Default::default()),
        _ => {
            eprintln!("usage: bench [--instructions FILE | --callgrind FILE]");
            return ExitCode::from(2);
        }
    };
    match tables(&meter, &mut std::io::stdout()) {
        // A reader that has seen enough may close the pipe.
        Err(fault) if fault.kind() != ErrorKind::BrokenPipe => {
            eprintln!("bench: the output cannot be written: {fault}");
            ExitCode::FAILURE
        }
        _ => ExitCode::SUCCESS,
    }
}

fn tables(meter: &Meter, out: &mut dyn Write) -> Result<()> {
    writeln!(out, "{}", show::head(meter))?;
    let Told { by_page, mut paid } =
        rows::all(meter, &mut |row| writeln!(out, "{}", show::row(row)))?;
    writeln!(out, "\n{}", show::by_page(&by_page))?;
    paid.extend(rows::paid_on_larger_boxes(meter));
    writeln!(out, "\n{}", show::paid(&paid))?;
    writeln!(out, "\n{}", show::bound(meter, &bound::measure(meter)))
}
