//! Prints texts that another program must print byte for byte.

use std::process::ExitCode;

fn main() -> ExitCode {
    let arguments: Vec<String> = std::env::args().skip(1).collect();
    match arguments.iter().map(String::as_str).collect::<Vec<_>>()[..] {
        ["shift"] => print!("{}", second::shift::text()),
        ["vectors"] => print!("{}", second::vectors::text()),
        _ => {
            eprintln!("usage: second shift | vectors");
            return ExitCode::FAILURE;
        }
    }
    ExitCode::SUCCESS
}
