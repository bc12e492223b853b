//! The shift on box A, step by step.

use crate::picture::picture;
use crate::player::{answered, Played};
use crate::table::wrapped;
use crate::{fresh, COLUMNS};
use monitor::{Machine, Monitor};
use plan::stop::Stop;
use plan::text::Text;
use plan::KEY;
use std::fmt::Write;

/// The steps: what each shows, and its calls as a plan.
const STEPS: [(&str, &str); 8] = [
    ("An address space takes two different free pages", "2 0 0; 2 8 8; 2 0 1; 2 1 2;"),
    ("A table for the lowest 4 MiB", "4 1 2 0; 4 0 2 256; 4 0 2 0; 4 0 3 0;"),
    (
        "A data page at 4096, copied from an insecure frame",
        "6 0 3 4194307 2; 6 0 3 4099 6; 6 0 3 4099 1; 6 0 3 4099 16; 6 0 3 4099 5;",
    ),
    ("A thread; nothing runs before the space is final", "3 0 4 4096; 13; 9 4;"),
    ("Measured, final, and entered", "8 0; 8 0; 9 4 7 8 9;"),
    (
        "While the thread runs: a store, then a load that faults",
        "3 0 5 4096; 42 4096 77; 41 4098; 41 4096;",
    ),
    ("Interrupted, resumed, ended", "9 4; 39 1 2 3; 9 4; 10 4; 38 5; 12 3;"),
    ("Stopped and taken down", "11 0; 12 0; 12 1; 12 2; 12 3; 12 4; 12 0; 12 0;"),
];

/// After so many steps the thread runs.
const RUNS: usize = 5;

/// The whole shift, as it is to be printed.
pub fn shift(colour: bool) -> Result<String, Stop> {
    let mut bench = box_a()?;
    let mut text =
        String::from("Box A: 16 frames, the monitor's 0-1, secure pages 0-7 are 6-13\n\n");
    text += &picture(bench.ledger(), colour);
    for (number, (title, calls)) in (1..).zip(STEPS) {
        write!(text, "\n{number}. {title}\n\n").expect("a string");
        for played in step(&mut bench, calls)? {
            text += &line(&played);
        }
        text += "\n";
        text += &picture(bench.ledger(), colour);
    }
    Ok(text)
}

/// A call and its answer: a line, or more where the answer is long.
fn line(played: &Played) -> String {
    let (call, code) = (&played.item, played.answer.code());
    let start = format!("   {call:24} {code:3}  ");
    let further = format!("\n{:1$}", "", start.len());
    let answer = wrapped(&played.in_words(), COLUMNS - start.len());
    start + &answer.join(&further) + "\n"
}

/// The box in the middle of the shift, while its thread runs.
pub fn middle() -> Result<Monitor, Stop> {
    let mut bench = box_a()?;
    for (_, calls) in &STEPS[..RUNS] {
        step(&mut bench, calls)?;
    }
    Ok(bench)
}

fn box_a() -> Result<Monitor, Stop> {
    Ok(fresh(Machine::BOX_A, &KEY).map_err(|fault| format!("box A: {fault}"))?)
}

fn step(bench: &mut Monitor, calls: &str) -> Result<Vec<Played>, Stop> {
    let step = Text::new("the shift".into(), calls.into())?;
    answered(bench, (1..).zip(step.items()).collect())
}
