//! Runs rounds and prints what they met: by default the gate's, a fixed
//! number from a fixed seed.

use differ::services::Proved;
use differ::tally::Tally;
use differ::{checks, hashes, round};
use std::process::ExitCode;
use std::time::{Duration, Instant};

const USAGE: &str = "usage: differ [--seed SEED] [--rounds ROUNDS | --minutes MINUTES]";

/// The gate's seed and rounds, the same on every machine: so few that an
/// emulator, where a round takes five to ten times as long, can do them too.
const SEED: u64 = 20_261_000;
const ROUNDS: u64 = 400;

/// What the gate's run must have tried at least.
const CALLS: u64 = 50_000;
const DAMAGED: u64 = 10_000;

struct Run {
    seed: u64,
    length: Length,
}

enum Length {
    /// The gate's, which must meet everything.
    Gate,
    Rounds(u64),
    Time(Duration),
}

fn options(words: &[String]) -> Option<Run> {
    let mut run = Run { seed: SEED, length: Length::Gate };
    let mut words = words.iter();
    while let Some(word) = words.next() {
        let number: u64 = words.next()?.parse().ok()?;
        match word.as_str() {
            "--seed" => run.seed = number,
            "--rounds" => run.length = Length::Rounds(number),
            "--minutes" => run.length = Length::Time(Duration::from_secs(60 * number)),
            _ => return None,
        }
    }
    Some(run)
}

fn main() -> ExitCode {
    let words: Vec<String> = std::env::args().skip(1).collect();
    let Some(run) = options(&words) else {
        eprintln!("{USAGE}");
        return ExitCode::from(2);
    };
    match differ(&run) {
        Ok(()) => ExitCode::SUCCESS,
        Err(difference) => {
            println!("differ: DIFFERENT: {difference}");
            ExitCode::FAILURE
        }
    }
}

fn differ(run: &Run) -> Result<(), String> {
    println!("differ: seed {}", run.seed);
    let (start, mut tally) = (Instant::now(), Tally::default());
    let mut shown = start;
    hashes::hashes(&Proved, run.seed)?;
    checks::checks(&Proved, run.seed)?;
    for seed in run.seed.. {
        let over = match run.length {
            Length::Gate => tally.rounds >= ROUNDS,
            Length::Rounds(rounds) => tally.rounds >= rounds,
            Length::Time(time) => start.elapsed() >= time,
        };
        if over {
            break;
        }
        round(&Proved, seed, &mut tally).map_err(|what| again(seed, &what))?;
        if shown.elapsed() > Duration::from_secs(60) {
            shown = Instant::now();
            println!("differ: {} rounds, {} calls, no difference", tally.rounds, tally.calls);
        }
    }
    println!("{tally}");
    println!("differ: no difference in {:.1} s", start.elapsed().as_secs_f64());
    match run.length {
        Length::Gate => enough(&tally),
        _ => Ok(()),
    }
}

/// A difference, and how to have it again.
fn again(seed: u64, what: &str) -> String {
    format!("{what}\ndiffer: again by: differ --seed {seed} --rounds 1")
}

/// The gate's run must reach every answer that the rules allow.
fn enough(tally: &Tally) -> Result<(), String> {
    let mut missing = tally.missing();
    if tally.calls < CALLS {
        missing.push(format!("{CALLS} calls"));
    }
    if tally.all_damaged() < DAMAGED {
        missing.push(format!("{DAMAGED} damaged states"));
    }
    match missing.is_empty() {
        true => Ok(()),
        false => Err(format!("not met in this run: {}", missing.join(", "))),
    }
}
