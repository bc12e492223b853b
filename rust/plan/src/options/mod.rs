//! What the words after the program's name ask for.

mod asked;
mod given;
mod numbers;

pub use asked::{Asked, Form, Fresh, Picture, Plan, Run, Source, Why};

use crate::shown::quoted;
use crate::Complaint;
use given::Given;
use std::ffi::OsString;

/// Reads the words, or complains. No file is looked at.
pub fn read(words: &[OsString]) -> Result<Asked, Complaint> {
    let Some((first, rest)) = words.split_first() else { return Ok(Asked::Shift) };
    match first.to_str() {
        Some("run") => run(rest).map(Asked::Run),
        Some("calls") => calls(rest),
        Some("measure") => measure(rest).map(Asked::Measure),
        Some("why") => why(rest).map(Asked::Why),
        Some("picture") => picture(rest).map(Asked::Picture),
        _ => Err(format!(
            "expected run, calls, measure, why, picture, bench, help or nothing, found {}",
            quoted(first)
        )),
    }
}

fn run(words: &[OsString]) -> Result<Run, Complaint> {
    let options = ["--machine", "--key", "--json", "--ledger", "--state", "--save", "--load"];
    let mut given = Given::read(words, &options, 1)?;
    let form = match (given.json, given.ledger) {
        (Some(()), Some(_)) => {
            return Err("expected --json or --ledger, found both".into());
        }
        (Some(()), None) => Form::Json,
        (None, Some(form)) => form,
        (None, None) => Form::Table,
    };
    if given.key.is_some() && given.load.is_some() {
        return Err("expected --key or --load, found both: an image has the key in it".into());
    }
    let (state, load, save) = (given.state.take(), given.load.take(), given.save.take());
    Ok(Run { plan: plan("run", &given)?, form, state, load, save })
}

fn plan(command: &str, given: &Given) -> Result<Plan, Complaint> {
    let file = given.files.first();
    let file =
        file.ok_or_else(|| format!("expected a file after {command}, or - for standard input"));
    Ok(Plan { source: Source::named(file?), fresh: given.fresh() })
}

fn calls(words: &[OsString]) -> Result<Asked, Complaint> {
    match words.first() {
        None => Ok(Asked::Calls),
        Some(word) => Err(format!("expected nothing after calls, found {}", quoted(word))),
    }
}

fn measure(words: &[OsString]) -> Result<Plan, Complaint> {
    plan("measure", &Given::read(words, &["--machine", "--key"], 1)?)
}

fn why(words: &[OsString]) -> Result<Why, Complaint> {
    let given = Given::read(words, &["--machine"], 1)?;
    let machine = given.fresh().machine;
    let folder = given.files.into_iter().next();
    Ok(Why { folder: folder.ok_or("expected a folder after why, as --state writes it")?, machine })
}

fn picture(words: &[OsString]) -> Result<Picture, Complaint> {
    let given = Given::read(words, &["--machine", "--key"], 2)?;
    let fresh = given.fresh();
    let mut files = given.files.into_iter();
    let file =
        files.next().ok_or("expected a file to be written after picture, its name in .svg")?;
    Ok(Picture { file, source: files.next().map(|name| Source::named(&name)), fresh })
}
