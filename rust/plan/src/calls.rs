//! The table of calls, in text: names, arguments, refusals in order.

use std::fmt::Write;
use types::code::{BAD_BLOCK, NOT_ACCEPTED, UNFIT};
use types::layout::REGISTERS;
use types::{Answer, BadImage, Call, Refusal, Row, Unfit};

/// The first call while a thread runs; those before it are the system's.
const OF_RUN: u32 = 32;

/// The whole table, with the words of each code.
pub fn calls() -> String {
    let [first, second] = Refusal::FIRST.map(Refusal::code);
    let (system, run): (Vec<&Row>, Vec<&Row>) =
        Call::ROWS.iter().partition(|row| row.number < OF_RUN);
    let mut text = format!(
        "A plan names a call by its number or by its name. Two calls share the name\n\
         InitL2PTable: how many arguments are given tells them apart, or the name after\n\
         the comma, which is each one's own. An argument is one word, or as many as its\n\
         brackets say. Refusals stand in the order in which they are asked; the first\n\
         that applies is the answer. Every call is asked for {first} and then for {second}\n\
         before its own.\n"
    );
    text += &group("While no thread runs: asked by the system (1-13)", &system);
    text += &group(
        "While a thread runs: asked by its enclave (32-38) or by the host for it (39-42)",
        &run,
    );
    let last = REGISTERS - 1;
    writeln!(text, "\nregisters are r0-r{last} and the flags.\n").expect("a string");
    text + &codes()
}

fn group(title: &str, rows: &[&Row]) -> String {
    let mut text = format!("\n{title}:\n\n{}", line("no.", "call", "arguments", "refused by"));
    for row in rows {
        let name = if row.short == row.name { String::new() } else { format!(", {}", row.short) };
        let arguments: Vec<String> = row.arguments.iter().map(argument).collect();
        let refusals: Vec<String> = row.refusals.iter().map(|r| r.code().to_string()).collect();
        let (name, number) = (format!("{}{name}", row.name), row.number.to_string());
        text += &line(&number, &name, &arguments.join(" "), &refusals.join(" "));
    }
    text
}

fn line(number: &str, name: &str, arguments: &str, refusals: &str) -> String {
    let line = format!("{number:>3}  {name:24}  {arguments:29}  {refusals}");
    format!("{}\n", line.trim_end())
}

fn argument((name, words): &(&str, usize)) -> String {
    match words {
        1 => name.to_string(),
        _ => format!("{name}[{words}]"),
    }
}

/// What the codes mean: the refusals in two columns, then the rest.
fn codes() -> String {
    let shown = |refusal: &Refusal| format!("{:3}  {refusal}", refusal.code());
    let (left, right) = Refusal::ALL.split_at(Refusal::ALL.len().div_ceil(2));
    let mut text = String::from("Refusals; nothing has changed then:\n\n");
    for (place, one) in left.iter().enumerate() {
        let other = right.get(place).map_or(String::new(), shown);
        text += format!("{:40}{other}", shown(one)).trim_end();
        text += "\n";
    }
    text += "\nOther answers:\n\n";
    for answer in [Answer::Done, Answer::Interrupted, Answer::Faulted] {
        writeln!(text, "{:3}  {answer}: {}", answer.code(), given_by(answer.code()))
            .expect("a string");
    }
    text += "\nOf a whole service, never of a call; the last two of an image that is read:\n\n";
    for (code, words) in [
        (UNFIT, Unfit::IN_WORDS),
        (BAD_BLOCK, BadImage::BLOCK_IN_WORDS),
        (NOT_ACCEPTED, BadImage::ACCEPTANCE_IN_WORDS),
    ] {
        writeln!(text, "{code:3}  {words}").expect("a string");
    }
    text
}

/// The calls that answer this code where they are not refused.
fn given_by(code: u32) -> String {
    let (giving, others): (Vec<&Row>, Vec<&Row>) =
        Call::ROWS.iter().partition(|row| row.outcomes.contains(&code));
    let names = |rows: &[&Row]| rows.iter().map(|row| row.name).collect::<Vec<_>>().join(", ");
    match others.len() < giving.len() {
        true => format!("every call but {}", names(&others)),
        false => names(&giving),
    }
}
