//! Answers as a table that fits 80 columns, and as JSON.

use crate::player::Played;
use crate::COLUMNS;

/// Columns of a call.
const CALL: usize = 28;
/// Columns of the number of a row, at least.
const ROW: usize = 4;
/// Columns between those of the row and of the answer, blanks with them.
const BETWEEN: usize = CALL + 10;
/// How much further lines are set in.
const INDENT: &str = "  ";

/// The line above the table.
pub fn head() -> String {
    format!("{:>ROW$}  {:CALL$}  code  answer\n", "row", "call")
}

/// A row of the table: a line, or more where the call or the answer is long.
pub fn row(played: &Played) -> String {
    let number = format!("{:ROW$}", played.row);
    let calls = wrapped(&played.item.to_string(), CALL);
    let answers = wrapped(&played.in_words(), COLUMNS - BETWEEN - number.len());
    let mut text = String::new();
    for line in 0..calls.len().max(answers.len()) {
        let part = |of: &[String]| of.get(line).cloned().unwrap_or_default();
        let (number, code) = match line {
            0 => (number.clone(), played.answer.code().to_string()),
            _ => (" ".repeat(number.len()), String::new()),
        };
        let (call, answer) = (part(&calls), part(&answers));
        text += format!("{number}  {call:CALL$}  {code:>4}  {answer}").trim_end();
        text += "\n";
    }
    text
}

/// A text in lines of at most so many columns, broken at spaces.
pub(crate) fn wrapped(text: &str, columns: usize) -> Vec<String> {
    let mut lines: Vec<String> = Vec::new();
    for word in text.split(' ') {
        match lines.last_mut() {
            Some(line) if line.len() + 1 + word.len() <= columns => {
                line.push(' ');
                line.push_str(word);
            }
            Some(_) => lines.push(format!("{INDENT}{word}")),
            None => lines.push(word.into()),
        }
    }
    lines
}

/// A line of JSON.
pub fn json(played: &Played) -> String {
    let Played { row, item, answer, .. } = played;
    let name = item.name().map_or("null".into(), |name| format!("\"{name}\""));
    let (call, line, arguments) = (item.record()[0], item.place.line, list(&item.words()[1..]));
    let (code, values) = (answer.code(), list(&answer.values()));
    format!(
        "{{\"row\":{row},\"line\":{line},\"call\":{call},\"name\":{name},\
         \"arguments\":{arguments},\"code\":{code},\"answer\":\"{answer}\",\
         \"values\":{values}}}\n"
    )
}

fn list(words: &[u32]) -> String {
    let words: Vec<String> = words.iter().map(u32::to_string).collect();
    format!("[{}]", words.join(","))
}
