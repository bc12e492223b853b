//! The files of the proved program that plays the shift: the calls it reads
//! are the rows of the cases, and what it must write is the printed shift.

use second::cases::CASES;
use second::shift::text;

/// A call a line: its words, a blank between, a semicolon after the last.
fn spelled(row: &[u32]) -> String {
    let words: Vec<String> = row.iter().map(u32::to_string).collect();
    words.join(" ") + ";\n"
}

#[test]
fn the_calls_read_are_the_cases() {
    let calls: String = CASES.iter().map(|row| spelled(row)).collect();
    assert_eq!(include_str!("../../../crates/shift/stdin"), calls);
}

#[test]
fn the_text_to_write_is_the_printed_shift() {
    assert_eq!(include_str!("../../../crates/shift/stdout"), text());
}
