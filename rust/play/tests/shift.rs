//! The printed shift is the stored screen; colour only adds colour.

mod common;

use play::shift::shift;

const SCREEN: &str = include_str!("screen.txt");

/// Text without what starts with an escape and ends in m.
fn without_colour(text: &str) -> String {
    let mut parts = text.split('\x1b');
    let first = parts.next().unwrap_or_default().to_string();
    parts.fold(first, |plain, part| plain + part.split_once('m').map_or("", |(_, rest)| rest))
}

#[test]
fn the_stored_screen() {
    assert_eq!(shift(false).expect("it plays"), SCREEN);
}

#[test]
fn colour_adds_colour_alone() {
    let coloured = shift(true).expect("it plays");
    assert!(coloured.contains("\x1b[30;43m3 data"));
    let plain = without_colour(&coloured);
    let trimmed: Vec<&str> = plain.lines().map(str::trim_end).collect();
    assert_eq!(trimmed, SCREEN.lines().collect::<Vec<_>>());
}

/// To a pipe it is plain, by the program itself.
#[test]
fn plain_to_a_pipe() {
    let out = common::play(&common::Folder::new("shift"), &[""; 0]);
    assert_eq!(String::from_utf8_lossy(&out.stdout), SCREEN);
    assert!(out.status.success() && out.stderr.is_empty());
}
