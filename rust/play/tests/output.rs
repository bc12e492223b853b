//! The table and the pictures beside it, and output that goes nowhere.

mod common;

use common::{command, complaint, play_with, Folder};
use std::fs::File;
use std::io::{BufRead, BufReader, Write};
use std::process::{Output, Stdio};

const LONG: &str = "2 0 1; 4 0 2 0; 3 0 4 4096; 8 0; 9 4 4294967295 4294967295 4294967295;
    33 4294967295 4294967295 4294967295 4294967295 4294967295 4294967295 4294967295 4294967295;
    39 4294967295 4294967294 4294967293 4294967292 4294967291 4294967290 4294967289 4294967288
       4294967287 4294967286 4294967285 4294967284 4294967283 4294967282 4294967281 4294967280
       4026531840;
    10 4;";

fn run(words: &[&str], text: &str) -> String {
    let folder = Folder::new("output");
    let out = play_with(&folder, words, text.as_bytes());
    assert!(out.status.success() && out.stderr.is_empty(), "{out:?}");
    String::from_utf8(out.stdout).expect("UTF-8")
}

#[test]
fn no_line_is_longer_than_eighty_columns() {
    let text = run(&["run", "-"], LONG);
    assert!(text.lines().all(|line| line.len() <= 80 && line == line.trim_end()), "{text}");
    let expected = "   8  Resume 4                         0  runs from 4294967280: 4294967295";
    let lines: Vec<&str> = text.lines().collect();
    let first = lines.iter().position(|line| *line == expected).expect(&text);
    assert_eq!(lines[first + 1].trim_start(), "4294967294 4294967293 4294967292");
    assert_eq!(lines[first + 1].find('4'), Some(44));
    let words = |text: &str| text.split_whitespace().map(String::from).collect::<Vec<_>>();
    let resumed = words(&lines[first..].join(" "));
    assert_eq!(resumed.len(), 7 + 17, "{text}");
    assert_eq!(resumed.last().map(String::as_str), Some("4026531840"));
}

#[test]
fn many_rows_fit_as_well() {
    let text = run(&["run", "-"], &(LONG.to_string() + &"38 0 = 0; 9 4 0 0 0;".repeat(6000)));
    assert!(text.lines().all(|line| line.len() <= 80));
    assert!(text.contains("\n12007  Exit 0"));
}

#[test]
fn the_ledger_beside_the_answers() {
    let each = run(&["run", "-", "--ledger"], "2 0 1; 13;");
    assert_eq!(each.matches("free pages: 6; running: nothing").count(), 2);
    assert!(each.find("0 space").expect("a picture") < each.find("FreePages").expect("a row"));
    let end = run(&["run", "--ledger", "end", "-"], "2 0 1; 13;");
    assert_eq!(end.matches("free pages: 6").count(), 1);
    assert!(end.find("0 space").expect("a picture") > end.find("FreePages").expect("a row"));
    assert_eq!(run(&["run", "-", "--ledger"], "").lines().count(), 1);
    assert!(run(&["run", "-", "--ledger", "end"], "").contains("free pages: 8"));
}

fn to(words: &[&str], out: &str) -> Output {
    let folder = Folder::new("to");
    std::fs::write(folder.0.join("plan"), "13;").expect("written");
    let file = File::options().write(true).open(out).expect("a device");
    command(&folder, words).stdout(file).output().expect("it runs")
}

#[test]
fn output_that_cannot_be_written() {
    let said = "box: the output cannot be written: No space left on device";
    for words in
        [&[][..], &["run", "plan"], &["run", "plan", "--json"], &["run", "plan", "--ledger"]]
    {
        assert_eq!(complaint(&to(words, "/dev/full"), 1), said, "{words:?}");
    }
}

/// More than a pipe holds, of which a line is read.
fn first_line(words: &[&str], plan: &[u8]) -> (String, Output) {
    let folder = Folder::new("line");
    let mut command = command(&folder, words);
    command.stdin(Stdio::piped()).stdout(Stdio::piped()).stderr(Stdio::piped());
    let mut running = command.spawn().expect("it runs");
    let mut input = running.stdin.take().expect("its input");
    input.write_all(plan).expect("all is read");
    drop(input);
    let mut line = String::new();
    let mut output = BufReader::new(running.stdout.take().expect("its output"));
    output.read_line(&mut line).expect("a line");
    drop(output);
    let out = running.wait_with_output().expect("it ends");
    let words = std::fs::read(folder.0.join("state/memory")).unwrap_or_default();
    (line, Output { stdout: words, ..out })
}

#[test]
fn a_closed_pipe_is_no_error() {
    let plan = b"13;".repeat(20000);
    let (line, out) = first_line(&["run", "-"], &plan);
    assert!(line.ends_with("answer\n"));
    assert!(out.status.success() && out.stderr.is_empty(), "{out:?}");
    let (_, out) = first_line(&["run", "-", "--state", "state"], &plan);
    assert!(out.status.success() && out.stderr.is_empty(), "{:?}", out.status);
    assert_eq!(out.stdout.len(), 65536, "the state is written all the same");
}

/// What a plan expects is looked at to its end, whoever reads the answers.
#[test]
fn a_closed_pipe_hides_no_difference() {
    let measured = "2 0 1; 8 0; 11 0; 12 1; 12 0;".repeat(2000);
    for (words, plan) in [
        (&["run", "-"][..], "13;".repeat(20000)),
        (&["run", "-", "--json"], "13;".repeat(20000)),
        (&["run", "-", "--ledger"], "13;".repeat(2000)),
        (&["measure", "-"], measured),
    ] {
        let (line, out) = first_line(words, (plan.clone() + "\n13 = 1;").as_bytes());
        assert!(!line.is_empty() && out.status.code() == Some(1), "{words:?}: {}", out.status);
        let said = String::from_utf8(out.stderr).expect("UTF-8");
        assert_eq!(said, "box: -:2:1: FreePages: expected 1, found 0\n");
        let (_, out) = first_line(words, (plan + "\n13 = 0;").as_bytes());
        assert!(out.status.success() && out.stderr.is_empty(), "{words:?}: {}", out.status);
    }
}

/// A verdict that nobody reads is still the status.
#[test]
fn a_closed_pipe_hides_no_verdict() {
    let folder = Folder::new("verdict");
    std::fs::create_dir(folder.0.join("state")).expect("made");
    for file in ["memory", "ledger"] {
        std::fs::write(folder.0.join("state").join(file), "").expect("written");
    }
    let (reader, writer) = std::io::pipe().expect("a pipe");
    drop(reader);
    let out = command(&folder, &["why", "state"]).stdout(writer).output().expect("it runs");
    assert!(out.status.code() == Some(1) && out.stderr.is_empty(), "{out:?}");
}

/// Nobody reads what is said: no reason to fail otherwise than one would.
#[test]
fn a_closed_standard_error() {
    let folder = Folder::new("closed");
    let (reader, writer) = std::io::pipe().expect("a pipe");
    drop(reader);
    let mut command = command(&folder, &["run", "none"]);
    let status = command.stderr(writer).status().expect("it runs");
    assert_eq!(status.code(), Some(2));
}
