//! Answers that a plan expects, and arguments that it leaves out.

mod common;

use common::{play_with, Folder};

/// The status, the rows and what is said.
fn run(words: &[&str], text: &str) -> (Option<i32>, usize, String) {
    let folder = Folder::new("expected");
    let out = play_with(&folder, words, text.as_bytes());
    let rows = out.stdout.iter().filter(|byte| **byte == b'\n').count();
    (out.status.code(), rows, String::from_utf8(out.stderr).expect("UTF-8"))
}

fn json(text: &str) -> (Option<i32>, usize, String) {
    run(&["run", "-", "--json"], text)
}

#[test]
fn met() {
    let quiet = |rows| (Some(0), rows, String::new());
    assert_eq!(json("13 = 0 8 0;"), quiet(1));
    assert_eq!(json("13 = 0;13=0 8;\n13\n=\n0\n;"), quiet(3));
    assert_eq!(json("2 0 0 = 2; 2 0 1 = 0; 77 = 19; InitTable 0 2 0 = 0;"), quiet(4));
    let whole = format!("13 = 0 8{};", " 0".repeat(30));
    assert_eq!(json(&whole), quiet(1));
}

#[test]
fn not_met() {
    let text = "2 0 1 = 0;\n 13 = 0 3 5; # no\n2 0 1;\n77 1 = 0; InitL2PTable 0 2 0 = 1;\n";
    let said = "box: -:2:2: FreePages: expected 0 3 5, found 0 6 2\n\
                box: -:4:1: unknown 77: expected 0, found 19\n\
                box: -:4:11: InitTable: expected 1, found 0\n";
    assert_eq!(json(text), (Some(1), 5, said.into()));
    assert_eq!(run(&["run", "-"], text), (Some(1), 6, said.into()));
    assert_eq!(run(&["measure", "-"], text).0, Some(1));
    let many = "13 = 0;\n".repeat(600) + "13 = 1;";
    let said = "box: -:601:1: FreePages: expected 1, found 0\n";
    assert_eq!(json(&many), (Some(1), 601, said.into()));
}

/// As where a semicolon is forgotten. Zeros are as if they were not there.
#[test]
fn arguments_too_many() {
    let text = "2 0 1 4 0 2 0; 2 0 1 0; FreePages 1;\n13 0; 77 1;";
    let rest = "given: refused with 19 unless the rest are 0\n";
    let notes = format!(
        "box: -:1:1: InitAddrSpace takes 2 arguments, 6 are {rest}\
         box: -:1:16: InitAddrSpace takes 2 arguments, 3 are {rest}\
         box: -:1:25: FreePages takes 0 arguments, 1 is {rest}\
         box: -:2:1: FreePages takes 0 arguments, 1 is {rest}"
    );
    assert_eq!(json(text), (Some(0), 5, notes));
    let codes = "2 0 1 4 0 2 0 = 19; 2 0 1 0 = 0; 13 1 = 19; 13 0 = 0 6;";
    assert_eq!(json(codes).0, Some(0));
}

#[test]
fn arguments_left_out() {
    let text = "2 0 1;\n\nMapSecure 0 2; 8; 13; 77;\n GetRandom; 42 1; 39 1 2 3;";
    let notes = "box: -:3:1: MapSecure takes 4 arguments, 2 are given: the rest are 0\n\
                 box: -:3:16: Finalise takes 1 argument, 0 are given: the rest are 0\n\
                 box: -:4:2: GetRandom takes 1 argument, 0 are given: the rest are 0\n\
                 box: -:4:13: Store takes 2 arguments, 1 is given: the rest are 0\n\
                 box: -:4:19: Interrupt takes 17 arguments, 3 are given: the rest are 0\n";
    assert_eq!(json(text), (Some(0), 8, notes.into()));
}
