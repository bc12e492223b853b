//! What the program shows: calls, measure, why, picture and the ledger, by its
//! words and its status.

mod common;

use common::{play, Folder};
use plan::calls;
use plan::files::marked;
use play::{picture, shift, svg};

const PLAN: &str = "2 0 1; 4 0 2 0; 6 0 3 4099 5; 3 0 4 4096; 8 0; 9 4 7 8 9;";

/// A folder with a plan in it.
fn folder(name: &str, plan: &str) -> Folder {
    let folder = Folder::new(name);
    std::fs::write(folder.0.join("plan"), plan).expect("written");
    folder
}

/// What is printed, with this status and no complaint.
fn shown(folder: &Folder, words: &[&str], status: i32) -> String {
    let out = play(folder, words);
    assert_eq!(out.status.code(), Some(status), "{out:?}");
    assert!(out.stderr.is_empty(), "{out:?}");
    let text = String::from_utf8(out.stdout).expect("UTF-8");
    assert!(text.lines().all(|line| line.chars().count() <= 80), "{text}");
    text
}

#[test]
fn the_calls() {
    assert_eq!(shown(&Folder::new("calls"), &["calls"], 0), calls::calls());
}

#[test]
fn the_measurements() {
    let shown = shown(&folder("measure", "2 0 1; 8 0; 2 2 3; 11 0;"), &["measure", "plan"], 0);
    let starts = ["space 0 is final", "  e3b0c442", "  for Verify: 3820012610"];
    for (line, start) in shown.lines().zip(starts) {
        assert!(line.starts_with(start), "{line}");
    }
    assert!(shown.contains("\nspace 2 is still building;"), "{shown}");
    assert!(shown.ends_with("at the end no space is final: Attest has nothing to vouch for\n"));
}

/// A state that was written is accepted; with a word changed it is not.
#[test]
fn why_of_a_written_state() {
    let folder = folder("why", PLAN);
    shown(&folder, &["run", "--state", "state", "plan"], 0);
    let accepted = shown(&folder, &["why", "state"], 0);
    assert!(accepted.starts_with("box A 16,6,8,0,2: accepted (by the proved check)\n"));
    assert!(accepted.contains("\nThe rules hold. "), "{accepted}");
    let ledger = folder.0.join("state").join("ledger");
    let mut bytes = std::fs::read(&ledger).expect("the ledger");
    bytes[63 * 4] = 1;
    std::fs::write(&ledger, bytes).expect("written");
    let said = shown(&folder, &["why", "state"], 1);
    assert!(said.starts_with("box A 16,6,8,0,2: not accepted (by the proved check)\n"), "{said}");
    assert!(said.contains("unproved advice") && said.contains("rule: A4 "), "{said}");
    assert!(!said.contains("--machine") && !said.contains("The rules hold"), "{said}");
    let other = shown(&folder, &["why", "--machine", "15,6,8,0,2", "state"], 1);
    assert!(other.starts_with("box 15,6,8,0,2: not accepted (by the proved check)\n"), "{other}");
    assert!(other.contains("rule: A1 ") && other.contains("--machine F,s,n,m,k"), "{other}");
}

#[test]
fn the_picture_after_a_plan() {
    let folder = folder("picture", PLAN);
    assert_eq!(shown(&folder, &["picture", "of.svg", "plan"], 0), "");
    assert_eq!(shown(&folder, &["picture", "shift.svg"], 0), "");
    let drawn = |file: &str| std::fs::read_to_string(folder.0.join(file)).expect("a picture");
    assert_eq!(drawn("of.svg"), drawn("shift.svg"));
    let middle = svg::svg(&shift::middle().expect("the shift"));
    assert_eq!(drawn("shift.svg"), marked(&middle));
    shown(&folder, &["picture", "--machine", "20,6,8,0,2", "fresh.svg"], 0);
    assert!(drawn("fresh.svg").contains(">Free pages: 8<"));
}

/// The ledger after each call, or once at the end.
#[test]
fn the_ledger() {
    let folder = folder("ledger", PLAN);
    let end = picture::picture(shift::middle().expect("the shift").ledger(), false);
    let once = shown(&folder, &["run", "--ledger", "end", "plan"], 0);
    assert!(once.ends_with(&end) && once.matches("free pages:").count() == 1, "{once}");
    let each = shown(&folder, &["run", "--ledger", "plan"], 0);
    assert!(each.trim_end().ends_with(end.trim_end()), "{each}");
    assert_eq!(each.matches("free pages:").count(), 6);
}
