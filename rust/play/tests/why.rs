//! Whether a state is accepted, and the advice why not.

mod boxes;

use monitor::layout::{record_of, word};
use monitor::{Machine, Monitor};
use play::why;
use second::{Broken, Place, Rule};

/// A space of one thread and one data page, which runs.
const RUNS: &str = "2 0 1; 4 0 2 0; 6 0 3 4099 5; 3 0 4 4096; 8 0; 9 4;";

fn said(bench: &Monitor) -> (bool, String) {
    let (accepted, said) =
        why::why(bench.machine(), bench.memory().words(), bench.ledger().words());
    assert!(said.lines().all(|line| line.chars().count() <= 80), "{said}");
    (accepted, said)
}

#[test]
fn an_accepted_state() {
    let bench = boxes::played(Machine::BOX_A, RUNS);
    let lines = [
        "box A 16,6,8,0,2: accepted (by the proved check)",
        "",
        "The rules hold. Whether the key, a measurement or data were changed, acceptance",
        "cannot tell.",
        "",
    ];
    assert_eq!(said(&bench), (true, lines.join("\n")));
}

#[test]
fn a_frame_that_is_not_zero() {
    let mut bench = boxes::played(Machine::BOX_A, RUNS);
    bench.memory_mut().frame_mut(6 + 5).expect("the frame of page 5")[7] = 1;
    let lines = [
        "box A 16,6,8,0,2: not accepted (by the proved check)",
        "",
        "The first rule broken, as unproved advice of the second program:",
        "  rule: A9 Every free, space, thread and spare page: all words of its frame are",
        "    zero",
        "  page: 5",
    ];
    let (accepted, said) = said(&bench);
    assert!(!accepted && said.starts_with(&lines.join("\n")), "{said}");
    assert!(said.lines().nth(6).expect("a fault").starts_with("  fault: page 5, "));
}

#[test]
fn an_entry_that_cannot_be_run() {
    let mut bench = boxes::played(Machine::BOX_A, RUNS);
    bench.ledger_mut().words_mut()[record_of(4)][word::ENTRY] = 4097;
    let lines = [
        "box A 16,6,8,0,2: not accepted (by the proved check)",
        "",
        "The first rule broken, as unproved advice of the second program:",
        "  rule: A6 Every page: its record has the layout of its type",
        "  page: 4",
        "  fault: page 4, word 2 of its record: expected a legal entry, a multiple of 4",
        "    below 2^30, found 4097",
        "",
    ];
    assert_eq!(said(&bench), (false, lines.join("\n")));
}

/// Each rule's words fit the columns; the page is told apart from none.
#[test]
fn long_rules_and_no_page() {
    let mut bench = boxes::played(Machine::BOX_A, RUNS);
    bench.memory_mut().frame_mut(6 + 2).expect("the table")[9] = 1;
    let (_, of_table) = said(&bench);
    assert!(of_table.contains("  rule: A18 ") && of_table.contains("\n  page: 2\n"), "{of_table}");
    let mut bench = boxes::played(Machine::BOX_A, RUNS);
    bench.ledger_mut().words_mut()[63] = 1;
    let (_, of_header) = said(&bench);
    assert!(of_header.contains("  rule: A4 "), "{of_header}");
    assert!(of_header.contains("\n  page: none: it speaks of no page\n"), "{of_header}");
}

/// Numbers or lengths: the numbers may be another box's.
#[test]
fn another_box() {
    let small = Machine { frames: 13, ..Machine::BOX_A };
    for (machine, start) in [(Machine::BOX_A, "box A 16,6,8,0,2"), (small, "box 13,6,8,0,2")] {
        let (accepted, said) = why::why(machine, &[], &[]);
        assert!(!accepted && said.contains("  rule: A1 "), "{said}");
        assert!(said.starts_with(&format!("{start}: not accepted (by the proved check)\n")));
        let end = "\nWhere it is the state of another box, --machine F,s,n,m,k says its numbers.\n";
        assert!(said.ends_with(end), "{said}");
    }
}

/// A ledger as long as an older version's for this box: that is said too.
#[test]
fn an_older_ledger() {
    let (memory, ledger) = boxes::played(Machine::BOX_A, RUNS).into_parts();
    let end = "is also what versions before 0.5.0 wrote of this box.\n\
               Then its state has to be booted anew.\n";
    for (words, older) in [(287, false), (288, true), (289, false), (320, false)] {
        let (accepted, said) = why::why(Machine::BOX_A, memory.words(), &ledger.words()[..words]);
        assert_eq!((accepted, said.ends_with(end)), (words == 320, older), "{said}");
        assert!(said.lines().all(|line| line.chars().count() <= 80), "{said}");
    }
    // No version had such boxes with that header.
    let large = Machine { frames: 300, secure: 2, pages: 257, monitor: 0, monitors: 2 };
    assert!(!why::why(large, &[], &[0; 32 + 257 * 32]).1.contains("0.5.0"));
}

/// A word of each page's record at a time: the two programs agree.
#[test]
fn one_word_changed() {
    let whole = boxes::played(Machine::BOX_A, RUNS);
    for page in 0..8 {
        for word in [0, 1, 2, 3, 31] {
            let mut bench = whole.clone();
            bench.ledger_mut().words_mut()[record_of(page)][word] ^= 1;
            let (accepted, said) = said(&bench);
            assert_eq!((accepted, said.contains(": accepted")), (bench.accepted(), accepted));
            assert!(!said.contains("differs"), "{said}");
        }
    }
}

/// Were they ever to differ, it is said, and which of them decides.
#[test]
fn the_two_programs_differ() {
    let fault = "page 4: a fault".to_string();
    let place = Place::Record { page: 4, word: 0 };
    let broken = Broken { rule: Rule::A5, page: Some(4), place, fault };
    let decides = "It is not proved: the proved check decides.\n";
    let (named, machine) = ("box A 16,6,8,0,2", Machine::BOX_A);
    let one = why::said(machine, true, Some(&broken));
    let accepted = "accepted (by the proved check)\n\nThe second program differs: it";
    assert!(one.starts_with(&format!("{named}: {accepted}")));
    assert!(one.contains(decides) && one.contains("A5 ") && one.contains("  page: 4\n"), "{one}");
    let other = why::said(machine, false, None);
    assert!(other.starts_with(&format!("{named}: not {accepted}")));
    assert!(other.ends_with(decides), "{other}");
}
