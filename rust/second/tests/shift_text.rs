//! The printed shift: its cases reach every answer, each answer is the one
//! expected, and its lines have their form.

use second::cases::{BOX_A, CASES};
use second::layout::RECORD_WORDS;
use second::random::Coverage;
use second::shift::{answers, record, start, text};
use second::{accepts, batch, direct};

/// The codes expected, read over by hand against the table of calls.
#[rustfmt::skip]
const CODES: &[u32] = &[
    // Row 1: an address space needs two different free pages.
    2, 1, 0, 2,
    // Row 2: second-level tables.
    3, 21, 0, 7,
    // Row 3: a secure page at 4096, read and write.
    8, 9, 9, 9, 0,
    // Row 4: a thread.
    0, 0, 5,
    // Row 5: final, and entered.
    0, 4, 0,
    // Row 6: while it runs.
    15, 0, 33, 15,
    // Row 7: interrupted, resumed, ended.
    0, 32, 11, 0, 0, 13,
    // Row 8: taken down.
    0, 14, 0, 0, 0, 0, 0, 22,
    // Counting, on a box that is all free again.
    0, 0,
    // Unknown numbers.
    19, 19, 19, 19, 19, 19,
    // A word too many for each call.
    19, 19, 19, 19, 19, 19, 19, 19, 19, 19, 19, 19, 19, 19, 19, 19, 19, 19, 19, 19, 19, 19, 19, 19,
    // A word too many, but the last of the record.
    19, 19, 19, 19, 19,
    // Calls of a thread while none runs.
    15, 15, 15, 15, 15, 15, 15, 15, 15, 15, 15,
    // Two spaces, 0 with first-level page 1 and 2 with 3.
    1, 1, 1, 0, 2, 2, 0,
    // Threads refused.
    1, 3, 3, 1, 2, 2,
    // Tables: the highest index.
    1, 3, 1, 2, 21, 21, 0, 7,
    // Spare pages.
    1, 3, 1, 2, 0,
    // Secure pages: the highest address, all rights.
    1, 3, 1, 2, 6, 6, 6, 6, 6, 8, 8, 9, 9, 9, 9, 9, 9, 0, 7, 7,
    // Insecure frames: one to write, one to read only.
    1, 3, 6, 6, 6, 8, 7, 9, 9, 9, 9, 0, 0,
    // A thread on the last free page; nothing runs before it is final.
    0, 0, 5, 5, 1, 3, 0, 4,
    // A final space takes no more but spare pages.
    4, 4, 4, 4, 2,
    // A stopped space takes nothing.
    1, 3, 0, 0, 4, 4, 4,
    // Enter and Resume refused.
    1, 10, 10, 1, 10, 12,
    // Remove: live, still owning, stopped, free.
    1, 13, 13, 13, 13, 13, 14, 0, 0, 22, 0,
    // Calls of the host while a thread runs.
    0, 15, 15, 15, 15, 15, 15, 15, 15, 15, 15, 15, 15, 15,
    // Random words and attestation.
    0, 0, 0, 0, 0, 0, 0,
    // A table from a spare page, refused.
    1, 16, 16, 16, 21, 7,
    // A data page from a spare page, and back.
    1, 16, 16, 6, 6, 6, 8, 7, 0, 0, 0, 1, 17, 17, 0, 33,
    // A page that comes back is zero; it may execute, and then be a table.
    0, 0, 0, 0, 0, 16, 17,
    // Loads and stores: the copied page and the shared frames.
    0, 0, 0, 0, 0, 0, 0, 0, 33,
    // Every fault ends the run.
    0, 33, 0, 33, 0, 33, 0, 33, 0, 33, 0, 33, 0, 33, 15,
    // Interrupted twice, then stopped while suspended.
    0, 32, 11, 0, 32, 0, 0, 0, 32, 0, 5, 5,
    // Taken down, tables first.
    14, 0, 0, 0, 0, 0, 0, 0,
    // A spare page leaves a building space; the first-level page does not.
    0, 0, 0, 13, 0, 0, 0,
    // Neighbours: a thread of space 0 learns nothing of space 4's pages.
    0, 0, 0, 0, 0, 0, 0, 16, 16, 17, 17, 16, 0,
    // Entries: no multiple of 4, or not below 2^30.
    23, 23, 23, 23, 23, 23, 23, 23, 23,
    // Spaces and pages are asked first.
    1, 3, 4, 1, 2,
    // The page is free still, and the build goes on: the highest entry, and 0.
    0, 0, 0, 0, 0, 0, 19, 15, 0, 0, 0, 0,
];

#[test]
fn every_code_is_the_expected_one() {
    let given: Vec<u32> = answers().iter().map(|(_, answer)| answer[0]).collect();
    assert_eq!(given, CODES);
}

#[test]
fn the_cases_reach_every_answer() {
    let mut coverage = Coverage::default();
    for (row, answer) in answers() {
        coverage.note(row, &answer);
    }
    println!("{coverage}");
    assert_eq!(coverage.missing(), []);
    assert_eq!(coverage.strange(), []);
}

#[test]
fn the_state_stays_accepted() {
    let (mut memory, mut ledger) = start();
    for row in CASES {
        let mut answer = [0; RECORD_WORDS];
        assert_eq!(batch(BOX_A, &mut memory, &mut ledger, &record(row), &mut answer), 0);
        assert!(accepts(BOX_A, &memory, &ledger), "{row:?}");
        assert!(direct::accepts(BOX_A, &memory, &ledger), "{row:?}");
    }
}

#[test]
fn lines_have_their_form() {
    let text = text();
    let lines: Vec<&str> = text.lines().collect();
    assert_eq!(lines.len(), CASES.len());
    assert!(text.ends_with('\n') && !text.contains(" \n") && !text.contains("unknown"));
    for expected in [
        "1 InitAddrSpace 0 0 -> 2 not free",
        "14 InitThread 0 4 4096 -> 0 done",
        "15 FreePages -> 0 done: 3 5",
        "19 Enter 4 7 8 9 -> 0 done: 7 8 9 0 0 0 0 0 0 0 0 0 0 0 0 4096 0",
        "26 Enter 4 -> 11 suspended",
        "41 Unknown 14 -> 19 bad record",
        "296 InitThread 4 7 4097 -> 23 bad entry",
    ] {
        assert!(lines.contains(&expected), "{expected}");
    }
}

/// Values that the codes alone would not show.
#[test]
fn values_are_the_expected_ones() {
    let text = text();
    for expected in [
        "27 Resume 4 -> 0 done: 1 2 3 4 5 6 7 8 9 10 11 12 13 14 15 16 4026531840",
        "28 Exit 5 -> 0 done: 5",
        "38 GetPhysPages -> 0 done: 8",
        "39 FreePages -> 0 done: 8 0",
        "146 FreePages -> 0 done: 0 8",
        "181 FreePages -> 0 done: 2 2",
        "197 GetRandom 4294967295 -> 0 done: 4294967295",
        "219 Load 1073725444 -> 0 done: 99",
        "227 Load 1073725444 -> 0 done: 0",
        "232 Load 1073737728 -> 0 done: 2048",
        "233 Load 1073741820 -> 0 done: 3071",
        "235 Load 1073741820 -> 0 done: 5",
        "236 Load 1073733632 -> 0 done: 14336",
        "238 Load 1073733632 -> 0 done: 7",
        "239 Load 1073729544 -> 0 done: 15362",
        "261 Resume 7 -> 0 done: 0 0 0 0 0 0 0 0 0 0 0 0 0 0 0 0 268435456",
        "262 Exit 4294967295 -> 0 done: 4294967295",
        "310 FreePages -> 0 done: 1 7",
        "315 Enter 7 1 2 3 -> 0 done: 1 2 3 0 0 0 0 0 0 0 0 0 0 0 0 1073741820 0",
        "320 Enter 6 -> 0 done: 0 0 0 0 0 0 0 0 0 0 0 0 0 0 0 0 0",
    ] {
        assert!(text.lines().any(|line| line == expected), "{expected}");
    }
}

/// The attestation: its MAC was computed by another implementation, as were
/// the measurement and the MAC that Verify is given.
#[test]
fn the_attestation_verifies() {
    let mac = [
        2270339019, 2437290571, 3203782494, 4045072922, 441311686, 2460480782, 441776850, 293531876,
    ];
    let answers = answers();
    assert_eq!(answers[197].1[1..9], mac);
    let verified: Vec<u32> = answers[198..202].iter().map(|(_, answer)| answer[1]).collect();
    assert_eq!(verified, [1, 0, 0, 0]);
}

/// What is attested after entries were refused is of the two threads that were
/// made, as another implementation computed it: nothing refused is measured.
#[test]
fn refused_entries_are_not_attested() {
    let mac = [
        1757915855, 4109543549, 3383223045, 1043685739, 3877781970, 1147938807, 3348059073,
        388102581,
    ];
    assert_eq!(answers()[317].1[1..9], mac);
}
