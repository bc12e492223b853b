//! Why a state is not accepted: each demand broken alone, which of two comes
//! first, and the words of docs/RULES.md.

mod common;

use common::Lent;
use second::layout::MAP_START;
use second::{Place, Rule};

/// A demand, what breaks it and no other in the state of box A, and the
/// fault that is told.
type Case = (Rule, fn(&mut Lent), &'static str);

#[rustfmt::skip]
const ALONE: [Case; 19] = [
    (Rule::A1, |lent| { lent.memory.pop(); },
        "expected 1024F words of memory, 16384, found 16383"),
    (Rule::A2, |lent| lent.ledger[0] = 6,
        "header word 0: the running thread's page 5 is no thread but a spare page"),
    (Rule::A3, |lent| lent.ledger[MAP_START] |= 1 << 5,
        "header word 9: page 5 is taken in its record and free in the free map"),
    (Rule::A4, |lent| lent.ledger[50] = 7,
        "header word 50: expected zero, found 7"),
    (Rule::A5, |lent| { lent.record(6)[0] = 9; lent.ledger[MAP_START] &= !(1 << 6) },
        "page 6, word 0 of its record: expected a type, 0 to 6, found 9"),
    (Rule::A6, |lent| lent.record(3)[2] = 4107,
        "page 3, word 2 of its record: expected a well-formed mapping word, found 4107"),
    (Rule::A7, |lent| { lent.record(5)[1] = 4; lent.record(0)[4] = 4 },
        "page 5, word 1 of its record: expected a space as owner, found page 4, a thread"),
    (Rule::A8, |lent| lent.record(4)[3..6].copy_from_slice(&[0, 0, 7]),
        "page 4, word 5 of its record: expected zero in a thread not suspended, found 7"),
    (Rule::A9, |lent| lent.frame(6)[1023] = 7,
        "page 6, a free page: expected zero in word 1023 of its frame, found 7"),
    (Rule::A10, |lent| lent.record(7)[4] = 1,
        "page 7, word 4 of its record: expected 0, the pages that the space owns, found 1"),
    (Rule::A11, |lent| { lent.record(0)[3] = 0; lent.record(0)[5] = 67 },
        "page 0, word 5 of its record: expected 66 blocks (threads 1, data pages 1), found 67"),
    (Rule::A12, |lent| { lent.record(0)[3] = 0; lent.record(4)[3] = 1 },
        "page 4, word 3 of its record: expected 0 in a thread of space 0, which is building, found 1"),
    (Rule::A13, |lent| lent.record(7)[5] = 521,
        "page 7, word 5 of its record: expected at most 65n blocks, 520, found 521"),
    (Rule::A14, |lent| lent.record(5)[..3].copy_from_slice(&[3, 0, 0]),
        "page 0, word 2 of its record: expected no first-level table besides page 1, found page 5"),
    (Rule::A15, |lent| lent.frame(1)[7] = 4,
        "page 1, a first-level table of space 0: slot 7 names page 3, a data page of space 0 with mapping word 4099"),
    (Rule::A16, |lent| lent.record(5)[..3].copy_from_slice(&[4, 0, 9]),
        "page 5, a second-level table of space 0: expected 6 in slot 9 of the first-level table, page 1, found 0"),
    (Rule::A17, |lent| lent.frame(1)[256] = 1,
        "page 1, a first-level table of space 0: expected zero in word 256 of its frame, found 1"),
    (Rule::A18, |lent| lent.frame(2)[7] = 4096 * 9 + 3,
        "page 2, a second-level table of space 0: slot 7 names frame 9 with rights 3, which is page 3, a data page of space 0 with mapping word 4099"),
    (Rule::A19, |lent| lent.frame(2)[1] = 0,
        "page 3, a data page of space 0: expected 36867 in slot 1 of its second-level table, page 2, found 0"),
];

#[test]
fn an_accepted_state_breaks_nothing() {
    assert_eq!(Lent::accepted().why(), None);
}

#[test]
fn each_demand_alone() {
    for (rule, hurt, fault) in ALONE {
        let mut lent = Lent::accepted();
        hurt(&mut lent);
        let broken = lent.why().expect("not accepted");
        assert_eq!((broken.rule, broken.fault.as_str()), (rule, fault));
        assert_eq!(broken.to_string(), format!("{rule:?} {}\n{fault}", rule.words()));
    }
}

/// Of two demands broken at once, the one that docs/RULES.md has first.
#[test]
fn the_first_of_two() {
    for (place, (first, hurt_first, _)) in ALONE.iter().enumerate() {
        for (second, hurt_second, _) in &ALONE[place + 1..] {
            let mut lent = Lent::accepted();
            hurt_second(&mut lent);
            hurt_first(&mut lent);
            assert_eq!(lent.why().expect("not accepted").rule, *first, "with {second:?}");
        }
    }
}

#[test]
fn the_lowest_page_and_there_the_lowest_word() {
    let mut lent = Lent::accepted();
    for page in [7, 6, 5] {
        lent.frame(page)[900] = 1;
        lent.frame(page)[800 + page] = 1;
    }
    let broken = lent.why().expect("not accepted");
    assert_eq!((broken.rule, broken.page), (Rule::A9, Some(5)));
    assert_eq!(broken.place, Place::Frame { page: 5, word: 805 });
    for (page, word) in [(6, 2), (3, 31), (3, 30)] {
        lent.record(page)[word] = 1;
    }
    let broken = lent.why().expect("not accepted");
    assert_eq!((broken.rule, broken.page), (Rule::A6, Some(3)));
    assert_eq!(broken.place, Place::Record { page: 3, word: 30 });
}

/// The page is the one that breaks the demand; the word may be another's.
#[test]
fn the_page_and_the_place() {
    let told = |number: usize| {
        let (_, hurt, _) = ALONE[number - 1];
        let mut lent = Lent::accepted();
        hurt(&mut lent);
        lent.why().map(|broken| (broken.page, broken.place)).expect("not accepted")
    };
    assert_eq!(told(1), (None, Place::Lent));
    assert_eq!(told(2), (Some(5), Place::Header { word: 0 }));
    assert_eq!(told(4), (None, Place::Header { word: 50 }));
    assert_eq!(told(12), (Some(4), Place::Record { page: 4, word: 3 }));
    assert_eq!(told(16), (Some(5), Place::Frame { page: 1, word: 9 }));
    assert_eq!(told(19), (Some(3), Place::Frame { page: 2, word: 1 }));
}

#[test]
fn the_words_of_the_rules() {
    let path = concat!(env!("CARGO_MANIFEST_DIR"), "/../../docs/RULES.md");
    let rules = std::fs::read_to_string(path).expect("docs/RULES.md");
    let demands: Vec<&str> = rules.lines().filter(|line| line.starts_with("- **A")).collect();
    assert_eq!(demands.len(), ALONE.len());
    for ((rule, _, _), line) in ALONE.iter().zip(demands) {
        let words = format!("- **{rule:?}** {}", rule.words());
        let rest = line.strip_prefix(words.as_str()).unwrap_or_else(|| panic!("{rule}: {line}"));
        assert!(rest.starts_with(['.', ':']), "{rule}: {line}");
    }
}
