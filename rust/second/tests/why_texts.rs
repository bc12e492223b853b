//! Further ways to break a demand, each with its fault to the letter.

mod common;

use common::Lent;
use second::cases::BOX_A;
use second::layout::MAP_START;
use second::random::unfit_machines;
use second::{why, Machine, Place, Rule};

fn told(rule: Rule, hurt: impl Fn(&mut Lent), fault: &str) {
    let mut lent = Lent::accepted();
    hurt(&mut lent);
    let broken = lent.why().expect("not accepted");
    assert_eq!((broken.rule, broken.fault.as_str()), (rule, fault));
}

#[test]
fn numbers_that_do_not_fit() {
    let told = |machine: Machine, fault: &str| {
        let broken = why(machine, &[], &[]).expect("not accepted");
        assert_eq!((broken.rule, broken.page, broken.place), (Rule::A1, None, Place::Lent));
        assert_eq!(broken.fault, fault);
    };
    let a = BOX_A;
    told(Machine { frames: 0, ..a }, "expected F from 1 to 16384, found 0");
    told(Machine { frames: 16_385, ..a }, "expected F from 1 to 16384, found 16385");
    told(Machine { pages: 0, ..a }, "expected n from 1 to 1024, found 0");
    told(Machine { pages: 1025, ..a }, "expected n from 1 to 1024, found 1025");
    told(Machine { monitors: 0, ..a }, "expected k of at least 1, found 0");
    told(Machine { secure: 9, ..a }, "expected s+n of at most F, 16, found 17");
    let most = u32::MAX;
    told(Machine { secure: most, ..a }, "expected s+n of at most F, 16, found 4294967303");
    told(Machine { monitor: 15, ..a }, "expected m+k of at most F, 16, found 17");
    let apart = "expected secure and monitor frames apart, found frame 6 in both";
    told(Machine { monitor: 5, ..a }, apart);
    told(Machine { monitor: 6, ..a }, apart);
    for machine in unfit_machines() {
        let lent = Lent::accepted();
        let broken = why(machine, &lent.memory, &lent.ledger).expect("not accepted");
        assert_eq!((broken.rule, broken.page, broken.place), (Rule::A1, None, Place::Lent));
    }
}

#[test]
fn lengths() {
    use Rule::A1;
    let memory = |found: &str| format!("expected 1024F words of memory, 16384, found {found}");
    let ledger = |found: &str| format!("expected 64+32n words of ledger, 320, found {found}");
    told(A1, |lent| lent.memory.push(0), &memory("16385"));
    told(A1, |lent| lent.memory.clear(), &memory("0"));
    told(A1, |lent| lent.ledger.truncate(319), &ledger("319"));
    told(A1, |lent| lent.ledger.push(0), &ledger("321"));
    told(A1, |lent| lent.ledger.clear(), &ledger("0"));
}

#[test]
fn the_header() {
    use Rule::{A2, A3, A4};
    let running = |fault: &str| format!("header word 0: the running thread's page {fault}");
    told(A2, |lent| lent.ledger[0] = 9, &running("8 is not below 8"));
    told(A2, |lent| lent.ledger[0] = u32::MAX, &running("4294967294 is not below 8"));
    let run = |lent: &mut Lent| lent.ledger[0] = 5;
    let suspended = running("4 is suspended: word 3 of its record is 1");
    told(A2, |lent| (run(lent), lent.record(4)[3] = 1).1, &suspended);
    let not_final = running("4 is of space 0, whose state is 2, not 1 (final)");
    told(A2, |lent| (run(lent), lent.record(0)[3] = 2).1, &not_final);
    let no_space = running("4 has the owner 99, which is no space");
    told(A2, |lent| (run(lent), lent.record(4)[1] = 99).1, &no_space);
    let no_type = running("4 is no thread but a page of no type");
    told(A2, |lent| (run(lent), lent.record(4)[0] = 7).1, &no_type);

    let free = "header word 9: page 6 is free in its record and taken in the free map";
    told(A3, |lent| lent.ledger[MAP_START] = 0, free);
    let beyond = "header word 9: the bit of number 8 is 1, and pages are below 8";
    told(A3, |lent| lent.ledger[MAP_START] |= 1 << 8, beyond);
    let later = "header word 17: the bit of number 256 is 1, and pages are below 8";
    told(A3, |lent| lent.ledger[17] = 1, later);
    let last = "header word 40: the bit of number 1023 is 1, and pages are below 8";
    told(A3, |lent| lent.ledger[40] = 1 << 31, last);
    told(A4, |lent| lent.ledger[41] = 1, "header word 41: expected zero, found 1");
    told(A4, |lent| lent.ledger[63] = 1, "header word 63: expected zero, found 1");
}

#[test]
fn layouts() {
    let told = |page: usize, word: usize, found: u32, expected: &str| {
        let fault =
            format!("page {page}, word {word} of its record: expected {expected}, found {found}");
        told(Rule::A6, |lent| lent.record(page)[word] = found, &fault);
    };
    told(0, 1, 5, "0, since a space owns itself");
    told(0, 2, 8, "a first-level page, 0 to 7");
    told(7, 2, 8, "a first-level page, 0 to 7");
    told(0, 3, 3, "a state, 0 to 2");
    told(0, 14, 1, "zero in a space");
    told(1, 2, 1, "zero in a first-level table");
    told(2, 2, 256, "an index, 0 to 255");
    told(2, 3, 1, "zero in a second-level table");
    told(3, 2, 4098, "a well-formed mapping word");
    told(3, 3, 1, "zero in a data page");
    for entry in [1, 4097, 4098, 4099, 1 << 30, (1 << 30) + 4, u32::MAX - 3, u32::MAX] {
        told(4, 2, entry, "a legal entry, a multiple of 4 below 2^30");
    }
    told(4, 3, 2, "a suspended word, 0 to 1");
    told(4, 20, 1 << 27, "flags with bits 0-27 zero");
    told(4, 21, 1, "zero in a thread");
    told(5, 2, 1, "zero in a spare page");
    told(6, 1, 7, "zero in a free page");
    told(6, 31, 1, "zero in a free page");
}

#[test]
fn owners_and_zeros() {
    let owner = "page 5, word 1 of its record: expected an owner, 0 to 7, found 8";
    told(Rule::A7, |lent| lent.record(5)[1] = 8, owner);
    let flags =
        "page 4, word 20 of its record: expected zero in a thread not suspended, found 2147483648";
    told(Rule::A8, |lent| lent.record(4)[20] = 1 << 31, flags);
    let zero = "page 5, a spare page of space 0: expected zero in word 0 of its frame, found 3";
    told(Rule::A9, |lent| lent.frame(5)[0] = 3, zero);
    let count = "page 0, word 4 of its record: expected 5, the pages that the space owns, found 4";
    told(Rule::A10, |lent| lent.record(0)[4] = 4, count);
}

#[test]
fn first_level_tables() {
    let other = "page 0, word 2 of its record: \
        expected a first-level table of space 0, found page 3, a data page of space 0";
    told(Rule::A14, |lent| lent.record(0)[2] = 3, other);
    let told_slot = |slot: usize, word: u32, fault: &str| {
        let fault = format!("page 1, a first-level table of space 0: slot {slot} names {fault}");
        told(Rule::A15, |lent| lent.frame(1)[slot] = word, &fault);
    };
    told_slot(0, 9, "page 8, which is not below 8");
    told_slot(255, u32::MAX, "page 4294967294, which is not below 8");
    told_slot(7, 3, "page 2, a second-level table of space 0 with index 0");
    told_slot(7, 7, "page 6, a free page");
    told_slot(7, 8, "page 7, a space");
    let last = "page 1, a first-level table of space 0: \
        expected zero in word 1023 of its frame, found 3";
    told(Rule::A17, |lent| lent.frame(1)[1023] = 3, last);
}

#[test]
fn second_level_slots() {
    let told_slot = |word: u32, fault: &str| {
        let fault = format!("page 2, a second-level table of space 0: slot 1023 {fault}");
        told(Rule::A18, |lent| lent.frame(2)[1023] = word, &fault);
    };
    told_slot(20482, "holds 20482, which is no frame with rights 1, 3, 5 or 7");
    told_slot(20489, "holds 20489, which is no frame with rights 1, 3, 5 or 7");
    told_slot(4096 * 5 + 5, "names frame 5, which is insecure, with rights 5, not 1 or 3");
    told_slot(4096 + 1, "names frame 1, which is the monitor's");
    told_slot(4096 * 16 + 1, "names frame 16, which is not below F");
    told_slot(4096 * 12 + 1, "names frame 12 with rights 1, which is page 6, a free page");
    let spare = "names frame 11 with rights 3, which is page 5, a spare page of space 0";
    told_slot(4096 * 11 + 3, spare);
    let rights = "page 2, a second-level table of space 0: slot 1 names frame 9 with rights 1, \
        which is page 3, a data page of space 0 with mapping word 4099";
    told(Rule::A18, |lent| lent.frame(2)[1] = 4096 * 9 + 1, rights);
}

#[test]
fn data_pages() {
    let no_table = "page 5, word 2 of its record: space 0 has no second-level table with index 1";
    let data = |lent: &mut Lent| lent.record(5)[..3].copy_from_slice(&[5, 0, 4194307]);
    told(Rule::A19, data, no_table);
    let insecure = "page 3, a data page of space 0: \
        expected 36867 in slot 1 of its second-level table, page 2, found 20481";
    told(Rule::A19, |lent| lent.frame(2)[1] = 4096 * 5 + 1, insecure);
}
