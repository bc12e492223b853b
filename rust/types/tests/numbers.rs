//! Mapping words and the numbers of a box, against the second program's.

use second::random::Rng;
use types::layout::{FRAME_WORDS, MOST_FRAMES, MOST_PAGES, MOST_TABLES};
use types::{Machine, Mapping, Rights, Rule, Slot};

#[test]
fn mappings_answer_for_themselves() {
    let mut rng = Rng::new(4);
    for _ in 0..20_000 {
        let word = rng.word() & rng.word() & rng.pick(&[u32::MAX, 0x3fff_f007]);
        let (ours, second) = (Mapping::from_word(word), second::mapping::Mapping(word));
        assert_eq!(ours.is_well_formed(), second.well_formed());
        assert_eq!((ours.index(), ours.slot()), (second.index() as u32, second.slot() as u32));
        assert_eq!((ours.address(), ours.executes()), (second.address(), second.executes()));
        assert_eq!(ours.rights().bits(), second.rights());
        assert_eq!((ours.rights(), ours.writes()), (Rights::of(word), ours.rights().writes()));
        if ours.is_well_formed() {
            let mut again = Mapping::new(ours.index(), ours.slot()).expect("in range");
            assert_eq!(Mapping::at(ours.address()), Some(again));
            again = if ours.writes() { again.writable() } else { again };
            again = if ours.executes() { again.executable() } else { again };
            assert_eq!(again, ours);
        }
    }
}

/// A slot is read exactly where the second program reads a leaf.
#[test]
fn slots_answer_for_themselves() {
    let mut rng = Rng::new(5);
    let drawn: Vec<u32> = (0..20_000).map(|_| rng.word() & rng.pick(&[u32::MAX, !0xff8])).collect();
    let mut read = 0;
    for word in drawn.into_iter().chain(0..0x2010).chain([u32::MAX, !0xff8, 1 << 31 | 1]) {
        let (ours, second) = (Slot::decode(word), second::mapping::Leaf::read(word));
        let said = ours.map(|slot| (slot.frame(), slot.rights().bits()));
        assert_eq!(said, second.map(|leaf| (leaf.frame, leaf.rights)), "{word}");
        assert!(ours.iter().all(|slot| slot.encode() == word && slot.rights().reads()));
        read += usize::from(ours.is_some());
    }
    assert!(read > 4_000, "{read}");
}

#[test]
fn rights_in_letters() {
    let letters = ["---", "r--", "-w-", "rw-", "--x", "r-x", "-wx", "rwx"];
    for (bits, letters) in (0..).zip(letters) {
        assert_eq!(Rights::of(bits | 8).to_string(), letters);
        assert_eq!(Rights::of(bits | 1 << 31).bits(), bits);
    }
}

/// What is out of range is refused, and not cut down to what is in range.
#[test]
fn mappings_out_of_range_are_none() {
    let (most_tables, slots) = (MOST_TABLES, FRAME_WORDS as u32);
    for index in [0, 1, most_tables - 1, most_tables, most_tables + 1, u32::MAX] {
        for slot in [0, 1, slots - 1, slots, slots + 1, u32::MAX] {
            let map = Mapping::new(index, slot);
            assert_eq!(map.is_some(), index < most_tables && slot < slots, "{index} {slot}");
            assert!(map.iter().all(|map| (map.index(), map.slot()) == (index, slot)));
        }
    }
    for address in [0, 4096, (1 << 30) - 4096] {
        assert_eq!(Mapping::at(address).map(Mapping::address), Some(address));
    }
    for address in [1, 2, 4, 4095, 4097, (1 << 30) - 1, 1 << 30, 1 << 31, u32::MAX] {
        assert_eq!(Mapping::at(address), None, "{address}");
    }
}

fn fits(machine: Machine) -> bool {
    let Machine { frames, secure, pages, monitor, monitors } = machine;
    second::Machine { frames, secure, pages, monitor, monitors }.fits()
}

#[test]
fn machines_fit_near_the_limits() {
    let near = [0, 1, 2, 3, u32::MAX - 1, u32::MAX];
    for frames in [0, 1, 2, 3, 4, MOST_FRAMES, MOST_FRAMES + 1, u32::MAX] {
        for secure in near {
            for pages in near.into_iter().chain([MOST_PAGES, MOST_PAGES + 1]) {
                for monitor in near {
                    for monitors in near {
                        let machine = Machine { frames, secure, pages, monitor, monitors };
                        assert_eq!(machine.fits(), fits(machine), "{machine:?}");
                    }
                }
            }
        }
    }
}

/// Each rule is named where it is the first that is broken.
#[test]
fn the_broken_rule_is_named() {
    let machine = |numbers: [u32; 5]| {
        let [frames, secure, pages, monitor, monitors] = numbers;
        Machine { frames, secure, pages, monitor, monitors }
    };
    for (numbers, rule) in [
        ([0, 6, 8, 0, 2], Rule::Frames),
        ([MOST_FRAMES + 1, 6, 0, 0, 0], Rule::Frames),
        ([16, 6, 0, 0, 0], Rule::Pages),
        ([MOST_FRAMES, 6, MOST_PAGES + 1, 0, 2], Rule::Pages),
        ([13, 6, 8, 0, 0], Rule::Monitors),
        ([13, 6, 8, 12, 2], Rule::SecureBelow),
        ([16, u32::MAX, 8, 0, 2], Rule::SecureBelow),
        ([16, 6, 8, 0, 17], Rule::MonitorBelow),
        ([16, 6, 8, u32::MAX, 2], Rule::MonitorBelow),
        ([16, 6, 8, 5, 2], Rule::Apart),
        ([16, 6, 8, 13, 1], Rule::Apart),
    ] {
        assert_eq!(machine(numbers).broken_rule(), Some(rule), "{numbers:?}");
    }
    assert_eq!(Machine::BOX_A.broken_rule(), None);
}
