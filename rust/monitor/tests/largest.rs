//! The largest boxes: as many pages and frames as there may be, and one more.

use monitor::layout::{record_of, HEADER_WORDS, MAP_START, MAP_WORDS, MOST_FRAMES, MOST_PAGES};
use monitor::{Answer, Call, Key, Machine, Mapping, Monitor, Rule, Unfit};

const KEY: Key = Key::new([1, 2, 3, 4, 5, 6, 7, 8]);
/// No more frames than the pages and the monitor's need.
const PAGES: Machine = Machine { frames: 1026, secure: 2, pages: 1024, monitor: 0, monitors: 2 };
/// Frames and pages at their most.
const ALL: Machine = Machine { frames: 16384, ..PAGES };

fn fresh(machine: Machine) -> Monitor {
    Monitor::boot(machine, &KEY).expect("it fits")
}

#[test]
fn a_fresh_ledger() {
    let mut bench = fresh(PAGES);
    let words = bench.ledger().words();
    assert_eq!(words.len(), 32_832);
    assert_eq!(words[..MAP_START], [0, 1, 2, 3, 4, 5, 6, 7, 8]);
    assert_eq!(words[9..41], [u32::MAX; MAP_WORDS]);
    assert!(words[41..].iter().all(|word| *word == 0));
    assert_eq!(record_of(0).start, HEADER_WORDS);
    assert_eq!(bench.call(Call::FreePages), Ok(Answer::Free { count: 1024, lowest: 0 }));
}

#[test]
fn one_more_is_refused() {
    assert!(fresh(ALL).accepted());
    for (machine, rule) in [
        (Machine { frames: MOST_FRAMES + 1, ..ALL }, Rule::Frames),
        (Machine { pages: MOST_PAGES + 1, ..ALL }, Rule::Pages),
    ] {
        assert_eq!(Monitor::boot(machine, &KEY), Err(Unfit::Numbers(rule)));
    }
}

/// The last pages build a space, and its table names the last frame.
#[test]
fn the_last_pages_and_the_last_frame() {
    let mut bench = fresh(ALL);
    let map = Mapping::new(255, 1023).expect("the last address");
    let answers = bench.batch(&[
        Call::InitAddrSpace { space: 1023, first: 1022 },
        Call::InitTable { space: 1023, page: 1021, index: 255 },
        Call::MapInsecure { space: 1023, map, frame: 16_383 },
        Call::FreePages,
    ]);
    let free = Answer::Free { count: 1021, lowest: 0 };
    assert_eq!(answers, Ok(vec![Answer::Done, Answer::Done, Answer::Done, free]));
    let table = bench.memory().frame(ALL.secure + 1021).expect("the table");
    assert_eq!(table[1023], 67_104_769);
    assert_eq!(bench.ledger().words()[40], 0x1fff_ffff);
    assert!(!bench.ledger().is_free(1021) && bench.ledger().is_free(1020));
}

/// The words after the map are looked at: they are zero.
#[test]
fn the_rest_of_the_header() {
    for word in [41, 63] {
        let mut bench = fresh(PAGES);
        bench.ledger_mut().words_mut()[word] = 1;
        assert!(!bench.accepted());
    }
}
