//! The drawn state: well-formed whatever the words are, every page drawn once,
//! arrows to what the tables name.

mod boxes;
mod drawn;

use boxes::{full, messy, played, LARGEST};
use drawn::pages::{each_once, on_cards};
use drawn::{count, number, says, well_formed, Numbers};
use monitor::layout::{record_of, MOST_PAGES};
use monitor::{Machine, Monitor};
use play::svg;

/// The worked shift up to where its thread runs.
const SHIFT: &str = "2 0 1; 4 0 2 0; 6 0 3 4099 5; 3 0 4 4096; 8 0; 9 4 7 8 9;";

fn drawn(bench: &Monitor) -> String {
    let drawn = svg::svg(bench);
    well_formed(&drawn);
    drawn
}

#[test]
fn a_fresh_box() {
    let drawn = drawn(&played(Machine::BOX_A, ""));
    assert_eq!((count(&drawn, "page free"), count(&drawn, "page ")), (8, 8));
    assert_eq!((count(&drawn, "panel block"), count(&drawn, "arrow")), (0, 0));
    for words in ["Free pages: 8", "frames 0-1", "frames 2-5", "frames 14-15"] {
        assert!(says(&drawn, words), "{words}");
    }
}

#[test]
fn the_middle_of_the_shift() {
    let drawn = drawn(&played(Machine::BOX_A, SHIFT));
    assert_eq!((count(&drawn, "page "), count(&drawn, "page free")), (8, 3));
    assert_eq!((count(&drawn, "arrow"), count(&drawn, "ghost")), (3, 0));
    assert_eq!((count(&drawn, "page thread runs"), count(&drawn, "panel block")), (1, 1));
    for words in [
        "0 space",
        "final",
        "owns 4",
        "66 blocks",
        "1 first of 0",
        "2 table of 0",
        "index 0",
        "1 slot used",
        "3 data of 0",
        "frame 9",
        "4096 rw-",
        "4 thread of 0",
        "at 4096, running",
        "5 free",
        "free pages: 3; running: thread 4",
    ] {
        assert!(says(&drawn, words), "{words}");
    }
}

/// To the letter: small boxes are drawn as they always were.
#[test]
fn the_sum_of_a_small_picture() {
    let marked = plan::files::marked(&drawn(&played(Machine::BOX_A, SHIFT)));
    assert!(marked.starts_with("<!-- drawn by ./box f8780269294aeebb -->\n"), "{marked}");
}

/// Whoever opens it finds a name, words for each kind of mark, and a background.
#[test]
fn what_every_picture_has() {
    let drawn = drawn(&played(Machine::BOX_A, ""));
    let box_a = "16 frames; secure pages 0-7: frames 6-13; the monitor's: frames 0-1";
    assert!(drawn
        .contains(&format!("role=\"img\" aria-labelledby=\"box\">\n<title id=\"box\">{box_a}<")));
    let sheet = drawn.lines().find(|line| line.starts_with("<rect")).expect("a rectangle");
    assert!(sheet.contains("x=\"0\" y=\"0\"") && sheet.contains("fill=\"#fff\""), "{sheet}");
    for (class, words) in [
        ("sample ghost", "named, and not a page of the space's own"),
        ("sample stopped", "the sheet of a stopped space"),
        (
            "sample arrow\"",
            "names: over it the index, or the address and rights; a colour for each space",
        ),
        (
            "sample arrow astray",
            "names what is not the space's own, as a stopped space's table still may",
        ),
    ] {
        assert!(count(&drawn, class) == 1 && says(&drawn, words), "{words}");
    }
}

/// One page, and no insecure frame.
#[test]
fn the_smallest_box() {
    let machine = Machine { frames: 2, secure: 1, pages: 1, monitor: 0, monitors: 1 };
    let drawn = drawn(&played(machine, ""));
    assert_eq!((count(&drawn, "page free"), count(&drawn, "frame")), (1, 0));
    for words in ["2 frames; secure page 0: frame 1; the monitor's: frame 0", "0 free", "none"] {
        assert!(says(&drawn, words), "{words}");
    }
}

/// Both spaces have an arrow to the one frame; it is drawn once.
#[test]
fn two_spaces_share_a_frame() {
    let calls = "2 0 1; 4 0 2 0; 7 0 8195 4; 7 0 12289 14; 2 5 6; 4 5 7 3; 7 5 12582915 4;";
    let drawn = drawn(&played(Machine::BOX_A, calls));
    assert_eq!((count(&drawn, "panel block"), count(&drawn, "arrow out")), (2, 3));
    assert_eq!(count(&drawn, "frame insecure"), 2);
    assert!(says(&drawn, "frame 4") && says(&drawn, "8192 rw-") && says(&drawn, "12582912 rw-"));
    assert!(says(&drawn, "frames 2-3") && says(&drawn, "frame 5") && says(&drawn, "frame 15"));
}

/// What a stopped space still names is shown as not its own.
#[test]
fn a_stopped_space_with_pages_removed() {
    let calls = "2 0 1; 4 0 2 0; 6 0 3 4099 5; 3 0 4 4096; 8 0; 9 4; 39 1 2 3; 11 0; 12 1; 12 3;\
                 2 1 6; 5 1 7;";
    let bench = played(Machine::BOX_A, calls);
    let drawn = drawn(&bench);
    assert_eq!((count(&drawn, "page "), count(&drawn, "page thread suspended")), (8, 1));
    assert_eq!((count(&drawn, "panel block stopped"), count(&drawn, "panel block")), (1, 2));
    assert_eq!((count(&drawn, "ghost"), count(&drawn, "arrow astray")), (2, 2));
    // Its first level is a space by now; its data page is free.
    assert_eq!(drawn.matches(">1 space<").count(), 2);
    assert_eq!(drawn.matches(">3 free<").count(), 2);
    let first_alone = svg::of_words(bench.machine(), &[], bench.ledger().words());
    well_formed(&first_alone);
    assert_eq!(count(&first_alone, "arrow out"), 0);
}

/// A table of 1,024 insecure frames and 1,000 data pages beside it: a row each.
#[test]
fn long_runs() {
    let mut calls = String::from("2 0 1; 4 0 2 0; 4 0 3 255;");
    for page in 4..1004 {
        calls += &format!("6 0 {page} {} 2000;", page * 4096 + 7);
    }
    for slot in 0..1024u32 {
        calls += &format!("7 0 {} {};", (255 << 22) + slot * 4096 + 3, 2400 + slot);
    }
    for page in 1004..1020 {
        calls += &format!("5 0 {page};");
    }
    let drawn = drawn(&played(LARGEST, &calls));
    each_once(on_cards(&drawn), MOST_PAGES);
    assert_eq!((count(&drawn, "arrow out"), count(&drawn, "arrow")), (1, 1 + 2 + 1 + 1));
    for words in [
        "4-1003 data of 0",
        "1000 pages",
        "frames 104-1103",
        "16384 rwx",
        "to 4108288",
        "1,024 slots used",
        "frames 2400-3423",
        "1069547520 rw-",
        "to 1073737728",
        "spare, 16 pages: 1004-1019",
        "1020-1023 free",
    ] {
        assert!(says(&drawn, words), "{words}");
    }
}

/// Four spaces: the frames that they share are told from those that are one's own.
#[test]
fn a_full_box() {
    let drawn = drawn(&played(LARGEST, &full()));
    each_once(on_cards(&drawn), MOST_PAGES);
    assert_eq!((count(&drawn, "panel block"), count(&drawn, "pages data")), (4, 8));
    assert_eq!(count(&drawn, "page thread"), 4);
    for class in ["page thread runs", "page thread suspended", "pages spare"] {
        assert_eq!(count(&drawn, class), 1, "{class}");
    }
    // The sixteen of all four; then the first thirty-two of the first space, eight
    // that the second has too, and so on.
    for frames in ["3000-3015", "4000-4031", "4032-4039", "4040-4063", "4064-4071"] {
        assert_eq!(drawn.matches(&format!(">frames {frames}<")).count(), 1, "{frames}");
    }
    assert_eq!(count(&drawn, "arrow out"), 4 + 1 + 2 + 1 + 2 + 1 + 2 + 1);
    assert!(drawn.len() < 30_000 && number(&drawn, "height") < 2_000.0);
}

/// Where nothing folds some is drawn, and all is told.
#[test]
fn a_messy_box() {
    let drawn = drawn(&played(LARGEST, &messy()));
    each_once(on_cards(&drawn), MOST_PAGES);
    assert_eq!((count(&drawn, "page thread runs"), count(&drawn, "page data")), (1, 3 * 24));
    assert_eq!(drawn.matches(">Pages that have no room above<").count(), 3);
    assert!(drawn.len() < 80_000 && number(&drawn, "height") < 5_000.0);
}

/// A stopped space's tables may hold anything.
#[test]
fn tables_that_hold_anything() {
    let mut bench = played(Machine::BOX_A, "2 0 1; 4 0 2 0; 6 0 3 4099 5; 11 0;");
    let (first, table) = (7, 8);
    let words = bench.memory_mut().frame_mut(first).expect("a frame");
    words[..6].copy_from_slice(&[3, 3, 1, 6, 100, u32::MAX]);
    let words = bench.memory_mut().frame_mut(table).expect("a frame");
    let slots = [9 << 12 | 1, 9 << 12 | 1, 1 << 12 | 1, 99 << 12 | 3, 5, 5 << 12 | 7, 6 << 12 | 1];
    words[..slots.len()].copy_from_slice(&slots);
    assert!(bench.accepted());
    let drawn = drawn(&bench);
    assert_eq!((count(&drawn, "page "), count(&drawn, "page data")), (8, 1));
    for words in [
        "0 r--",
        "monitor's frame 1",
        "no frame 99",
        "monitor's frame 0",
        "20480 rwx",
        "0 space",
        "no page 99",
        "no page 4294967294",
        "5 free",
    ] {
        assert!(says(&drawn, words), "{words}");
    }
}

/// Records out of order, and pages whose owner is no space, are drawn too.
#[test]
fn records_out_of_order() {
    let mut bench = played(Machine::BOX_A, SHIFT);
    let ledger = bench.ledger_mut().words_mut();
    ledger[record_of(5)][0] = 9;
    ledger[record_of(6)][..2].copy_from_slice(&[6, 7]);
    ledger[record_of(0)][1] = 3;
    let drawn = drawn(&bench);
    assert_eq!(count(&drawn, "page "), 8);
    assert_eq!((count(&drawn, "page disorder"), count(&drawn, "page free")), (1, 1));
    assert!(says(&drawn, "5 ?") && says(&drawn, "6 spare of 7"));
}

/// Words drawn at random, on a small box and on one that is folded: always
/// well-formed, each page once.
#[test]
fn any_words() {
    let small = Machine { frames: 40, secure: 6, pages: 32, monitor: 0, monitors: 2 };
    let large = Machine { frames: 240, pages: 200, ..small };
    let mut numbers = Numbers(1);
    let mut next = || numbers.next() >> 7;
    for round in 0..60 {
        let machine = if round % 4 == 3 { large } else { small };
        let mut ledger = vec![0; machine.ledger_words()];
        for page in 0..machine.pages {
            let record = &mut ledger[record_of(page)];
            record[..4].copy_from_slice(&[next() % 8, next() % 4, next() % 40, next() % 2]);
            record[0] = if page < 4 { 1 } else { record[0] };
        }
        let sparse = |word: u32| if word.is_multiple_of(5) { word } else { 0 };
        let memory: Vec<u32> =
            (0..machine.memory_words()).map(|_| sparse(next() % (50 << 12))).collect();
        let words = memory.len() * (round % 3) / 2;
        let drawn = svg::of_words(machine, &memory[..words], &ledger);
        well_formed(&drawn);
        each_once(on_cards(&drawn), machine.pages);
        assert_eq!(drawn, svg::of_words(machine, &memory[..words], &ledger));
    }
}
