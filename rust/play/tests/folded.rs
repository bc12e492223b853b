//! The picture of a large ledger: folded by owner, every page told once, in lines
//! that fit.

mod boxes;
mod drawn;

use boxes::{full, messy, played, LARGEST};
use drawn::pages::{each_once, named};
use drawn::Numbers;
use monitor::layout::{record_of, MOST_PAGES};
use monitor::{Ledger, Machine, Page};
use play::picture::picture;

/// What stands before the pages of a line.
const LABEL: usize = 11;

/// The pages that a picture tells. Its last lines count, and tell none.
fn told(shown: &str) -> Vec<u32> {
    let (owners, _) = shown.split_once("\nall ").expect("the counts");
    let (mut pages, mut words) = (Vec::new(), String::new());
    for line in owners.lines().rev() {
        let (label, rest) = line.split_at(LABEL.min(line.len()));
        words = format!("{rest} {words}");
        if label.trim().is_empty() {
            continue;
        }
        match label.split_once(" space") {
            Some((number, _)) => pages.extend(named(number)),
            None => {
                pages.extend(named(words.split_once("pages: ").map_or(&words, |parts| parts.1)))
            }
        }
        words.clear();
    }
    pages
}

/// The picture: at most 80 columns, each page once, each space and thread named.
fn shown(ledger: &Ledger) -> String {
    let shown = picture(ledger, false);
    for line in shown.lines() {
        assert!(line.chars().count() <= 80 && line == line.trim_end(), "{line}");
    }
    each_once(told(&shown), ledger.page_count());
    let words = format!(" {} ", shown.split_whitespace().collect::<Vec<_>>().join(" "));
    for (number, page) in (0..).zip(ledger.pages()) {
        let says = |what: &str| assert!(words.contains(what), "{what}");
        match page {
            Some(Page::Space(space)) => {
                says(&format!(" {number} space "));
                says(&format!(", owns {}, {} blocks ", space.owned, space.blocks));
            }
            Some(Page::Thread(thread)) => {
                let now = if ledger.running() == Some(number) { ", running" } else { "" };
                let now = if thread.suspended { ", suspended" } else { now };
                says(&format!(" at {}{now}", thread.entry));
            }
            _ => {}
        }
    }
    shown
}

/// The ledger of the largest box after a plan.
fn after(calls: &str) -> Ledger {
    played(LARGEST, calls).into_parts().1
}

#[test]
fn a_fresh_box() {
    assert_eq!(
        shown(&after("")),
        "free       1024 pages: 0-1023\nall        1024 pages: 1024 free\n\
         free pages: 1024; running: nothing\n"
    );
}

#[test]
fn a_full_box() {
    assert_eq!(shown(&after(&full())), include_str!("full.txt"));
}

/// No run folds, and still it is two screens.
#[test]
fn a_messy_box() {
    let shown = shown(&after(&messy()));
    assert!(shown.lines().count() <= 100, "{shown}");
    for words in ["\n2 space    final, owns", " 10 at 8192, running;", "; running: thread 10\n"] {
        assert!(shown.contains(words), "{words}");
    }
}

/// Pages in no order at addresses in order: one run, the pages as the addresses are.
#[test]
fn pages_by_address() {
    let calls = "2 0 1; 4 0 2 0; 6 0 9 4099 5; 6 0 3 8195 5; 6 0 4 12291 5; 6 0 8 20483 5;";
    let machine = Machine { pages: 65, frames: 100, ..Machine::BOX_A };
    let shown = shown(played(machine, calls).ledger());
    let data = "  data     4 pages: 9, 3-4 at 4096 to 12288 rw-; 8 at 20480 rw-\n";
    assert!(shown.contains(data), "{shown}");
}

/// A box of 64 pages has a cell for each, the next larger has none.
#[test]
fn where_folding_begins() {
    for (pages, start) in
        [(64, "0 space  |1 first  |2 free "), (65, "0 space    building, owns 1,")]
    {
        let machine = Machine { pages, frames: 100, ..Machine::BOX_A };
        let shown = picture(played(machine, "2 0 1;").ledger(), false);
        assert!(shown.starts_with(start), "{shown}");
    }
}

/// Unknown types, owners beyond n, words of all sizes: a line a page at most, and
/// the few that every picture has.
#[test]
fn records_out_of_order() {
    let mut numbers = Numbers(11);
    for round in 0..24 {
        let mut ledger = Ledger::zeros(LARGEST);
        let words = ledger.words_mut();
        words[0] = numbers.next() % (2 * MOST_PAGES);
        for page in 0..MOST_PAGES {
            let owner = [numbers.next() % (2 + round), page / 100, 5000, u32::MAX - page];
            let kind = if round % 4 == 0 { 1 + round % 7 } else { numbers.next() % 8 };
            let word = [numbers.next(), 4096 * page + 7, u32::MAX][round as usize % 3];
            let record = [kind, owner[round as usize % 4], word, numbers.next() % 3];
            let used = [1, 4, 4, 2, 3, 3, 2, 4][kind as usize];
            words[record_of(page)][..used].copy_from_slice(&record[..used]);
        }
        assert!(shown(&ledger).lines().count() <= MOST_PAGES as usize + 8);
    }
}

/// Colour adds no word and takes none.
#[test]
fn in_colour() {
    let ledger = after(&full());
    let coloured = picture(&ledger, true);
    assert!(coloured.contains("\x1b[7m260 at 4096, running\x1b[0m"), "{coloured}");
    let parts = coloured.split('\x1b');
    let plain: String = parts.map(|part| part.split_once('m').map_or(part, |cut| cut.1)).collect();
    assert_ne!(plain, "");
    assert_eq!(plain.len(), picture(&ledger, false).len());
}
