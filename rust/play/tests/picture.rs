//! The picture of a ledger in cells fits 80 columns, whatever the records hold.

use monitor::layout::{record_of, RECORD_WORDS};
use monitor::{Ledger, Machine};
use play::picture::picture;

/// The largest box that has cells.
const CELLS: Machine = Machine { frames: 100, secure: 0, pages: 64, monitor: 64, monitors: 1 };

/// A ledger of that box, each page with a record that starts with these words.
fn ledger(words: &[u32]) -> Ledger {
    let mut ledger = Ledger::zeros(CELLS);
    for page in 0..CELLS.pages {
        ledger.words_mut()[record_of(page)][..words.len()].copy_from_slice(words);
    }
    ledger
}

/// The lines, each at most 80 columns.
fn lines(ledger: &Ledger) -> Vec<String> {
    let shown = picture(ledger, false);
    for line in shown.lines() {
        assert!(line.chars().count() <= 80, "{line}");
    }
    shown.lines().map(String::from).collect()
}

#[test]
fn high_addresses() {
    let shown = lines(&ledger(&[5, 255, 0x3fff_f007]));
    assert_eq!(
        shown[..3],
        [
            "0 data        |1 data        |2 data        |3 data        |4 data",
            "of 255        |of 255        |of 255        |of 255        |of 255",
            "1073737728 rwx|1073737728 rwx|1073737728 rwx|1073737728 rwx|1073737728 rwx",
        ]
    );
    assert_eq!(shown.len(), 3 * CELLS.pages.div_ceil(5) as usize + 1);
    assert!(shown.iter().any(|line| line.contains("|63 data")));
}

#[test]
fn the_widest_words() {
    let most = u32::MAX;
    for words in [
        &[1, most, most, 2, most, most][..],
        &[2, most, most, 1],
        &[3, most],
        &[4, most, most],
        &[5, most, most],
        &[6, most],
        &[7; RECORD_WORDS],
        &[0],
    ] {
        lines(&ledger(words));
    }
}

/// A cell widens the row; colour adds no column.
#[test]
fn as_many_cells_as_fit() {
    let row = |ledger: &Ledger| lines(ledger)[0].matches('|').count() + 1;
    assert_eq!(row(&ledger(&[6, 0])), 8);
    assert_eq!(row(&ledger(&[5, 0, 4_194_305])), 6);
    assert_eq!(row(&ledger(&[5, 0, u32::MAX])), 3);
    let coloured = picture(&ledger(&[5, 0, u32::MAX]), true);
    assert_eq!(coloured.lines().next().expect("a row").matches('|').count(), 2);
}

#[test]
fn records_out_of_order() {
    let shown = lines(&ledger(&[7]));
    assert!(shown[0].starts_with("0 ?      |1 ?"), "{}", shown[0]);
    assert_eq!(shown.last().expect("a line"), "free pages: 0; running: nothing");
}
