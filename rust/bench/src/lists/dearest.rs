//! The dearest lists of 512 calls that were found. MapSecure is the dearest
//! call by far. It fills a free page, and a page in use is free again only
//! after a Stop and a Remove.

use crate::boxes::dearest::{by_chance, in_use, space, table_pages, tables, ABOVE, WIDE};
use crate::boxes::{records, writable, Lent};
use second::calls::number::*;
use second::layout::{MOST_CALLS, MOST_TABLES};

/// The space whose first table the list fills, and the one whose tables it
/// removes.
const FILLED: u32 = 0;
const REMOVED: u32 = 1;

/// A list and its box.
pub struct Dearest {
    /// The box.
    pub lent: Lent,
    /// The records.
    pub calls: Vec<u32>,
}

/// In instructions: a call is worth more than two tables, so each is a
/// MapSecure, and as many pages are free.
pub fn in_instructions() -> Dearest {
    dearest(MOST_CALLS as u32, in_use)
}

/// By the clock: a table whose slots are in use by chance cost acceptance, where
/// it was measured, more than half a MapSecure. So one page is free, and those
/// that are filled after it are tables until then.
pub fn by_the_clock() -> Dearest {
    dearest(1, by_chance())
}

fn dearest(free: u32, slot: impl FnMut() -> u32) -> Dearest {
    let rows = list(free);
    let mut lent = tables(free, slot);
    // The slots that the list fills, in the filled space's first table.
    let filled = rows.iter().filter(|row| row[0] == MAP_SECURE).count();
    lent.page(table_pages(free).start as usize)[..filled].fill(0);
    Dearest { lent, calls: records(&rows) }
}

/// All free pages are filled; then tables of a stopped space, one by one, for
/// as long as there are calls.
fn list(free: u32) -> Vec<Vec<u32>> {
    // Each page from a frame of its own, so that no cache holds it.
    let fill = |page: u32, slot: u32| {
        vec![MAP_SECURE, space(FILLED), page, writable(0, slot), ABOVE + 7 * slot]
    };
    let mut rows: Vec<Vec<u32>> =
        (WIDE.pages - free..WIDE.pages).zip(0..).map(|(page, slot)| fill(page, slot)).collect();
    rows.push(vec![STOP, space(REMOVED)]);
    let removed = table_pages(free).skip(MOST_TABLES).zip(free..);
    rows.extend(removed.flat_map(|(page, slot)| [vec![REMOVE, page], fill(page, slot)]));
    rows.truncate(MOST_CALLS);
    rows
}
