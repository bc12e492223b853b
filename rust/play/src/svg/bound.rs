//! How much is drawn. Common renderers give up at 32,767 pixels of height; the
//! sheet stays under that.

use crate::fold::{folds, Numbered, Owners};
use monitor::{Ledger, Page};

/// Slots of a table, or of the first level, that lead to no page of the space's
/// own, at most.
const MOST_OTHERS: usize = 12;
/// Rows of data pages of a table, on a large box.
const MOST_DATA: usize = 24;
/// On a large box, on the whole sheet: spaces, tables, rows of data pages.
const SPACES: usize = 32;
const TABLES: usize = 48;
const DATA: usize = 128;
/// The height of all, at most; legend and other panels come on top.
const MOST_HEIGHT: usize = 30_000;
/// How high a row is, at most: of data pages, and any other.
const DATA_ROW: usize = 58;
const ROW: usize = 36;

/// How much is drawn on a sheet, at most; the rest is told in words.
pub struct Bounds {
    /// Spaces that have a block.
    pub spaces: usize,
    /// Tables of a space.
    pub tables: usize,
    /// Of a table: rows that lead to no page of the space's own.
    pub others: usize,
    /// Of a table: rows that lead to data pages of the space's own.
    pub data: usize,
}

impl Bounds {
    /// So much that all of this ledger has room. On a small box that is all but
    /// a table's slots.
    pub fn of<W: AsRef<[u32]>>(ledger: &Ledger<W>) -> Bounds {
        let most = usize::MAX;
        if !folds(ledger) {
            return Bounds { spaces: most, tables: most, others: MOST_OTHERS, data: most };
        }
        let owners = Owners::of(ledger);
        let blocks = owners.spaces.iter().take(SPACES);
        let own: Vec<usize> = blocks.map(|(_, _, pages)| count(pages, is_table)).collect();
        let drawn = |each: usize| own.iter().map(|own| each.min(*own)).sum::<usize>();
        let tables = (1..=TABLES).rev().find(|each| drawn(*each) <= TABLES).unwrap_or(1);
        let data = (DATA / drawn(tables).max(1)).clamp(1, MOST_DATA);
        // What is left is for the other rows of tables and of first levels.
        let left = MOST_HEIGHT.saturating_sub(height(&owners)) / ROW;
        let others = left / (drawn(tables) + own.len()).max(1);
        // One row says how many more there are.
        let others = others.saturating_sub(1).clamp(1, MOST_OTHERS);
        Bounds { spaces: SPACES, tables, others, data }
    }
}

fn is_table(page: &Page) -> bool {
    matches!(page, Page::Table { .. })
}

fn count(pages: &[Numbered], is: fn(&Page) -> bool) -> usize {
    pages.iter().filter(|(_, page)| is(page)).count()
}

/// How high all is but the rows that lead to no page of a space's own, at most.
fn height(owners: &Owners) -> usize {
    let (blocks, further) = owners.spaces.split_at(owners.spaces.len().min(SPACES));
    let (mut high, mut data) = (0, 0);
    for (_, _, pages) in blocks {
        let own = count(pages, |page| matches!(page, Page::Data { .. }));
        let threads = count(pages, |page| matches!(page, Page::Thread(_)));
        let spare = count(pages, |page| matches!(page, Page::Spare { .. }));
        // The block, cards of threads, up to three lists.
        high += 107 + 49 * threads.div_ceil(5) + 49 * (spare.min(1) + 2 * own.min(1)) + pages.len();
        data += own;
    }
    // A card of many data pages names each.
    high += DATA_ROW * data.min(DATA) + 4 * data;
    // Three spaces in words in a row, and a page has a line at most.
    high += further.iter().map(|(_, _, pages)| 17 + 15 * pages.len()).sum::<usize>();
    high += 34 * (owners.lost.len() + owners.unknown.len()).div_ceil(4);
    high + 34 * owners.free.len().div_ceil(7)
}
