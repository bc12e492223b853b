//! The boxes whose acceptance is the dearest that was found. Of all that it
//! looks at, a slot in use of a table of a space that is not stopped costs
//! most; so there are as few spaces as can own all other pages as tables.

use super::Lent;
use second::calls::number::*;
use second::layout::{MOST_FRAMES, MOST_PAGES, MOST_TABLES};
use second::mapping::{Leaf, READ, WRITE};
use second::random::Rng;
use second::Machine;
use std::ops::Range;

/// As many frames and pages as a box has at most, with insecure frames before
/// and after the secure ones.
pub const WIDE: Machine =
    Machine { frames: MOST_FRAMES, secure: 1024, pages: MOST_PAGES, monitor: 0, monitors: 2 };

/// The first insecure frame after the secure ones.
pub const ABOVE: u32 = WIDE.secure + WIDE.pages;

/// The first insecure frame before them.
const BELOW: u32 = WIDE.monitors;

/// The tables of a space at most.
const MOST: u32 = MOST_TABLES as u32;

/// The slot word of an insecure frame.
pub fn insecure(frame: u32) -> u32 {
    Leaf { frame, rights: READ | WRITE }.word()
}

/// A slot that costs the most instructions: it names a frame above the secure
/// ones and the monitor's, about which most has to be asked.
pub fn in_use() -> u32 {
    insecure(ABOVE)
}

/// Slots that cost the most time: each is by chance empty, or names a frame
/// below or above the secure ones, so that a core cannot foretell the branches.
pub fn by_chance() -> impl FnMut() -> u32 {
    let mut rng = Rng::new(47);
    move || rng.pick(&[0, 0, insecure(BELOW), insecure(ABOVE)])
}

/// The dearest in instructions.
pub fn in_instructions() -> Lent {
    tables(0, in_use)
}

/// The dearest by the clock.
pub fn by_the_clock() -> Lent {
    tables(0, by_chance())
}

/// The page of a space; the next is its first level.
pub const fn space(number: u32) -> u32 {
    2 * number
}

/// How many spaces there are where so many pages are free: each has two pages
/// beside its tables.
pub const fn spaces(free: u32) -> u32 {
    (WIDE.pages - free).div_ceil(2 + MOST)
}

/// The tables where so many pages are free. Each space in turn has as many as
/// it can have.
pub const fn table_pages(free: u32) -> Range<u32> {
    space(spaces(free))..WIDE.pages - free
}

/// The box whose last pages, so many, are free, and whose others are spaces
/// full of tables.
pub fn tables(free: u32, mut slot: impl FnMut() -> u32) -> Lent {
    let pages = table_pages(free);
    let table = |(page, turn)| vec![INIT_TABLE, space(turn / MOST), page, turn % MOST];
    let all = (0..spaces(free)).map(space).map(|page| vec![INIT_ADDR_SPACE, page, page + 1]);
    let rows: Vec<_> = all.chain(pages.clone().zip(0..).map(table)).collect();
    let mut lent = Lent::after(WIDE, &rows);
    for page in pages {
        lent.page(page as usize).fill_with(&mut slot);
    }
    lent
}
