//! The block of one space: from left to right the space, its first level, its
//! tables and its data pages, each slot on a row of its own; under them the
//! threads and spare pages.

use super::block::Block;
use super::family::Family;
use super::layout::{FIRST, GAP, LEFT, MID, PAD, RIGHT, SPACE, WIDTH};
use super::numbers::columns;
use super::sheet::{card_height, Area, CARD};
use super::tables;
use super::words::listed;
use monitor::State;

/// Threads and spare pages in a row.
const IN_ROW: u32 = 5;

/// Draws a space from this height on; where the block ends.
pub fn draw(block: &mut Block, family: &Family, top: u32) -> u32 {
    let inner = top + PAD;
    let space = block.page(family.number, SPACE, inner, WIDTH);
    let first = first(block, family, inner);
    let tables = tables::draw(block, family, inner);
    let under = space.max(first);
    let y = match block.scene.folded {
        true => told(block, family, tables.max(under)),
        false => {
            let loose = tables::loose(block, &family.loose, tables);
            grid(block, &family.rest, loose.max(under))
        }
    };
    let bottom = y - GAP + PAD;
    let class = match family.space.state {
        State::Stopped => "panel block stopped",
        _ => "panel block",
    };
    block.sheet.panel(class, Area { x: LEFT, y: top, w: RIGHT - LEFT, h: bottom - top });
    bottom
}

fn first(block: &mut Block, family: &Family, y: u32) -> u32 {
    let ends = [(SPACE + WIDTH, y + MID), (FIRST, y + MID)];
    match &family.first {
        Ok(page) => {
            block.sheet.arrow("arrow", block.ink, &ends);
            block.page(*page, FIRST, y, WIDTH)
        }
        Err(what) => {
            block.sheet.arrow("arrow astray", block.ink, &ends);
            block.ghost(FIRST, y, WIDTH, what);
            y + CARD + GAP
        }
    }
}

/// On a large box: threads on cards, other pages in words; where the next may
/// stand.
fn told(block: &mut Block, family: &Family, top: u32) -> u32 {
    let y = grid(block, &family.rest, top);
    let y = list(block, "pages spare", "Spare pages", &family.spare, y);
    let y = list(block, "pages data", "Data that no slot names", &family.loose, y);
    list(block, "pages listed", "Pages that have no room above", &family.listed, y)
}

/// Pages in words, on a card of the block's width.
fn list(block: &mut Block, class: &str, title: &str, pages: &[u32], y: u32) -> u32 {
    const INNER: u32 = RIGHT - LEFT - 2 * PAD;
    if pages.is_empty() {
        return y;
    }
    let (pages, running) = (block.scene.numbered(pages), block.scene.ledger.running());
    let mut lines = vec![title.to_string()];
    lines.extend(listed(&pages, running, columns(INNER)));
    let h = card_height(lines.len());
    block.sheet.card(class, Area { x: LEFT + PAD, y, w: INNER, h }, &lines);
    y + h + GAP
}

/// Pages in rows; where the next may stand.
fn grid(block: &mut Block, pages: &[u32], top: u32) -> u32 {
    const EACH: u32 = (RIGHT - LEFT - 2 * PAD + GAP) / IN_ROW;
    let mut y = top;
    for row in pages.chunks(IN_ROW as usize) {
        let ends = (0..)
            .zip(row)
            .map(|(place, page)| block.page(*page, LEFT + PAD + EACH * place, y, EACH - GAP));
        y = ends.max().unwrap_or(y);
    }
    y
}
