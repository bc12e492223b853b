//! The right part of a block: second-level tables, and what their slots name,
//! each slot on a row of its own.

use super::block::Block;
use super::family::{count, Family, Slot, Table, Target};
use super::layout::{DATA, DATA_WIDTH, FIRST, GAP, MID, ROW, TABLE, WIDTH};
use super::numbers::{columns, grouped};
use super::routes::Exit;
use super::sheet::{card_height, Area, CARD};
use super::words::{data_words, what};

/// From a row with two addresses to the next.
const RUN: u32 = ROW + 8;

/// The column of tables, each with its rows; where it ends.
pub fn draw(block: &mut Block, family: &Family, top: u32) -> u32 {
    let (mut y, mut trunk) = (top, Vec::from([(FIRST + WIDTH, top + MID)]));
    for table in &family.tables {
        if let Some(index) = table.index {
            branch(block, "arrow", &mut trunk, y, index);
        }
        y = draw_table(block, table, y);
    }
    y = block.more(TABLE, y, family.told.len());
    for (index, what) in &family.astray {
        branch(block, "arrow astray", &mut trunk, y, *index);
        block.ghost(TABLE, y, WIDTH, what);
        y += ROW;
    }
    block.more(TABLE, y, family.more)
}

/// The arrow from the first level to a table, with its index. It starts where
/// the trunk ends, and the trunk goes on from its corner.
fn branch(block: &mut Block, class: &str, trunk: &mut Vec<(u32, u32)>, y: u32, index: u32) {
    let (x, y) = (FIRST + WIDTH + 14, y + MID);
    if let [(_, start)] = trunk[..] {
        trunk.push((x, start));
    }
    trunk.extend([(x, y), (TABLE, y)]);
    block.sheet.arrow(class, block.ink, trunk);
    block.sheet.words("label", x + 6, y - 5, &format!("index {index}"));
    *trunk = vec![(x, y), (x, y)];
}

fn draw_table(block: &mut Block, table: &Table, y: u32) -> u32 {
    let mut row = y;
    for slot in &table.drawn {
        row = draw_slot(block, table.page, slot, row);
    }
    row = block.more(TABLE + WIDTH + 8, row, count(&table.hidden));
    let (class, mut lines) = block.words(table.page);
    let used = count(table.slots());
    lines.push(match used {
        1 => "1 slot used".to_string(),
        _ => format!("{} slots used", grouped(used)),
    });
    let h = card_height(lines.len()).max((row - y).saturating_sub(ROW - CARD));
    block.sheet.card(&class, Area { x: TABLE, y, w: WIDTH, h }, &lines);
    row.max(y + h + GAP)
}

/// A row; where the next may stand.
fn draw_slot(block: &mut Block, table: u32, slot: &Slot, y: u32) -> u32 {
    let (from, to) = ((TABLE + WIDTH, y + MID), (DATA, y + MID));
    let (first, last) = block.scene.maps(table, slot);
    block.sheet.words("label", from.0 + 8, from.1 - 5, &first);
    last.iter().for_each(|last| block.sheet.words("label", from.0 + 8, from.1 + 11, last));
    match &slot.target {
        Target::Data(pages) => {
            block.sheet.arrow("arrow", block.ink, &[from, to]);
            return draw_run(block, pages, y);
        }
        Target::Insecure(frame) => {
            let (frame, count) = (*frame, slot.count);
            block.exits.push(Exit { frame, count, from, ink: block.ink });
        }
        Target::Page(page) => astray(block, &block.scene.about((*page, slot.count)), y),
        Target::Astray(word) => astray(block, &block.scene.elsewhere(*word), y),
    }
    y + if last.is_some() { RUN } else { ROW }
}

/// An arrow to what is not the space's own.
fn astray(block: &mut Block, what: &str, y: u32) {
    let ends = [(TABLE + WIDTH, y + MID), (DATA, y + MID)];
    block.sheet.arrow("arrow astray", block.ink, &ends);
    block.ghost(DATA, y, DATA_WIDTH, what);
}

/// Data pages on one card; where the next may stand.
fn draw_run(block: &mut Block, pages: &[u32], y: u32) -> u32 {
    if let [page] = pages {
        draw_data(block, *page, y);
        return y + ROW;
    }
    let what = what(&block.scene.ledger, pages[0]).unwrap_or_default();
    let lines = data_words(&what, pages, block.scene.machine.secure, columns(DATA_WIDTH));
    let h = card_height(lines.len());
    block.sheet.card("pages data", Area { x: DATA, y, w: DATA_WIDTH, h }, &lines);
    y + h + ROW - CARD
}

/// A data page: its address and rights stand over its arrow, so its frame
/// stands here.
fn draw_data(block: &mut Block, page: u32, y: u32) {
    let (class, lines) = block.words(page);
    let area = Area { x: DATA, y, w: DATA_WIDTH, h: CARD };
    block.sheet.card(&class, area, &lines[..1]);
    let frame = u64::from(block.scene.machine.secure) + u64::from(page);
    block.sheet.aside(area, &format!("frame {frame}"));
}

/// Data pages that no slot names, with their own address; where they end.
pub fn loose(block: &mut Block, pages: &[u32], top: u32) -> u32 {
    let mut y = top;
    for page in pages {
        let (_, lines) = block.words(*page);
        draw_data(block, *page, y);
        block.sheet.words("label", TABLE + WIDTH + 8, y + 15, &lines[1..].join(" "));
        y += ROW;
    }
    y
}
