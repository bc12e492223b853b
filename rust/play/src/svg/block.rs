//! The marks of which the block of a space is made.

use super::layout::{GAP, ROW};
use super::numbers::grouped;
use super::routes::Exit;
use super::scene::Scene;
use super::sheet::{card_height, Area, Sheet, CARD};
use super::words::words;

/// A block that is being drawn.
pub struct Block<'d> {
    pub sheet: &'d mut Sheet,
    pub scene: &'d Scene<'d>,
    pub exits: &'d mut Vec<Exit>,
    pub ink: usize,
}

impl Block<'_> {
    /// The class and the lines of a page's card.
    pub fn words(&self, page: u32) -> (String, Vec<String>) {
        words(&self.scene.ledger, page)
    }

    /// A page's card; where the next may stand.
    pub fn page(&mut self, page: u32, x: u32, y: u32, w: u32) -> u32 {
        let (class, lines) = self.words(page);
        let h = card_height(lines.len());
        self.sheet.card(&class, Area { x, y, w, h }, &lines);
        y + h + GAP
    }

    /// What is named and not the space's own.
    pub fn ghost(&mut self, x: u32, y: u32, w: u32, what: &str) {
        self.sheet.card("ghost", Area { x, y, w, h: CARD }, &[what.to_string()]);
    }

    /// How many more there are, where there are any; where the next may stand.
    pub fn more(&mut self, x: u32, y: u32, more: usize) -> u32 {
        if more == 0 {
            return y;
        }
        self.sheet.words("label more", x, y + 15, &format!("and {} more", grouped(more)));
        y + ROW
    }
}
