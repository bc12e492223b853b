//! The insecure frames, on the right: those that arrows lead to on cards of their
//! own, the others in ranges under them.

use super::family::{Family, Table, Target};
use super::layout::{DATA, DATA_WIDTH, GAP, MID, PAD, RIGHT};
use super::numbers::{frames, grouped};
use super::routes::{Exit, Routes, Way};
use super::scene::Scene;
use super::sheet::{Area, Sheet, CARD};
use crate::fold::ranges;
use std::collections::BTreeSet;

/// The width of the panel, and of its cards.
const WIDTH: u32 = 212;
const INNER: u32 = WIDTH - 2 * PAD;
/// Between two upright lines.
const TRACK: u32 = 7;
/// Ranges of frames that are shown at most.
const MOST_RANGES: usize = 24;

/// The panel of insecure frames.
pub struct Insecure {
    routes: Routes,
    /// Its left edge.
    left: u32,
}

impl Insecure {
    /// Draws the arrows that leave the blocks, and the frames at their ends.
    pub fn draw(sheet: &mut Sheet, exits: &[Exit]) -> Insecure {
        let routes = Routes::new(exits);
        let left = RIGHT + 40 + TRACK * routes.tracks as u32;
        for way in &routes.ways {
            sheet.arrow("arrow out", way.exit.ink, &points(way, left + PAD));
        }
        for Exit { frame, count, from, ink } in &routes.told {
            sheet.arrow("arrow told", *ink, &[*from, (DATA, from.1)]);
            let area = Area { x: DATA, y: from.1 - MID, w: DATA_WIDTH, h: CARD };
            sheet.card("told insecure", area, &[frames(*frame, *count)]);
        }
        for card in &routes.cards {
            let area = Area { x: left + PAD, y: card.top, w: INNER, h: card.height };
            sheet.card("frame insecure", area, &[frames(card.frame, card.count)]);
            if card.more > 0 {
                sheet.aside(area, &format!("and {} more", grouped(card.more)));
            }
        }
        Insecure { routes, left }
    }

    /// Draws the frames to which no arrow leads; where they end.
    pub fn others(&self, sheet: &mut Sheet, scene: &Scene, families: &[Family], top: u32) -> u32 {
        let cards = self.routes.cards.iter().map(|card| (card.frame, card.count));
        let drawn: BTreeSet<u32> = cards.flat_map(each).collect();
        let told = self.routes.told.iter().map(|exit| (exit.frame, exit.count));
        let named: BTreeSet<u32> = told.chain(hidden(families)).flat_map(each).collect();
        let without = scene.insecure().filter(|frame| !drawn.contains(frame));
        let (told, idle): (Vec<u32>, Vec<u32>) = without.partition(|frame| named.contains(frame));
        let end = self.routes.cards.last().map_or(0, |card| card.top + card.height + GAP);
        if drawn.is_empty() && told.is_empty() && idle.is_empty() {
            sheet.words("label", self.left + PAD, top + 18, "none");
            return top + 26;
        }
        let y = self.ranges(sheet, "named, no arrow drawn:", &told, top.max(end));
        self.ranges(sheet, "named by no slot:", &idle, y)
    }

    fn ranges(&self, sheet: &mut Sheet, title: &str, numbers: &[u32], top: u32) -> u32 {
        if numbers.is_empty() {
            return top;
        }
        let (x, ranges) = (self.left + PAD, ranges(numbers));
        sheet.words("label", x, top + 18, title);
        let mut y = top + 26;
        for (first, count) in ranges.iter().take(MOST_RANGES) {
            let area = Area { x, y, w: INNER, h: CARD };
            sheet.card("frames insecure", area, &[frames(*first, *count)]);
            y += CARD + GAP / 2;
        }
        let more: u32 = ranges.iter().skip(MOST_RANGES).map(|(_, count)| count).sum();
        if more > 0 {
            let words = format!("and {} more", grouped(more as usize));
            sheet.words("label more", x, y + 14, &words);
            y += CARD;
        }
        y + GAP / 2
    }

    /// The panel behind them; its right edge.
    pub fn panel(&self, sheet: &mut Sheet, top: u32, bottom: u32) -> u32 {
        sheet.panel("panel", Area { x: self.left, y: top, w: WIDTH, h: bottom - top });
        sheet.words("head", self.left + PAD, top + 16, "Insecure frames");
        self.left + WIDTH
    }
}

/// The corners of an arrow's way to a card with this left edge.
fn points(way: &Way, x: u32) -> Vec<(u32, u32)> {
    let (from, port) = (way.exit.from, way.port);
    if way.is_level() {
        return vec![from, (x, port)];
    }
    let track = RIGHT + 16 + TRACK * way.track as u32;
    vec![from, (track, from.1), (track, port), (x, port)]
}

/// So many frames from one on.
fn each((first, count): (u32, u32)) -> std::ops::Range<u32> {
    first..first + count
}

/// The frames of slots that have no row: the first of each run, and how many.
fn hidden(families: &[Family]) -> impl Iterator<Item = (u32, u32)> + '_ {
    let hidden = families.iter().flat_map(|family| &family.tables).flat_map(|table| &table.hidden);
    let told = families.iter().flat_map(|family| &family.told).flat_map(Table::slots);
    hidden.chain(told).filter_map(|slot| match slot.target {
        Target::Insecure(frame) => Some((frame, slot.count)),
        _ => None,
    })
}
