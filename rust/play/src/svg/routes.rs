//! The ways of arrows to insecure frames. Each meets its frame's card at a place
//! of its own, by an upright line of its own; where there is no room for more,
//! the rest are told.

use super::layout::{GAP, MID};
use std::collections::{BTreeMap, BTreeSet};

/// Arrows to one card, at most.
const MOST_PORTS: usize = 12;
/// Upright lines side by side, at most.
const MOST_TRACKS: usize = 36;
/// From one arrow at a card to the next; a head is 8 high.
const PITCH: u32 = 10;
/// How near level lines come to each other, at most.
const CLEAR: u32 = 5;
/// Between two arrows that have to share an upright line.
const BETWEEN: u32 = 40;

/// An arrow that leaves a block for an insecure frame.
#[derive(Clone, Copy)]
pub struct Exit {
    pub frame: u32,
    /// How many frames from it on.
    pub count: u32,
    pub from: (u32, u32),
    pub ink: usize,
}

/// The card of a frame to which arrows lead.
pub struct Card {
    pub frame: u32,
    pub count: u32,
    pub top: u32,
    pub height: u32,
    /// Arrows that are told.
    pub more: usize,
}

/// An arrow that is drawn.
pub struct Way {
    pub exit: Exit,
    /// The height at which it meets the card.
    pub port: u32,
    /// Its upright line, unless it is level.
    pub track: usize,
}

/// All arrows and the cards at their ends.
#[derive(Default)]
pub struct Routes {
    pub cards: Vec<Card>,
    pub ways: Vec<Way>,
    /// The arrows for which there is no room.
    pub told: Vec<Exit>,
    /// Upright lines that are used.
    pub tracks: usize,
}

impl Way {
    /// Whether it leads straight to its card.
    pub fn is_level(&self) -> bool {
        self.port == self.exit.from.1
    }

    /// Arrows that rise from the top down, then those that fall from the bottom
    /// up: so the arrows of one frame do not cross.
    fn turn(&self) -> (bool, u32) {
        let y = self.exit.from.1;
        match self.port > y {
            true => (true, u32::MAX - y),
            false => (false, y),
        }
    }
}

impl Routes {
    /// The ways of these arrows, which are given from the top down.
    pub fn new(exits: &[Exit]) -> Routes {
        let levels = exits.iter().map(|exit| exit.from.1).collect();
        let mut routes = Routes::default();
        for exits in by_frame(exits) {
            routes.place(&exits, &levels);
        }
        routes.take_tracks();
        routes.trim();
        routes
    }

    /// A card stands beside its first arrow where there is room, and is as high
    /// as its arrows ask.
    fn place(&mut self, exits: &[Exit], levels: &BTreeSet<u32>) {
        let under = self.cards.last().map_or(0, |card| card.top + card.height + GAP / 2);
        let (drawn, told) = exits.split_at(exits.len().min(MOST_PORTS));
        let Exit { frame, count, from: (_, first), .. } = drawn[0];
        let top = under.max(first - MID);
        let mut port = if top + MID == first { first } else { clear(top + MID, levels) };
        let mut height = 0;
        for exit in drawn {
            self.ways.push(Way { exit: *exit, port, track: 0 });
            height = port + MID - top;
            port = clear(port + PITCH, levels);
        }
        self.cards.push(Card { frame, count, top, height, more: told.len() });
        self.told.extend(told);
    }

    /// Gives each arrow that is not level its upright line.
    fn take_tracks(&mut self) {
        let mut ways = std::mem::take(&mut self.ways);
        ways.sort_by_key(Way::turn);
        let mut tracks = vec![Vec::new(); MOST_TRACKS];
        for mut way in ways {
            let track = if way.is_level() { Some(0) } else { take_track(&mut tracks, &way) };
            match track {
                None => self.tell(way.exit),
                Some(track) => {
                    way.track = track;
                    self.ways.push(way);
                }
            }
        }
        self.tracks = tracks.iter().filter(|used| !used.is_empty()).count();
    }

    /// A card ends under the last arrow that is drawn; without any there is none.
    fn trim(&mut self) {
        let mut last = BTreeMap::new();
        for Way { exit, port, .. } in &self.ways {
            let lowest: &mut u32 = last.entry(exit.frame).or_default();
            *lowest = (*lowest).max(*port);
        }
        self.cards.retain(|card| last.contains_key(&card.frame));
        for card in &mut self.cards {
            card.height = last[&card.frame] + MID - card.top;
        }
    }

    /// Counts an arrow at its frame's card in the place of drawing it.
    fn tell(&mut self, exit: Exit) {
        let cards = self.cards.iter_mut().filter(|card| card.frame == exit.frame);
        cards.for_each(|card| card.more += 1);
        self.told.push(exit);
    }
}

/// The arrows of each frame, the frames in the order of their first.
fn by_frame(exits: &[Exit]) -> Vec<Vec<Exit>> {
    let (mut places, mut found) = (BTreeMap::new(), Vec::<Vec<Exit>>::new());
    for exit in exits {
        let place = *places.entry(exit.frame).or_insert(found.len());
        if place == found.len() {
            found.push(Vec::new());
        }
        found[place].push(*exit);
    }
    found
}

/// The first height from this on that is clear of these.
fn clear(mut y: u32, levels: &BTreeSet<u32>) -> u32 {
    while let Some(level) = levels.range(y.saturating_sub(CLEAR)..=y + CLEAR).next_back() {
        y = level + CLEAR + 1;
    }
    y
}

/// An upright line for an arrow: its own as long as there are any, then one that
/// is free between its two heights.
fn take_track(tracks: &mut [Vec<(u32, u32)>], way: &Way) -> Option<usize> {
    let (a, b) = (way.port, way.exit.from.1);
    let (upper, lower) = (a.min(b), a.max(b));
    let apart = |used: &(u32, u32)| used.1 + BETWEEN <= upper || lower + BETWEEN <= used.0;
    let own = tracks.iter().position(Vec::is_empty);
    let track = own.or_else(|| tracks.iter().position(|used| used.iter().all(apart)))?;
    tracks[track].push((upper, lower));
    Some(track)
}
