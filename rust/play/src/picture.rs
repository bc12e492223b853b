//! A picture of the ledger: a cell for each page, by its type and its owner. That
//! of a large box is folded: a line for all pages of a type that one space owns.

use crate::{fold, COLUMNS};
use monitor::{Ledger, Page, State};

/// Pages in a row of the picture, at most.
const ROW: usize = 8;
/// Letters in a line of a cell, at least.
const WIDTH: usize = 9;

/// What a cell says, line by line, and its colour.
struct Cell {
    lines: [String; 4],
    colour: &'static str,
}

/// The picture, in colour or plain.
pub fn picture(ledger: &Ledger, colour: bool) -> String {
    let shown = match fold::folds(ledger) {
        true => fold::text::folded(ledger, colour),
        false => cells(ledger, colour),
    };
    shown + &header(ledger)
}

/// A cell for each page, in rows.
fn cells(ledger: &Ledger, colour: bool) -> String {
    let cells: Vec<Cell> = (0..ledger.page_count()).map(|page| cell(ledger, page)).collect();
    let longest = cells.iter().flat_map(|cell| &cell.lines).map(String::len).max();
    let width = longest.unwrap_or(0).max(WIDTH);
    let mut text = String::new();
    for row in cells.chunks(row_of(width)) {
        let used = row.iter().flat_map(|cell| (0..4).filter(|line| !cell.lines[*line].is_empty()));
        for line in 0..=used.max().unwrap_or(0) {
            let shown: Vec<String> =
                row.iter().map(|cell| cell.line(line, width, colour)).collect();
            text += shown.join("|").trim_end();
            text += "\n";
        }
    }
    text
}

/// How many cells of this width stand in a row, with a bar between two.
fn row_of(width: usize) -> usize {
    ((COLUMNS + 1) / (width + 1)).clamp(1, ROW)
}

impl Cell {
    fn line(&self, line: usize, width: usize, colour: bool) -> String {
        let text = &self.lines[line];
        match colour {
            true => format!("\x1b[{}m{text:width$}\x1b[0m", self.colour),
            false => format!("{text:width$}"),
        }
    }
}

/// What the header says, in a line.
pub(crate) fn header<W: AsRef<[u32]>>(ledger: &Ledger<W>) -> String {
    let free = (0..ledger.page_count()).filter(|page| ledger.is_free(*page)).count();
    let running = ledger.running().map_or("nothing".into(), |page| format!("thread {page}"));
    format!("free pages: {free}; running: {running}\n")
}

fn cell(ledger: &Ledger, number: u32) -> Cell {
    let running = ledger.running() == Some(number);
    let Some(page) = ledger.page(number) else {
        let lines = [format!("{number} ?"), String::new(), String::new(), String::new()];
        return Cell { lines, colour: "7" };
    };
    let (kind, colour) = kind(&page);
    let [whose, what, more] = details(&page, running);
    let colour = if running { "7" } else { colour };
    Cell { lines: [format!("{number} {kind}"), whose, what, more], colour }
}

/// The type in a word, and its colour.
pub(crate) fn kind(page: &Page) -> (&'static str, &'static str) {
    match page {
        Page::Free => ("free", "2"),
        Page::Space(_) => ("space", "1;37;44"),
        Page::Thread(_) => ("thread", "30;45"),
        Page::FirstTable { .. } => ("first", "30;46"),
        Page::Table { .. } => ("table", "30;42"),
        Page::Data { .. } => ("data", "30;43"),
        Page::Spare { .. } => ("spare", "30;47"),
    }
}

/// Whose it is, then what its type says of it.
pub(crate) fn details(page: &Page, running: bool) -> [String; 3] {
    let whose = page.owner().map_or(String::new(), |owner| format!("of {owner}"));
    match page {
        Page::Space(space) => {
            let state = match space.state {
                State::Building => "building",
                State::Final => "final",
                State::Stopped => "stopped",
            };
            [state.into(), format!("owns {}", space.owned), format!("{} blocks", space.blocks)]
        }
        Page::Thread(thread) => {
            let now = if running { "running" } else { "" };
            let now = if thread.suspended { "suspended" } else { now };
            [whose, format!("at {}", thread.entry), now.into()]
        }
        Page::Table { index, .. } => [whose, format!("index {index}"), String::new()],
        Page::Data { map, .. } => [whose, map.to_string(), String::new()],
        Page::Free | Page::FirstTable { .. } | Page::Spare { .. } => {
            [whose, String::new(), String::new()]
        }
    }
}
