//! The picture of a large box: a paragraph for each space, in it a line for each
//! type, with runs of pages as ranges.

use super::{lines, parts, parts_of_any, plain, Owners, Part, ORDER};
use crate::picture::{details, kind};
use crate::COLUMNS;
use monitor::{Ledger, Page};

/// Columns of what stands before the pages.
const LABEL: usize = 11;

/// The picture but for its last line.
pub(crate) fn folded(ledger: &Ledger, colour: bool) -> String {
    let (owners, running, brush) = (Owners::of(ledger), ledger.running(), Brush(colour));
    let mut text = String::new();
    for (number, space, pages) in &owners.spaces {
        let space = Page::Space(*space);
        let (name, colour) = kind(&space);
        let said = vec![details(&space, false).join(", ")];
        text += &brush.lines("", &format!("{number} {name}"), colour, &said);
        text +=
            &parts(pages, running).iter().map(|part| brush.part("  ", part)).collect::<String>();
    }
    if !owners.lost.is_empty() {
        text += "of no space\n";
        let lost = parts_of_any(&owners.lost, running);
        text += &lost.iter().map(|part| brush.part("  ", part)).collect::<String>();
    }
    for part in [plain("?", "7", &owners.unknown), plain("free", kind(&Page::Free).1, &owners.free)]
    {
        text += &brush.part("", &part);
    }
    text + &brush.lines("", "all", "1", &totals(ledger))
}

/// How many pages there are of each type.
fn totals(ledger: &Ledger) -> Vec<String> {
    let all = ledger.pages().map(|page| page.map_or("?", |page| kind(&page).0));
    let all: Vec<&str> = all.collect();
    let mut pieces = Vec::new();
    for name in ORDER.into_iter().chain(["?"]) {
        let count = all.iter().filter(|kind| **kind == name).count();
        pieces.extend((count > 0).then(|| format!("{count} {name},")));
    }
    pieces.last_mut().map(String::pop);
    pieces.insert(0, format!("{} pages:", all.len()));
    pieces
}

/// Paints, or does not.
struct Brush(bool);

impl Brush {
    fn paint(&self, colour: &str, text: &str) -> String {
        match self.0 && !text.is_empty() {
            true => format!("\x1b[{colour}m{text}\x1b[0m"),
            false => text.into(),
        }
    }

    /// The pages of a type, how many they are, and which; nothing of none.
    fn part(&self, indent: &str, part: &Part) -> String {
        let count = (part.count > 1).then(|| format!("{} pages:", part.count));
        let pieces: Vec<String> = count.into_iter().chain(part.pieces.iter().cloned()).collect();
        self.lines(indent, part.kind, part.colour, &pieces)
    }

    /// A label and pieces, in lines that fit.
    fn lines(&self, indent: &str, label: &str, colour: &str, pieces: &[String]) -> String {
        let (mut text, mut label) = (String::new(), label);
        for line in lines(pieces, COLUMNS - LABEL) {
            let blank = " ".repeat(LABEL - indent.len() - label.len());
            let shown = line.into_iter().map(|piece| match piece.contains("running") {
                true => self.paint("7", piece),
                false => piece.into(),
            });
            let shown = shown.collect::<Vec<_>>().join(" ");
            text += &format!("{indent}{}{blank}{shown}\n", self.paint(colour, label));
            label = "";
        }
        text
    }
}
