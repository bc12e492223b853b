//! The title, the legend, and what stands over the columns.

use super::layout::{HEADINGS, LEFT};
use super::numbers::{frames, grouped, span, words_width};
use super::scene::Scene;
use super::sheet::{Area, Sheet};
use crate::picture::header;

/// What the colours mean.
const COLOURS: [(&str, &str); 9] = [
    ("space", "space"),
    ("first", "first-level table"),
    ("table", "second-level table"),
    ("data", "data page"),
    ("thread", "thread"),
    ("spare", "spare page"),
    ("free", "free page"),
    ("insecure", "insecure frame"),
    ("monitor", "monitor's frame"),
];
/// What the borders mean, and the sheet of a stopped space.
const BORDERS: [(&str, &str); 4] = [
    ("thread runs", "runs"),
    ("thread suspended", "suspended"),
    ("ghost", "named, and not a page of the space's own"),
    ("stopped", "the sheet of a stopped space"),
];
/// What the arrows mean.
const ARROWS: [(&str, &str); 2] = [
    ("arrow", "names: over it the index, or the address and rights; a colour for each space"),
    ("arrow astray", "names what is not the space's own, as a stopped space's table still may"),
];

/// The height of a line of headings.
pub const HEADING: u32 = 26;
/// From one line of the legend to the next.
const LINE: u32 = 26;

/// The box in a line.
pub fn title(scene: &Scene) -> String {
    let m = scene.machine;
    format!(
        "{} frames; secure {}: {}; the monitor's: {}",
        grouped(m.frames as usize),
        span("page", 0, m.pages),
        frames(m.secure, m.pages),
        frames(m.monitor, m.monitors),
    )
}

/// Title and legend; how high and how wide they are.
pub fn draw(sheet: &mut Sheet, title: &str, scene: &Scene) -> (u32, u32) {
    sheet.words("title", LEFT, 32, title);
    let folded = if scene.folded { "; like pages in a row share a card" } else { "" };
    sheet.words("", LEFT, 54, &format!("{}{folded}", header(&scene.ledger).trim_end()));
    let patch = |sheet: &mut Sheet, class: &str, x, y| {
        sheet.card(&format!("sample {class}"), Area { x, y, w: 22, h: 16 }, &[]);
        22
    };
    let arrow = |sheet: &mut Sheet, class: &str, x, y| {
        sheet.arrow(&format!("sample {class}"), 0, &[(x, y + 8), (x + 30, y + 8)]);
        30
    };
    let ends = [
        line(sheet, &COLOURS, 70, patch),
        line(sheet, &BORDERS, 70 + LINE, patch),
        line(sheet, &ARROWS, 70 + 2 * LINE, arrow),
    ];
    (80 + 3 * LINE, ends.into_iter().max().unwrap_or(0))
}

/// A line of the legend: samples, each with its words; where it ends. The
/// sample's width is what draws it.
fn line(
    sheet: &mut Sheet,
    samples: &[(&str, &str)],
    y: u32,
    sample: impl Fn(&mut Sheet, &str, u32, u32) -> u32,
) -> u32 {
    let mut x = LEFT;
    for (class, words) in samples {
        x += sample(sheet, class, x, y) + 8;
        sheet.words("", x, y + 12, words);
        x += words_width(words) + 14;
    }
    x
}

/// The words over the columns of spaces; where the panels may start.
pub fn headings(sheet: &mut Sheet, y: u32) -> u32 {
    for (x, words) in HEADINGS {
        sheet.words("head", x, y + 16, words);
    }
    y + HEADING
}
