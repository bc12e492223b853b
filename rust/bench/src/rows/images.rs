//! Saved images, whole.

use super::Row;
use crate::boxes::{full, Lent};
use crate::images::{Loading, Saving, READERS, WRITERS};
use crate::meter::Meter;
use second::cases::BOX_A;
use second::layout::MOST_PAGES;

/// The boxes, by what their rows say.
pub fn boxes() -> [(String, Lent); 3] {
    let larger = |pages| (format!("full box, n = {pages}"), full(pages));
    [("image of box A".into(), full(BOX_A.pages)), larger(256), larger(MOST_PAGES)]
}

/// The names of the two rows of one.
pub fn names(name: &str) -> [String; 2] {
    ["written", "read"].map(|how| format!("{name}, {how}"))
}

/// The rows of one: its image written, and read.
pub fn rows(meter: &Meter, name: &str, lent: &Lent) -> [Row; 2] {
    let [mut ours, mut plain] = WRITERS.map(|write| Saving::new(lent, write));
    let written = meter.measure(&mut [&mut ours, &mut plain]);
    assert!(ours.image() == plain.image(), "both sides write the same");
    let image = ours.image();
    let [mut ours, mut plain] = READERS.map(|read| Loading::new(image, lent, read));
    let read = meter.measure(&mut [&mut ours, &mut plain]);
    assert!(ours.left() == plain.left(), "both sides read the same");
    let [of_written, of_read] = names(name);
    [(of_written, written), (of_read, read)].map(|(name, costs)| {
        let [ours, plain] = [costs[0], costs[1]];
        Row { name, ours, plain, folded: None, paper: "" }
    })
}
