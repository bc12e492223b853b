//! The pages of a large box, folded: those of one owner and one type are told
//! together, as runs and ranges.

mod runs;
pub(crate) mod text;

use crate::picture::kind;
use monitor::{Ledger, Page, Space};
use runs::{runs, Run};
use std::collections::BTreeMap;

/// Pages of a box that are shown one by one, at most: eight rows of eight cells.
const MOST_ALONE: u32 = 64;
/// The types in the order in which they are told.
const ORDER: [&str; 7] = ["space", "first", "table", "thread", "data", "spare", "free"];

/// A page and its number.
pub(crate) type Numbered = (u32, Page);

/// The pages of a ledger by their owners.
#[derive(Default)]
pub(crate) struct Owners {
    /// The spaces in order, each with the other pages that are its own.
    pub spaces: Vec<(u32, Space, Vec<Numbered>)>,
    /// Pages whose owner is no space.
    pub lost: Vec<Numbered>,
    /// Pages whose record is out of order.
    pub unknown: Vec<u32>,
    pub free: Vec<u32>,
}

/// Pages of one type in few words.
pub(crate) struct Part {
    pub kind: &'static str,
    pub colour: &'static str,
    pub count: usize,
    /// Pages and ranges, and after the last of each run what is said of it. Lines
    /// may break between them.
    pub pieces: Vec<String>,
}

/// Whether a box has so many pages that they are folded. It hangs on the box
/// alone, so that the pictures of one plan have one form.
pub(crate) fn folds<W: AsRef<[u32]>>(ledger: &Ledger<W>) -> bool {
    ledger.page_count() > MOST_ALONE
}

impl Owners {
    pub(crate) fn of<W: AsRef<[u32]>>(ledger: &Ledger<W>) -> Owners {
        let (mut owners, mut owned) = (Owners::default(), BTreeMap::<u32, Vec<Numbered>>::new());
        for (number, page) in (0..).zip(ledger.pages()) {
            match page {
                None => owners.unknown.push(number),
                Some(Page::Free) => owners.free.push(number),
                Some(Page::Space(space)) => owners.spaces.push((number, space, Vec::new())),
                Some(page) => {
                    owned.entry(page.owner().unwrap_or(number)).or_default().push((number, page));
                }
            }
        }
        for (number, _, pages) in &mut owners.spaces {
            *pages = owned.remove(number).unwrap_or_default();
        }
        owners.lost = owned.into_values().flatten().collect();
        owners
    }
}

/// The pages of one owner by type. The thread that runs is said to.
pub(crate) fn parts(pages: &[Numbered], running: Option<u32>) -> Vec<Part> {
    by_type(pages, |run| run.what(running))
}

/// Pages of any owners by type, with the owner of each run.
pub(crate) fn parts_of_any(pages: &[Numbered], running: Option<u32>) -> Vec<Part> {
    by_type(pages, |run| {
        let owner = run.first.owner().map(|owner| format!("of {owner}"));
        let what = Some(run.what(running)).filter(|what| !what.is_empty());
        owner.into_iter().chain(what).collect::<Vec<_>>().join(" ")
    })
}

/// Pages of which nothing is said but their number.
pub(crate) fn plain(kind: &'static str, colour: &'static str, pages: &[u32]) -> Part {
    let mut pieces = Vec::new();
    tell(&mut pieces, pages, "");
    end(&mut pieces);
    Part { kind, colour, count: pages.len(), pieces }
}

fn by_type(pages: &[Numbered], what: impl Fn(&Run) -> String) -> Vec<Part> {
    let mut found = Vec::new();
    for name in ORDER {
        let like = pages.iter().filter(|(_, page)| kind(page).0 == name);
        let like: Vec<&Numbered> = like.collect();
        let Some((_, one)) = like.first() else { continue };
        let (kind, colour) = kind(one);
        let count = like.len();
        let mut pieces = Vec::new();
        for run in runs(like) {
            tell(&mut pieces, &run.pages, &what(&run));
        }
        end(&mut pieces);
        found.push(Part { kind, colour, count, pieces });
    }
    found
}

/// The pieces of a run: its ranges, the last with what is said of it.
fn tell(pieces: &mut Vec<String>, pages: &[u32], what: &str) {
    let ranges = ranges(pages);
    for (place, found) in (1..).zip(&ranges) {
        pieces.push(match (place == ranges.len(), what) {
            (false, _) => format!("{},", range(*found)),
            (true, "") => format!("{};", range(*found)),
            (true, what) => format!("{} {what};", range(*found)),
        });
    }
}

/// No sign after the last.
fn end(pieces: &mut [String]) {
    pieces.last_mut().map(String::pop);
}

/// Numbers as ranges: the first of each, and how many.
pub(crate) fn ranges(numbers: &[u32]) -> Vec<(u32, u32)> {
    let mut found: Vec<(u32, u32)> = Vec::new();
    for number in numbers {
        match found.last_mut() {
            Some((first, count)) if *first + *count == *number => *count += 1,
            _ => found.push((*number, 1)),
        }
    }
    found
}

/// A range in words, as `7-9` or `7`.
pub(crate) fn range((first, count): (u32, u32)) -> String {
    match count {
        1 => first.to_string(),
        _ => format!("{first}-{}", first + count - 1),
    }
}

/// Pieces in lines of at most so many columns; a longer piece has its own.
pub(crate) fn lines(pieces: &[String], columns: usize) -> Vec<Vec<&str>> {
    let (mut lines, mut used) = (Vec::<Vec<&str>>::new(), 0);
    for piece in pieces {
        match lines.last_mut() {
            Some(line) if used + 1 + piece.len() <= columns => {
                line.push(piece);
                used += 1 + piece.len();
            }
            _ => {
                lines.push(vec![piece]);
                used = piece.len();
            }
        }
    }
    lines
}
