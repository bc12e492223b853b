//! What the cards of pages say.

use super::numbers::frames;
use crate::fold::{lines, parts, plain, range, ranges, Numbered};
use crate::picture::{details, kind};
use monitor::{Ledger, Page};

/// The class and the lines of a page's card.
pub fn words<W: AsRef<[u32]>>(ledger: &Ledger<W>, number: u32) -> (String, Vec<String>) {
    let Some(page) = ledger.page(number) else {
        return ("page disorder".into(), vec![format!("{number} ?")]);
    };
    let runs = ledger.running() == Some(number);
    let name = kind(&page).0;
    let [whose, what, more] = details(&page, runs);
    let state = match page {
        Page::Thread(_) if runs => " runs",
        Page::Thread(thread) if thread.suspended => " suspended",
        _ => "",
    };
    let lines = match page {
        Page::Space(_) => vec![format!("{number} {name}"), whose, what, more],
        _ => {
            let rest = [what, more].into_iter().filter(|part| !part.is_empty());
            let rest = rest.collect::<Vec<_>>().join(", ");
            vec![format!("{number} {name} {whose}").trim_end().to_string(), rest]
        }
    };
    let lines = lines.into_iter().filter(|line| !line.is_empty()).collect();
    (format!("page {name}{state}"), lines)
}

/// What a page is, without its number; none where there is no such page.
pub fn what<W: AsRef<[u32]>>(ledger: &Ledger<W>, number: u32) -> Option<String> {
    let line = words(ledger, number).1.swap_remove(0);
    let (_, what) = line.split_once(' ')?;
    (number < ledger.page_count()).then(|| what.to_string())
}

/// The class and the first line of a card for a run of pages that are alike.
pub fn words_of<W: AsRef<[u32]>>(ledger: &Ledger<W>, run: (u32, u32)) -> (String, Vec<String>) {
    let (class, alone) = words(ledger, run.0);
    match run.1 {
        1 => (class, alone),
        _ => {
            let what = what(ledger, run.0).unwrap_or_default();
            (class.replacen("page", "pages", 1), vec![format!("{} {what}", range(run))])
        }
    }
}

/// The lines of a card for several data pages of one owner, in the order of their
/// addresses: which they are, how many, and in which frames.
pub fn data_words(what: &str, pages: &[u32], secure: u32, columns: usize) -> Vec<String> {
    let (ranges, count) = (ranges(pages), pages.len());
    if let [(first, _)] = ranges[..] {
        let frames = frames(secure.saturating_add(first), count as u32);
        return vec![format!("{} {what}", range(ranges[0])), format!("{count} pages"), frames];
    }
    let pieces = plain("", "", pages).pieces;
    let lines = lines(&pieces, columns).into_iter().map(|line| line.join(" "));
    [format!("{what}, {count} pages:")].into_iter().chain(lines).collect()
}

/// Pages of one owner in lines, a paragraph for each type.
pub fn listed(pages: &[Numbered], running: Option<u32>, columns: usize) -> Vec<String> {
    let mut found = Vec::new();
    for part in parts(pages, running) {
        let label = match part.count {
            1 => format!("{}:", part.kind),
            count => format!("{}, {count} pages:", part.kind),
        };
        let pieces = [label].into_iter().chain(part.pieces);
        let words: Vec<String> = pieces
            .flat_map(|piece| piece.split(' ').map(String::from).collect::<Vec<_>>())
            .collect();
        found.extend(lines(&words, columns).into_iter().map(|line| line.join(" ")));
    }
    found
}
