//! What stands under the spaces' blocks: spaces for which there was no room, free
//! pages, pages that belong to none, and the monitor's frames.

use super::family::Family;
use super::layout::{GAP, LEFT, PAD, RIGHT};
use super::numbers::{columns, frames};
use super::scene::Scene;
use super::sheet::{card_height, Area, Sheet, CARD};
use super::words::{listed, what, words, words_of};
use monitor::{Machine, Page, State};

/// Free pages, the monitor's frames, and what belongs to no space, from this
/// height on; where they end.
pub fn draw(sheet: &mut Sheet, scene: &Scene, top: u32) -> u32 {
    let free = scene.pages(|page| *page == Page::Free);
    let lost: Vec<u32> =
        (0..scene.ledger.page_count()).filter(|page| is_lost(scene, *page)).collect();
    let title = format!("Free pages: {}", free.len());
    let in_row = if scene.folded { 7 } else { 10 };
    let mut y = cards(sheet, &title, pages(scene, &free), in_row, top);
    if !lost.is_empty() {
        let title = "Pages that belong to no space, or whose record is out of order";
        y = cards(sheet, title, pages(scene, &lost), 4, y + GAP);
    }
    let Machine { monitor, monitors, .. } = scene.machine;
    let frames = vec![("monitor".into(), vec![frames(monitor, monitors)])];
    cards(sheet, &format!("The monitor's frames: {monitors}"), frames, 5, y + GAP)
}

/// What the cards of these pages say; on a large box one for each run.
fn pages(scene: &Scene, pages: &[u32]) -> Vec<(String, Vec<String>)> {
    let mut runs: Vec<(u32, u32)> = Vec::new();
    for page in pages {
        match runs.last_mut() {
            Some((first, count)) if scene.folded && goes_on(scene, (*first, *count), *page) => {
                *count += 1;
            }
            _ => runs.push((*page, 1)),
        }
    }
    runs.into_iter().map(|run| words_of(&scene.ledger, run)).collect()
}

/// Whether a page is next after a run and like it. A thread stands alone.
fn goes_on(scene: &Scene, (first, count): (u32, u32), page: u32) -> bool {
    let alone = matches!(scene.ledger.page(page), Some(Page::Thread(_)));
    first + count == page && !alone && what(&scene.ledger, first) == what(&scene.ledger, page)
}

/// The spaces for which there is no room, each on a card in words; where they
/// end.
pub fn spaces(sheet: &mut Sheet, scene: &Scene, spaces: &[Family], top: u32) -> u32 {
    const IN_ROW: usize = 3;
    const EACH: u32 = (RIGHT - LEFT - 2 * PAD + GAP) / IN_ROW as u32;
    if spaces.is_empty() {
        return top;
    }
    sheet.words(
        "head",
        LEFT + PAD,
        top + 20,
        &format!("Further spaces, in words: {}", spaces.len()),
    );
    let mut y = top + 32;
    for row in spaces.chunks(IN_ROW) {
        let said: Vec<_> = row.iter().map(|family| in_words(scene, family, EACH - GAP)).collect();
        let most = said.iter().map(|(_, lines)| lines.len()).max().unwrap_or(0);
        for (place, (class, lines)) in (0..).zip(said) {
            let h = card_height(most);
            let area = Area { x: LEFT + PAD + EACH * place, y, w: EACH - GAP, h };
            sheet.card(&class, area, &lines);
        }
        y += card_height(most) + GAP;
    }
    sheet.panel("panel", Area { x: LEFT, y: top, w: RIGHT - LEFT, h: y - top });
    y + GAP
}

/// A space with all its pages in words.
fn in_words(scene: &Scene, family: &Family, width: u32) -> (String, Vec<String>) {
    let number = family.number;
    let (_, space) = words(&scene.ledger, number);
    let own = scene.pages(|page| page.owner() == Some(number) && !matches!(page, Page::Space(_)));
    let running = scene.ledger.running();
    let runs = running.is_some_and(|running| own.contains(&running));
    let class = match (runs, family.space.state) {
        (true, _) => "pages space runs",
        (_, State::Stopped) => "pages stopped",
        _ => "pages space",
    };
    let mut lines = vec![space[0].clone(), space[1..].join(", ")];
    lines.extend(listed(&scene.numbered(&own), running, columns(width)));
    (class.into(), lines)
}

/// Whether a page is in no block and not free.
fn is_lost(scene: &Scene, page: u32) -> bool {
    match scene.ledger.page(page) {
        None => true,
        Some(Page::Free | Page::Space(_)) => false,
        Some(page) => !page.owner().is_some_and(|owner| scene.is_space(owner)),
    }
}

/// A panel of cards with a title, so many in a row; where it ends.
fn cards(
    sheet: &mut Sheet,
    title: &str,
    cards: Vec<(String, Vec<String>)>,
    in_row: u32,
    top: u32,
) -> u32 {
    let each = (RIGHT - LEFT - 2 * PAD + GAP) / in_row;
    sheet.words("head", LEFT + PAD, top + 20, title);
    let mut y = top + 32;
    for row in cards.chunks(in_row as usize) {
        for (place, (class, lines)) in (0..).zip(row) {
            let area = Area { x: LEFT + PAD + each * place, y, w: each - GAP, h: CARD };
            sheet.card(class, area, &lines[..1]);
        }
        y += CARD + GAP;
    }
    sheet.panel("panel", Area { x: LEFT, y: top, w: RIGHT - LEFT, h: y - top });
    y
}
