//! Which pages a picture shows.

/// The pages of one number or range, as `7-9`.
fn range(words: &str) -> Option<std::ops::RangeInclusive<u32>> {
    let (first, last) = words.split_once('-').unwrap_or((words, words));
    Some(first.parse().ok()?..=last.parse().ok()?)
}

/// The pages that words name: lists of numbers and ranges, each at the start, after
/// a colon or after a semicolon.
pub fn named(words: &str) -> Vec<u32> {
    let (mut pages, mut listing) = (Vec::new(), true);
    for word in words.split_whitespace() {
        match range(word.trim_end_matches([',', ';'])) {
            Some(range) if listing => pages.extend(range),
            _ => listing = false,
        }
        listing |= word.ends_with([';', ':']);
    }
    pages
}

/// The pages that the cards of a drawn state show, one by one or folded.
pub fn on_cards(drawn: &str) -> Vec<u32> {
    let mut pages = Vec::new();
    for card in drawn.split("<g class=\"page").skip(1) {
        let (card, _) = card.split_once("</g>").expect("an end");
        let texts = card.lines().filter(|line| line.starts_with("<text"));
        let words: Vec<&str> = texts.map(|line| line.split(['>', '<']).nth(2).unwrap()).collect();
        pages.extend(named(&words.join(" ")));
    }
    pages
}

/// Each page of a box of so many is among these once.
pub fn each_once(mut pages: Vec<u32>, count: u32) {
    pages.sort_unstable();
    let all: Vec<u32> = (0..count).collect();
    assert_eq!(pages, all);
}
