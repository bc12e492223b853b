//! Insecure frames that several spaces name: each link is drawn as an arrow of
//! its own, or told where there is no room for more.

mod boxes;
mod drawn;

use boxes::played;
use drawn::marks::nothing_overlaps;
use drawn::{count, number, says, well_formed, Numbers};
use monitor::Machine;
use play::svg;

const BOX: Machine = Machine { frames: 128, secure: 6, pages: 80, monitor: 0, monitors: 2 };

/// So many spaces, each of which names all these frames.
fn shared(spaces: u32, frames: &[u32]) -> String {
    drawn_of(spaces, |_| frames.to_vec())
}

/// So many spaces, each of which names the frames that are given for it.
fn drawn_of(spaces: u32, frames: impl Fn(u32) -> Vec<u32>) -> String {
    let mut calls = String::new();
    for place in 0..spaces {
        let space = 3 * place;
        calls += &format!("2 {space} {}; 4 {space} {} {place};", space + 1, space + 2);
        for (slot, frame) in (0..).zip(frames(place)) {
            // No two slots in a row have the same rights: else they share an arrow.
            let map = (place << 22) + (slot << 12) + 1 + slot % 2 * 2;
            calls += &format!("7 {space} {map} {frame};");
        }
    }
    let drawn = svg::svg(&played(BOX, &calls));
    well_formed(&drawn);
    nothing_overlaps(&drawn);
    assert_eq!(count(&drawn, "panel block"), spaces as usize);
    assert_eq!(count(&drawn, "told insecure"), count(&drawn, "arrow told"));
    drawn
}

/// What the cards of frames say of arrows that are not drawn to them.
fn told(drawn: &str) -> usize {
    let after = drawn.split("<g class=\"frame insecure\">").skip(1);
    let words = after.filter_map(|card| card.split_once("</g>\n")?.1.lines().next());
    let more = words.filter_map(|line| line.split(">and ").nth(1)?.split(' ').next());
    more.map(|digits| digits.parse::<usize>().expect("a number")).sum()
}

#[test]
fn every_space_has_its_arrow() {
    for spaces in [1, 2, 3, 5, 12] {
        let drawn = shared(spaces, &[4]);
        assert_eq!((count(&drawn, "arrow out"), told(&drawn)), (spaces as usize, 0));
        assert_eq!((count(&drawn, "frame insecure"), count(&drawn, "arrow told")), (1, 0));
    }
}

/// The card is as high as its arrows ask: a head is 8 high.
#[test]
fn a_card_grows_with_its_arrows() {
    for spaces in [1, 3, 12] {
        let drawn = shared(spaces, &[4]);
        let card = drawn.split("<g class=\"frame insecure\">\n").nth(1).expect("a card");
        assert!(number(card, "height") >= f64::from(14 + 8 * spaces), "{spaces}");
    }
}

/// Of twenty arrows to one frame twelve are drawn; the others name it beside
/// their slots.
#[test]
fn more_arrows_than_a_card_takes() {
    let drawn = shared(20, &[4]);
    assert_eq!((count(&drawn, "arrow out"), count(&drawn, "arrow told")), (12, 8));
    assert!(says(&drawn, "and 8 more") && told(&drawn) == 8);
    assert_eq!(drawn.matches(">frame 4<").count(), 9);
}

#[test]
fn several_frames_at_once() {
    for (spaces, frames) in [(3, &[4, 5][..]), (5, &[4, 5, 90]), (12, &[4, 5, 90])] {
        let (drawn, links) = (shared(spaces, frames), spaces as usize * frames.len());
        assert_eq!((count(&drawn, "arrow out"), told(&drawn)), (links, 0));
        assert_eq!(count(&drawn, "frame insecure"), frames.len());
    }
}

/// Where the upright lines run out the rest is told, and counted at its frame.
#[test]
fn more_arrows_than_there_are_lines() {
    let frames: Vec<u32> = (90..98).collect();
    let drawn = shared(12, &frames);
    let (out, more) = (count(&drawn, "arrow out"), count(&drawn, "arrow told"));
    assert_eq!(out + more, 12 * 8);
    assert!(out > 40 && more > 0, "{out} and {more}");
    assert_eq!((count(&drawn, "frame insecure"), told(&drawn)), (8, more));
}

/// A frame whose arrows are all told is among those without an arrow.
#[test]
fn a_frame_without_an_arrow() {
    let own = |place| 97 + place;
    let drawn = drawn_of(26, |place| (86..97).chain([own(place)]).collect());
    assert_eq!(count(&drawn, "arrow out") + count(&drawn, "arrow told"), 26 * 12);
    let cards = count(&drawn, "frame insecure");
    assert!(says(&drawn, "named, no arrow drawn:") && cards < 11 + 26, "{cards}");
    assert_eq!(drawn.matches(&format!(">frame {}<", own(0))).count(), 1);
}

/// Links drawn at random: each is an arrow of its own, or told.
#[test]
fn links_at_random() {
    for round in 0..20 {
        let links = |place: u32| {
            let mut numbers = Numbers(u64::from(100 * round + place));
            let count = numbers.next() % 13;
            (0..count).map(|_| 86 + numbers.next() % (2 * round + 1)).collect::<Vec<u32>>()
        };
        let drawn = drawn_of(26, links);
        let all: usize = (0..26).map(|place| links(place).len()).sum();
        assert_eq!(count(&drawn, "arrow out") + count(&drawn, "arrow told"), all);
    }
}
