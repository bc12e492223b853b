//! A box in some state, by a plan.

// Not every test has a use for all.
#![allow(dead_code)]

use monitor::layout::{MOST_FRAMES, MOST_PAGES};
use monitor::{Machine, Monitor};
use plan::options::Fresh;
use plan::text::Text;
use plan::KEY;
use play::player::Player;

/// As many frames and pages as there can be.
pub const LARGEST: Machine =
    Machine { frames: MOST_FRAMES, secure: 100, pages: MOST_PAGES, monitor: 10, monitors: 4 };

/// The box after these calls, none of which is refused.
pub fn played(machine: Machine, calls: &str) -> Monitor {
    let text = Text::new("a test".into(), calls.into()).expect("a plan");
    let mut player = Player::new(&text, &Fresh { machine, key: KEY }).expect("it fits");
    let all = |played: &[play::player::Played]| {
        for call in played {
            assert!([0, 32, 33].contains(&call.answer.code()), "{}: {}", call.item, call.answer);
        }
        Ok(())
    };
    player.play(all).expect("it is played");
    player.bench().clone()
}

/// Four spaces with 250 data pages each and frames that they share, one of them
/// still building; thread 4 is suspended, thread 260 runs.
pub fn full() -> String {
    let mut calls = String::new();
    for space in [0, 256, 512, 768] {
        let [first, low, high, thread] = [1, 2, 3, 4].map(|place| space + place);
        calls += &format!("2 {space} {first}; 4 {space} {low} 0; 4 {space} {high} 255;");
        calls += &format!("3 {space} {thread} 4096;");
        for place in 1..=250 {
            let map = 4096 * place + if place <= 20 { 5 } else { 3 };
            calls += &format!("6 {space} {} {map} 2000;", thread + place);
        }
        // The same sixteen for all, then forty of which its neighbours have some.
        let own = (100..).zip(4000 + space / 8..4040 + space / 8);
        for (slot, frame) in (0..).zip(3000..3016).chain(own) {
            calls += &format!("7 {space} {} {frame};", (255 << 22) + 4096 * slot + 3);
        }
    }
    let interrupted = "9 4 0 0 0; 39 0 0 0 0 0 0 0 0 0 0 0 0 0 0 0 0 0;";
    calls + "8 0; 8 256; 8 512; 5 512 767;" + interrupted + "9 260 1 2 3;"
}

/// Three spaces take pages in turn, of all types, and map them in no order, so
/// that no two like pages stand in a row; thread 10 runs.
pub fn messy() -> String {
    let mut calls = String::from("2 0 1; 2 2 3; 2 4 5; 4 0 6 0; 4 2 7 0; 4 4 8 0;");
    calls += "3 0 9 4096; 3 2 10 8192; 3 4 11 0;";
    for page in 12..1000 {
        let (space, slot) = (2 * (page % 3), page / 3 * 37 % 1024);
        calls += &match page % 7 {
            0..3 => format!("6 {space} {page} {} 2000;", 4096 * slot + 1 + 2 * (page % 2)),
            3 | 4 => format!("5 {space} {page};"),
            5 if page % 5 == 0 => format!("3 {space} {page} {};", 4 * page),
            _ => String::new(),
        };
    }
    calls + "8 0; 8 2; 9 10 0 0 0;"
}
