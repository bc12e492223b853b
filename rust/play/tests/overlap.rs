//! On a drawn state no words lie over others, no card over another, no arrow runs
//! through either, and no two arrows run along each other.

mod boxes;
mod drawn;

use boxes::{full, messy, played, LARGEST};
use drawn::marks::nothing_overlaps;
use drawn::Numbers;
use monitor::layout::record_of;
use monitor::Machine;
use play::svg;

/// The check sees words that are drawn over others.
#[test]
#[should_panic(expected = "lies over")]
fn the_check_sees_an_overlap() {
    let drawn = svg::svg(&played(Machine::BOX_A, "2 0 1;"));
    nothing_overlaps(&drawn.replace("</svg>", "<text class=\"\" x=\"40\" y=\"214\">0</text>\n"));
}

/// The check sees an arrow that is drawn over another.
#[test]
#[should_panic(expected = "two arrows along each other")]
fn the_check_sees_two_arrows_in_one() {
    let drawn = svg::svg(&played(Machine::BOX_A, "2 0 1;"));
    let arrow = drawn.lines().find(|line| line.starts_with("<path class=\"arrow"));
    let arrow = arrow.expect("from the space to its first level");
    nothing_overlaps(&drawn.replace("</svg>", &format!("{arrow}\n</svg>")));
}

#[test]
fn states_of_box_a() {
    for calls in [
        "",
        "2 0 1; 4 0 2 0; 6 0 3 4099 5; 3 0 4 4096; 8 0; 9 4 7 8 9;",
        "2 0 1; 4 0 2 0; 7 0 8195 4; 7 0 12289 14; 2 5 6; 4 5 7 3; 7 5 12582915 4;",
        "2 0 1; 4 0 2 0; 4 0 7 1; 6 0 3 4099 5; 6 0 5 4194311 5; 3 0 4 1073741820; 8 0; 9 4 0 0 0;
         39 0 0 0 0 0 0 0 0 0 0 0 0 0 0 0 0 0; 11 0; 12 2; 12 5; 2 2 5;",
    ] {
        nothing_overlaps(&svg::svg(&played(Machine::BOX_A, calls)));
    }
}

/// Folded, and where nothing folds.
#[test]
fn the_largest_box() {
    for calls in ["", &full(), &messy()] {
        nothing_overlaps(&svg::svg(&played(LARGEST, calls)));
    }
}

/// Many pages of every kind, high addresses, frames that are shared.
#[test]
fn a_large_box() {
    let machine = Machine { frames: 4096, secure: 3840, pages: 256, monitor: 10, monitors: 1 };
    let mut calls = String::from("2 200 201;");
    for place in 0..40u32 {
        let index = 255 - place;
        calls += &format!("4 200 {} {index};", 202 + place);
        for slot in 0..15 {
            let map = (index << 22) + ((1023 - slot) << 12) + 3;
            calls += &format!("7 200 {map} {};", 1000 + 7 * slot + place % 3);
        }
    }
    for page in 0..100u32 {
        calls += &format!("6 200 {page} {} 3000;", (216 << 22) + (page << 12) + 7);
    }
    for page in 100..150 {
        calls += &format!("3 200 {page} 1073741820; 5 200 {};", page + 50);
    }
    nothing_overlaps(&svg::svg(&played(machine, &calls)));
}

/// Tables that hold anything, as a stopped space's may.
#[test]
fn any_tables() {
    let mut bench = played(
        Machine { frames: 4096, secure: 3840, pages: 256, monitor: 0, monitors: 1 },
        "2 250 251; 4 250 252 255; 6 250 253 1069547521 1; 11 250; 2 254 255;",
    );
    let mut numbers = Numbers(7);
    for page in [251, 252] {
        let frame = bench.memory_mut().frame_mut(3840 + page).expect("a frame");
        frame.iter_mut().for_each(|word| *word = numbers.next() % (5000 << 12));
    }
    assert!(bench.accepted());
    let drawn = svg::svg(&bench);
    assert!(drawn.contains(">and 244 more<"), "256 slots of the first level, 12 of them drawn");
    nothing_overlaps(&drawn);
}

/// Records out of order: the widest owners there are.
#[test]
fn records_out_of_order() {
    for (machine, last) in [(Machine::BOX_A, 8), (LARGEST, 1024)] {
        let mut bench = played(machine, "2 0 1;");
        for page in 2..last {
            let record = &mut bench.ledger_mut().words_mut()[record_of(page)];
            // At the end two spares in a row, with the highest numbers.
            let kind = if page < 1022 { page % 8 } else { 6 };
            let used = if kind == 6 { 2 } else { 3 };
            record[..used].copy_from_slice(&[kind, u32::MAX, u32::MAX][..used]);
        }
        nothing_overlaps(&svg::svg(&bench));
    }
}

/// More spaces than have blocks, each with pages of every type at high numbers.
#[test]
fn many_spaces() {
    let mut bench = played(LARGEST, "");
    let ledger = bench.ledger_mut().words_mut();
    for page in 0..1024 {
        let (space, high) = (page - page % 8, (1 << 30) - 4096 * (1 + page % 5) + 7);
        let record = match page % 8 {
            0 => [1, page, page + 1, page / 8 % 3],
            1 => [3, space, 0, 0],
            2 => [4, space, page % 256, 0],
            3 => [2, space, high, page / 8 % 2],
            4 | 5 => [5, space, high, 0],
            _ => [6, space, 0, 0],
        };
        ledger[record_of(page)][..4].copy_from_slice(&record);
    }
    ledger[0] = 1 + 1003;
    let drawn = svg::svg(&bench);
    assert!(drawn.contains("class=\"pages space runs\"") && drawn.contains(">1000 space<"));
    nothing_overlaps(&drawn);
}
