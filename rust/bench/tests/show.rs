//! The tables fit a page and say what they were given.

use bench::bound::Bound;
use bench::meter::Meter;
use bench::paid::Paid;
use bench::rows::{acceptance, images, Row};
use bench::show;

const WIDEST: usize = 80;

fn fits(text: &str) -> bool {
    text.lines().all(|line| line.chars().count() <= WIDEST && line.trim_end() == line)
}

fn row(name: &str) -> Row {
    let paper = "12411";
    Row { name: name.into(), ours: 9125735.4, plain: 10957021.0, folded: Some(9e6), paper }
}

#[test]
fn rows_stand_under_their_heads() {
    let meter = Meter::Clock;
    let head = show::head(&meter);
    let names = head.lines().last().expect("a line");
    // .ci/moved finds the unit and the columns by these words
    assert!(fits(&head) && head.starts_with("nanoseconds; "));
    assert!(names.contains(" ours     plain ratio"), "{names}");
    let end = |line: &str, word: &str| line.find(word).map(|start| start + word.len());
    let of_images = images::boxes().into_iter().flat_map(|(name, _)| images::names(&name));
    for name in acceptance::boxes().into_iter().map(|(name, _)| name).chain(of_images) {
        let line = show::row(&row(&name));
        assert!(fits(&line), "{line}");
        assert_eq!(end(&line, " 9125735"), end(names, "ours"));
    }
}

#[test]
fn a_page_has_its_cost_at_two_sizes() {
    let costs = [("full", 256, 2560.0), ("full", 1024, 10752.0), ("fresh", 256, 256.0)];
    let costs = costs.into_iter().chain([("fresh", 1024, 1024.0)]);
    let rows = costs.map(|(how, pages, ours)| Row {
        name: format!("acceptance, {how} box, n = {pages}"),
        ours,
        plain: 2.0 * ours,
        folded: None,
        paper: "",
    });
    let text = show::by_page(&acceptance::by_page(&rows.collect::<Vec<_>>()));
    assert!(fits(&text), "{text}");
    let lines: Vec<Vec<&str>> =
        text.lines().skip(3).map(|line| line.split_whitespace().collect()).collect();
    assert_eq!(lines[0], ["full", "box,", "ours", "10.0", "10.5", "1.050"]);
    assert_eq!(lines[1], ["full", "box,", "plain", "20.0", "21.0", "1.050"]);
    assert_eq!(lines[3], ["fresh", "box,", "plain", "2.0", "2.0", "1.000"]);
}

#[test]
fn what_is_paid_has_a_line_each() {
    let paid = |name, pages| Paid {
        name,
        pages,
        acceptance: 7213.0,
        alone: 14706.0,
        calls: 512,
        shared: 284.4,
        without: 256.0,
    };
    let text = show::paid(&[paid("AllocSpare + Remove", 8), paid("Load", 256)]);
    assert!(fits(&text), "{text}");
    let lines: Vec<Vec<&str>> =
        text.lines().rev().take(2).map(|line| line.split_whitespace().collect()).collect();
    assert_eq!(lines[0], ["Load", "256", "7213", "14706", "512", "284", "256"]);
    assert_eq!(lines[1][..4], ["AllocSpare", "+", "Remove", "8"]);
}

#[test]
fn the_bound_is_of_512_calls_and_acceptance() {
    let bound = Bound { call: 225037.0, acceptance: 9125735.0, lists: [85817447.0, 63424556.0] };
    assert_eq!(bound.bound(), 124344679.0);
    let clock = show::bound(&Meter::Clock, &bound);
    assert!(fits(&clock) && clock.contains(" 124.345 ms\n"), "{clock}");
    let counted = show::bound(&Meter::Emulator("count".into()), &bound);
    assert!(fits(&counted) && counted.contains(" 124344679\n"), "{counted}");
    assert!(counted.contains(" 85817447  0.69\n") && counted.ends_with(" 63424556  0.51"));
}
