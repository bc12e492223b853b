//! The boxes whose acceptance is measured are what their rows say.

use bench::boxes::dearest::{by_the_clock, in_instructions, insecure, spaces, table_pages, WIDE};
use bench::boxes::Lent;
use bench::rows::acceptance;
use bench::sides::accepts;
use second::direct;
use second::layout::{kind, FRAME_WORDS, MOST_FRAMES, MOST_PAGES};

fn accepted(Lent { machine, memory, ledger }: &Lent) -> [bool; 3] {
    [accepts, direct::accepts, second::accepts].map(|accepts| accepts(*machine, memory, ledger))
}

#[test]
fn each_size_is_there_full_and_fresh() {
    let boxes = acceptance::boxes();
    for pages in [8, 64, 256, 1024] {
        for (how, free) in [("full", 0), ("fresh", pages)] {
            let name = format!("acceptance, {how} box, n = {pages}");
            let (_, lent) = boxes.iter().find(|(found, _)| *found == name).expect("its box");
            assert_eq!((lent.machine.pages, lent.count(kind::FREE)), (pages, free as usize));
        }
    }
}

#[test]
fn all_are_accepted() {
    for (name, lent) in acceptance::boxes() {
        assert!(name.ends_with(&format!("n = {}", lent.machine.pages)), "{name}");
        assert_eq!(accepted(&lent), [true; 3], "{name}");
    }
}

/// How many of their slots the 1,016 tables of the four spaces have in use.
fn slots_in_use(lent: &mut Lent) -> usize {
    assert_eq!((lent.machine.frames, lent.machine.pages), (MOST_FRAMES, MOST_PAGES));
    assert_eq!([kind::SPACE, kind::FIRST, kind::SECOND].map(|kind| lent.count(kind)), [4, 4, 1016]);
    let tables = table_pages(0).map(|page| page as usize);
    tables.map(|page| lent.page(page).iter().filter(|slot| **slot != 0).count()).sum()
}

#[test]
fn the_dearest_are_full_of_tables() {
    let slots = FRAME_WORDS * table_pages(0).len();
    assert_eq!(slots_in_use(&mut in_instructions()), slots);
    let by_chance = slots_in_use(&mut by_the_clock());
    assert!(by_chance.abs_diff(slots / 2) < slots / 100, "{by_chance} of {slots}");
}

/// With one less not all other pages could be tables.
#[test]
fn the_dearest_have_as_few_spaces_as_there_can_be() {
    for (free, fewest) in [(0, 4), (1, 4), (512, 2), (766, 1), (765, 2)] {
        assert_eq!(spaces(free), fewest, "{free} free");
    }
}

/// The last slot is looked at, so all are: here it names a monitor's frame.
#[test]
fn the_dearest_are_looked_at_to_the_end() {
    for mut lent in [in_instructions(), by_the_clock()] {
        let last = lent.page(WIDE.page_count() - 1).last_mut().expect("a slot");
        *last = insecure(WIDE.monitor);
        assert_eq!(accepted(&lent), [false; 3]);
    }
}
