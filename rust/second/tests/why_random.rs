//! Why random states are not accepted: told exactly where acceptance says no,
//! and of pages and words that there are.

use second::accept::accepted;
use second::layout::{FRAME_WORDS, HEADER_WORDS, RECORD_WORDS};
use second::random::{
    damage, fresh, limit_machines, next_call, random_machine, scattered, Rng, View,
};
use second::{batch, direct, why, Broken, Machine, Place, Rule};
use std::collections::BTreeSet;

/// Larger machines take too long.
const LARGE: u32 = 100;

/// What is told, held to the other reading of the rules.
fn told(machine: Machine, memory: &[u32], ledger: &[u32]) -> Option<Broken> {
    let broken = why(machine, memory, ledger);
    assert_eq!(broken.is_none(), direct::accepts(machine, memory, ledger), "{broken:?}");
    match accepted(machine, memory, ledger) {
        Ok(typed) => assert!(typed.encode() == ledger, "what is accepted is laid out"),
        Err(again) => sensible(machine, &again),
    }
    broken
}

/// The page and the word are there, and the text is two lines that name them.
fn sensible(machine: Machine, broken: &Broken) {
    let n = machine.page_count();
    assert!(broken.page.is_none_or(|page| page < n), "{broken:?}");
    match broken.place {
        Place::Lent => assert_eq!((broken.rule, broken.page), (Rule::A1, None)),
        Place::Header { word } => assert!(word < HEADER_WORDS),
        Place::Record { page, word } => {
            assert!(word < RECORD_WORDS && broken.page == Some(page));
        }
        Place::Frame { page, word } => assert!(page < n && word < FRAME_WORDS),
    }
    let text = broken.to_string();
    assert_eq!(text.lines().count(), 2, "{text}");
    assert!(text.starts_with(&format!("{:?} ", broken.rule)), "{text}");
    let named = broken.page.is_none_or(|page| text.contains(&format!("page {page}")));
    assert!(named, "{text}");
}

/// One to three damages on top of each other: every demand comes up but A1,
/// which damage to words cannot break.
#[test]
fn damaged_states() {
    let mut rng = Rng::new(41);
    let mut machines = limit_machines();
    machines.extend((0..60).map(|_| random_machine(&mut rng)));
    let mut seen = BTreeSet::new();
    for machine in machines.into_iter().filter(|machine| machine.frames <= LARGE) {
        let (mut memory, mut ledger) = fresh(&mut rng, machine);
        for _ in 0..12 {
            for _ in 0..20 {
                let call = next_call(&mut rng, View { machine, memory: &memory, ledger: &ledger });
                batch(machine, &mut memory, &mut ledger, &call, &mut [0; RECORD_WORDS]);
            }
            for _ in 0..16 {
                let (mut mem, mut led) = (memory.clone(), ledger.clone());
                damage(&mut rng, machine, &mut mem, &mut led);
                while rng.once_in(3) && told(machine, &mem, &led).is_none() {
                    damage(&mut rng, machine, &mut mem, &mut led);
                }
                seen.extend(told(machine, &mem, &led).map(|broken| broken.rule));
            }
        }
    }
    assert_eq!(seen.len(), 18, "{seen:?}");
    assert!(!seen.contains(&Rule::A1));
}

/// Ledgers of small random words on a small box.
#[test]
fn random_words() {
    let mut rng = Rng::new(42);
    let machine = Machine { frames: 6, secure: 2, pages: 3, monitor: 0, monitors: 1 };
    for _ in 0..10_000 {
        let (memory, ledger) = scattered(&mut rng, machine);
        told(machine, &memory, &ledger);
    }
}
