//! 18, or no, for numbers and lengths that do not fit, with nothing changed.

use second::cases::BOX_A;
use second::layout::{
    FRAME_WORDS, HASH_WORDS, HEADER_WORDS, KEY_START, MAP_END, MAP_START, MOST_CALLS, MOST_FRAMES,
    MOST_PAGES, RECORD_WORDS, RUNNING,
};
use second::random::{
    fresh, largest_machines, limit_machines, random_machine, unfit_machines, Rng,
};
use second::{accepts, batch, boot, direct, Machine};

/// Lists of random words of these lengths, to see that nothing is written.
struct Lent {
    key: Vec<u32>,
    memory: Vec<u32>,
    ledger: Vec<u32>,
    calls: Vec<u32>,
    answers: Vec<u32>,
}

fn words(rng: &mut Rng, count: usize) -> Vec<u32> {
    (0..count).map(|_| rng.word()).collect()
}

/// Lists that fit this machine, accepted where the machine itself fits.
fn fitting(rng: &mut Rng, machine: Machine, records: usize) -> Lent {
    let (memory, ledger) = if machine.fits() {
        fresh(rng, machine)
    } else {
        // Lengths that would fit, as far as such lists can be had.
        let frames = machine.frames.min(MOST_FRAMES + 1) as usize;
        let pages = machine.pages.min(MOST_PAGES + 1) as usize;
        (words(rng, FRAME_WORDS * frames), words(rng, HEADER_WORDS + RECORD_WORDS * pages))
    };
    let calls = (0..records).flat_map(|_| [1].into_iter().chain([0; RECORD_WORDS - 1])).collect();
    let (key, answers) = (words(rng, HASH_WORDS), words(rng, RECORD_WORDS * records));
    Lent { key, memory, ledger, calls, answers }
}

/// All three services refuse and write nothing.
fn refused(machine: Machine, lent: &mut Lent) {
    batch_refused(machine, lent);
    boot_refused(machine, lent);
    assert!(!accepts(machine, &lent.memory, &lent.ledger), "{machine:?}");
    assert!(!direct::accepts(machine, &lent.memory, &lent.ledger), "{machine:?}");
}

fn boot_refused(machine: Machine, lent: &mut Lent) {
    let old = (lent.memory.clone(), lent.ledger.clone());
    assert_eq!(boot(machine, &lent.key, &mut lent.memory, &mut lent.ledger), 18, "{machine:?}");
    assert!((&lent.memory, &lent.ledger) == (&old.0, &old.1));
}

fn batch_refused(machine: Machine, lent: &mut Lent) {
    let Lent { memory, ledger, calls, answers, .. } = lent;
    let old = (memory.clone(), ledger.clone(), answers.clone());
    assert_eq!(batch(machine, memory, ledger, calls, answers), 18, "{machine:?}");
    assert!(
        (memory, ledger, answers) == (&mut old.0.clone(), &mut old.1.clone(), &mut old.2.clone())
    );
}

#[test]
fn fitting_numbers_are_obeyed() {
    let mut rng = Rng::new(1);
    let mut machines = [limit_machines(), largest_machines()].concat();
    machines.extend((0..30).map(|_| random_machine(&mut rng)));
    for machine in machines {
        assert!(machine.fits(), "{machine:?}");
        let mut lent = fitting(&mut rng, machine, 2);
        let Lent { key, memory, ledger, calls, answers } = &mut lent;
        assert!(accepts(machine, memory, ledger) && direct::accepts(machine, memory, ledger));
        assert_eq!(batch(machine, memory, ledger, calls, answers), 0);
        assert_eq!(answers[..3], [0, machine.pages, 0]);
        assert_eq!(boot(machine, key, memory, ledger), 0);
        assert_eq!(ledger[KEY_START..MAP_START], key[..]);
    }
}

#[test]
fn numbers_that_do_not_fit() {
    let mut rng = Rng::new(2);
    for machine in unfit_machines() {
        assert!(!machine.fits(), "{machine:?}");
        for records in [0, 1] {
            refused(machine, &mut fitting(&mut rng, machine, records));
        }
    }
}

/// All numbers near the limits of a small box, against the rule in 128 bits.
#[test]
fn numbers_near_the_limits() {
    let near = [0, 1, 2, 3, 4, 5, u32::MAX - 2, u32::MAX - 1, u32::MAX];
    for frames in [0, 1, 2, 4, 5, MOST_FRAMES, MOST_FRAMES + 1, u32::MAX] {
        for (secure, pages) in pairs(&near) {
            for (monitor, monitors) in pairs(&near) {
                let machine = Machine { frames, secure, pages, monitor, monitors };
                assert_eq!(machine.fits(), plainly_fits(machine), "{machine:?}");
            }
        }
    }
}

fn pairs(numbers: &[u32]) -> Vec<(u32, u32)> {
    numbers.iter().flat_map(|a| numbers.iter().map(|b| (*a, *b))).collect()
}

/// The rule once more, frame by frame where that can be done.
fn plainly_fits(m: Machine) -> bool {
    let few = m.frames <= MOST_FRAMES && m.pages <= MOST_PAGES && m.monitors <= MOST_FRAMES;
    if !few || m.pages * m.monitors == 0 {
        return false;
    }
    let secure: Vec<u128> = (0..m.pages).map(|i| m.secure as u128 + i as u128).collect();
    let monitor: Vec<u128> = (0..m.monitors).map(|i| m.monitor as u128 + i as u128).collect();
    let below = |frame: &u128| *frame < m.frames as u128;
    secure.iter().all(below)
        && monitor.iter().all(below)
        && secure.iter().all(|frame| !monitor.contains(frame))
}

/// A list one word longer, then one shorter.
fn both_ways(list: fn(&mut Lent) -> &mut Vec<u32>, check: fn(Machine, &mut Lent)) {
    let mut rng = Rng::new(3);
    let smallest = Machine { frames: 2, secure: 0, pages: 1, monitor: 1, monitors: 1 };
    for machine in [BOX_A, smallest, limit_machines()[0]] {
        let mut longer = fitting(&mut rng, machine, 3);
        list(&mut longer).push(0);
        check(machine, &mut longer);
        let mut shorter = fitting(&mut rng, machine, 3);
        list(&mut shorter).pop();
        check(machine, &mut shorter);
        let mut none = fitting(&mut rng, machine, 3);
        list(&mut none).clear();
        check(machine, &mut none);
    }
}

#[test]
fn lists_one_word_longer_and_shorter() {
    both_ways(|lent| &mut lent.memory, refused);
    both_ways(|lent| &mut lent.ledger, refused);
    both_ways(|lent| &mut lent.key, boot_refused);
    both_ways(|lent| &mut lent.calls, batch_refused);
    both_ways(|lent| &mut lent.answers, batch_refused);
}

#[test]
fn call_lists_that_do_not_fit() {
    let mut rng = Rng::new(4);
    let (one, most) = (RECORD_WORDS, RECORD_WORDS * MOST_CALLS);
    for length in [1, 16, one - 1, one + 1, 2 * one - 1, most - 1, most + 1, most + one] {
        let mut lent = fitting(&mut rng, BOX_A, 0);
        lent.calls = vec![0; length];
        lent.answers = words(&mut rng, length);
        batch_refused(BOX_A, &mut lent);
    }
    let mut lent = fitting(&mut rng, BOX_A, MOST_CALLS);
    let Lent { memory, ledger, calls, answers, .. } = &mut lent;
    assert_eq!(batch(BOX_A, memory, ledger, calls, answers), 0);
    assert_eq!(answers[most - one..][..3], [0, BOX_A.pages, 0]);
}

/// Boot asks nothing of the old words and leaves the other frames alone.
#[test]
fn boot_on_any_words() {
    let mut rng = Rng::new(5);
    for machine in [limit_machines(), largest_machines()].concat() {
        let mut memory = words(&mut rng, machine.memory_words());
        let mut ledger = words(&mut rng, machine.ledger_words());
        let (old, key) = (memory.clone(), words(&mut rng, HASH_WORDS));
        assert_eq!(boot(machine, &key, &mut memory, &mut ledger), 0);
        for frame in 0..machine.frames {
            let range = frame as usize * FRAME_WORDS..(frame as usize + 1) * FRAME_WORDS;
            match machine.page_in(frame) {
                Some(_) => assert!(memory[range].iter().all(|word| *word == 0)),
                None => assert!(memory[range.clone()] == old[range]),
            }
        }
        assert!(accepts(machine, &memory, &ledger));
        assert_eq!(ledger[RUNNING], 0);
        let free = ledger[MAP_START..MAP_END].iter().map(|word| word.count_ones());
        assert_eq!(free.sum::<u32>(), machine.pages);
    }
}
