//! Numbers and lengths that do not fit: all services refuse, nothing moves.

use crate::lent::{random_words, Lent};
use crate::services::Services;
use crate::tally::Tally;
use crate::twins::Twins;
use crate::{images, Outcome};
use second::cases::BOX_A;
use second::layout::{
    free_bit, FRAME_WORDS, HASH_WORDS, HEADER_WORDS, MOST_CALLS, MOST_FRAMES, MOST_PAGES,
    RECORD_WORDS,
};
use second::random::{fresh, unfit_machines, Rng};
use second::{Machine, UNFIT};

const SMALL: Machine = Machine { frames: 3, secure: 1, pages: 1, monitor: 0, monitors: 1 };

/// The lists that are no part of a boot, and of a batch.
const KEY: usize = 0;
const CALLS: usize = 3;

/// Machines that fit by none or by one rule, by the seed so that each has its
/// turn; numbers near the limits; and every list a word longer and shorter.
pub fn ill_fitting(
    services: &dyn Services,
    rng: &mut Rng,
    seed: u64,
    tally: &mut Tally,
) -> Outcome {
    let by_turns = |machines: &[Machine]| machines[seed as usize % machines.len()];
    let mut unfit = unfit_machines();
    unfit.retain(|machine| machine.frames != MOST_FRAMES + 1);
    let dear = LARGEST.get((seed % 128).wrapping_sub(40) as usize).copied();
    let machines = [by_turns(&unfit), by_turns(&BOUNDARY), near_the_limits(rng)];
    for machine in machines.into_iter().chain(dear) {
        let lent = as_if_fitting(rng, machine);
        all_services(services, rng, machine, lent, tally)?;
    }
    other_lengths(services, rng, tally)?;
    other_call_lists(services, rng, tally)
}

const fn machine(frames: u32, secure: u32, pages: u32, monitor: u32, monitors: u32) -> Machine {
    Machine { frames, secure, pages, monitor, monitors }
}

/// Each breaks one rule by one, or just does not; lists can be had as long as
/// the numbers say, so that nothing but the numbers is at fault.
const BOUNDARY: [Machine; 16] = [
    machine(0, 0, 1, 0, 1),
    machine(1, 0, 1, 0, 1),
    machine(1, 0, 1, 1, 1),
    machine(2, 0, 1, 1, 1),
    machine(16, 6, 0, 0, 2),
    machine(16, 6, 1, 0, 2),
    machine(MOST_PAGES + 4, 4, MOST_PAGES, 0, 4),
    machine(MOST_PAGES + 5, 4, MOST_PAGES + 1, 0, 4),
    machine(16, 6, 8, 0, 0),
    machine(14, 6, 8, 0, 6),
    machine(14, 6, 8, 0, 7),
    machine(13, 6, 8, 0, 2),
    machine(16, 6, 8, 14, 2),
    machine(16, 6, 8, 14, 3),
    machine(16, 6, 8, 13, 1),
    machine(16, 6, 8, 5, 2),
];

/// The same of F: lists of 64 MB, so that each has its turn seldom.
const LARGEST: [Machine; 2] = [
    machine(MOST_FRAMES, MOST_FRAMES - 1, 1, MOST_FRAMES - 2, 1),
    machine(MOST_FRAMES + 1, 0, 1, 1, 1),
];

/// Numbers at the ends of their ranges, and sums that wrap in 32 bits.
fn near_the_limits(rng: &mut Rng) -> Machine {
    let number = |rng: &mut Rng, near: u32| {
        let below = rng.below(20);
        rng.pick(&[0, 1, 2, near, near, near, u32::MAX, u32::MAX - below, 1 << 31])
    };
    Machine {
        frames: number(rng, 16),
        secure: number(rng, 6),
        pages: number(rng, 8),
        monitor: number(rng, 0),
        monitors: number(rng, 2),
    }
}

/// Lists as long as the numbers ask, where such lists can be had.
fn as_if_fitting(rng: &mut Rng, machine: Machine) -> Lent {
    let (memory, ledger) = match machine.frames {
        MOST_FRAMES.. => as_if_fresh(rng, machine),
        _ if machine.fits() => fresh(rng, machine),
        _ if machine.pages > MOST_PAGES || rng.once_in(2) => as_if_fresh(rng, machine),
        frames => {
            let pages = machine.pages.min(MOST_PAGES + 1) as usize;
            let memory = random_words(rng, FRAME_WORDS * frames as usize);
            (memory, random_words(rng, HEADER_WORDS + RECORD_WORDS * pages))
        }
    };
    let key = random_words(rng, HASH_WORDS);
    let calls = vec![1; RECORD_WORDS * rng.below(2) as usize];
    Lent::new(rng, &key, &memory, &ledger, &calls)
}

/// What Boot would leave, were the numbers in order: only they are at fault then.
fn as_if_fresh(rng: &mut Rng, machine: Machine) -> (Vec<u32>, Vec<u32>) {
    let frames = if machine.frames <= MOST_FRAMES + 1 { machine.frames } else { 1 };
    let pages = machine.pages.min(MOST_PAGES + 1) as usize;
    let mut memory = vec![rng.word(); FRAME_WORDS * frames as usize];
    let first = (machine.secure as usize).saturating_mul(FRAME_WORDS);
    let secure = memory.iter_mut().skip(first).take(FRAME_WORDS * pages);
    secure.for_each(|word| *word = 0);
    let mut ledger = vec![0; HEADER_WORDS + RECORD_WORDS * pages];
    for page in 0..pages {
        let (word, bit) = free_bit(page);
        ledger[word] |= bit;
    }
    (memory, ledger)
}

/// All services on these words, whatever they say.
fn all_services(
    services: &dyn Services,
    rng: &mut Rng,
    machine: Machine,
    lent: Lent,
    tally: &mut Tally,
) -> Outcome {
    let mut twins = Twins::new(services, machine, lent);
    tally.unfit += twins.lend(|savers| images::as_lent(savers, rng, &mut tally.images))?;
    let batch = twins.batch_as_lent()?;
    let yes = twins.accepts()?;
    let boot = twins.boot(tally)?;
    tally.unfit += u64::from(batch == UNFIT) + u64::from(!yes) + u64::from(boot == UNFIT);
    tally.frames.insert(machine.frames);
    tally.pages.insert(machine.pages);
    tally.lengths.insert(twins.lent().calls.words().len());
    Ok(())
}

/// Each list a word longer, a word shorter, empty.
fn other_lengths(services: &dyn Services, rng: &mut Rng, tally: &mut Tally) -> Outcome {
    let machine = rng.pick(&[SMALL, SMALL, SMALL, BOX_A]);
    for list in KEY..=CALLS + 1 {
        for way in 0..3 {
            let mut lent = as_if_fitting(rng, machine);
            let records = vec![1; RECORD_WORDS * 3];
            lent.calls.set(&records);
            lent.answers.set(&random_words(rng, records.len()));
            let mut words = lent.list(list).words().to_vec();
            match way {
                0 => words.push(rng.word()),
                1 => drop(words.pop()),
                _ => words.clear(),
            }
            lent.list(list).set(&words);
            all_services(services, rng, machine, lent, tally)?;
        }
    }
    let mut lent = as_if_fitting(rng, machine);
    let words = rng.below(40) as usize;
    lent.key.set(&random_words(rng, words));
    all_services(services, rng, machine, lent, tally)
}

/// Call lists that are no records or too many, with equal answer lists.
fn other_call_lists(services: &dyn Services, rng: &mut Rng, tally: &mut Tally) -> Outcome {
    let (one, most) = (RECORD_WORDS, RECORD_WORDS * MOST_CALLS);
    let any = rng.below((most + 2 * one) as u32) as usize;
    for length in [1, one - 1, one + 1, most - 1, most, most + 1, most + one, any] {
        let mut lent = as_if_fitting(rng, SMALL);
        let calls: Vec<u32> = (0..length).map(|word| u32::from(word % one == 0)).collect();
        lent.calls.set(&calls);
        lent.answers.set(&random_words(rng, length));
        all_services(services, rng, SMALL, lent, tally)?;
    }
    Ok(())
}
