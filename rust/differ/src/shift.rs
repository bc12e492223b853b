//! Shifts of random calls on machines that fit, with damage in between.

use crate::lent::{random_words, Lent};
use crate::services::Services;
use crate::tally::Tally;
use crate::twins::Twins;
use crate::{accesses, expect, old, Outcome};
use second::calls::number::{ALLOC_SPARE, FREE_PAGES, INIT_ADDR_SPACE};
use second::layout::{HASH_WORDS, MOST_CALLS, RECORD_WORDS};
use second::random::{damage, largest_machines, limit_machines, outsider, random_machine, Rng};
use second::shift::record;
use second::{Machine, DONE, UNFIT};

/// How much is done on a machine: its cost goes with its frames.
struct Plan {
    machine: Machine,
    batches: u32,
    damages: u32,
}

/// Frames from which on a machine is large, and from which on all is costly.
const LARGE: u32 = 64;
const LARGEST: u32 = 4096;

/// Turns for one in which accesses are asked, where a thread runs.
const ACCESSES: u32 = 16;

/// Every so often a boundary machine, by the seed so that each has its turn;
/// seldom one of the most frames.
fn plan(rng: &mut Rng, seed: u64) -> Plan {
    let by_turns = |machines: &[Machine], turn: u64| machines[turn as usize % machines.len()];
    let machine = match (seed % 128, seed % 8) {
        (34, _) => by_turns(&largest_machines(), seed / 128),
        (_, 7) => by_turns(&limit_machines(), seed / 8),
        _ => random_machine(rng),
    };
    match machine.frames {
        0..LARGE => Plan { machine, batches: 260, damages: 60 },
        LARGE..1000 => Plan { machine, batches: 40, damages: 12 },
        1000..LARGEST => Plan { machine, batches: 6, damages: 3 },
        _ => Plan { machine, batches: 2, damages: 1 },
    }
}

/// One shift from boot on, to an accepted state.
pub fn on_a_machine<'s>(
    services: &'s dyn Services,
    rng: &mut Rng,
    seed: u64,
    tally: &mut Tally,
) -> Result<Twins<'s>, String> {
    let Plan { machine, batches, damages } = plan(rng, seed);
    let mut twins = booted(services, rng, machine, tally)?;
    tally.shifts.insert(machine.pages);
    old::lent(rng, &mut twins, tally)?;
    // Mostly where few calls are made, which would not fill the box.
    if machine.pages > u32::BITS && rng.once_in(4) == (machine.frames < LARGE) {
        crowded(rng, &mut twins, tally)?;
    }
    for turn in 0..batches {
        outsiders(rng, &mut twins);
        let records = records(rng, seed, turn);
        let calls = twins.draw(rng, records);
        expect(twins.batch(rng, &calls, tally)?, DONE)?;
        if turn % 8 == 0 && !twins.accepts()? {
            return Err("an accepted state led to a refused one".into());
        }
        if turn * damages / batches != (turn + 1) * damages / batches {
            damaged(rng, &mut twins, tally)?;
        }
        if turn % 16 == 15 {
            old::lent(rng, &mut twins, tally)?;
        }
        accesses(seed, turn, &twins, tally)?;
    }
    Ok(twins)
}

/// One space takes every page before the last word of the free map.
fn crowded(rng: &mut Rng, twins: &mut Twins, tally: &mut Tally) -> Outcome {
    let bits = u32::BITS;
    let last = (twins.machine.pages - 1) / bits * bits;
    let spares = (2..last).map(|page| record(&[ALLOC_SPARE, 0, page]));
    let calls: Vec<_> = std::iter::once(record(&[INIT_ADDR_SPACE, 0, 1]))
        .chain(spares)
        .chain([record(&[FREE_PAGES])])
        .collect();
    for part in calls.chunks(MOST_CALLS) {
        expect(twins.batch(rng, &part.concat(), tally)?, DONE)?;
    }
    Ok(())
}

/// Boot on words drawn by chance.
fn booted<'s>(
    services: &'s dyn Services,
    rng: &mut Rng,
    machine: Machine,
    tally: &mut Tally,
) -> Result<Twins<'s>, String> {
    let key = random_words(rng, HASH_WORDS);
    let memory = random_words(rng, machine.memory_words());
    let ledger = random_words(rng, machine.ledger_words());
    let lent = Lent::new(rng, &key, &memory, &ledger, &[]);
    let mut twins = Twins::new(services, machine, lent);
    expect(twins.boot(tally)?, DONE)?;
    Ok(twins)
}

/// Once in a while, accesses of the thread that runs. They have chance of their
/// own, so that the shift is one and the same however many there are.
fn accesses(seed: u64, turn: u32, twins: &Twins, tally: &mut Tally) -> Outcome {
    let rng = &mut Rng::new(seed << 16 | u64::from(turn));
    match rng.once_in(ACCESSES) {
        true => accesses::asked(rng, twins, tally),
        false => Ok(()),
    }
}

/// Mostly one call at a time; the longest batch once in a while.
fn records(rng: &mut Rng, seed: u64, turn: u32) -> usize {
    match rng.below(24) {
        _ if turn == 3 && seed.is_multiple_of(16) => MOST_CALLS,
        0 => 0,
        1 | 2 => 2 + rng.below(5) as usize,
        3 if rng.once_in(4) => rng.below(60) as usize,
        _ => 1,
    }
}

/// Outsiders write insecure frames between batches.
fn outsiders(rng: &mut Rng, twins: &mut Twins) {
    if rng.once_in(4) {
        let machine = twins.machine;
        twins.change(|lent| outsider(rng, machine, lent.memory.words_mut()));
    }
}

/// Damage to the state: acceptance judges it, and a batch and a second boot
/// are tried on it. Now and then an odd state that is accepted stays.
fn damaged(rng: &mut Rng, twins: &mut Twins, tally: &mut Tally) -> Outcome {
    let mut hurt = twins.clone();
    hurt_once(rng, &mut hurt);
    while rng.once_in(4) && hurt.accepts()? {
        hurt_once(rng, &mut hurt);
    }
    let yes = hurt.accepts()?;
    tally.damaged[usize::from(yes)] += 1;
    let calls = if yes { hurt.draw(rng, 1) } else { vec![1; RECORD_WORDS * rng.below(2) as usize] };
    expect(hurt.batch(rng, &calls, tally)?, if yes { DONE } else { UNFIT })?;
    if yes && rng.once_in(2) {
        *twins = hurt;
    } else if rng.once_in(8) {
        expect(hurt.boot(tally)?, DONE)?;
    }
    Ok(())
}

fn hurt_once(rng: &mut Rng, twins: &mut Twins) {
    let machine = twins.machine;
    twins.change(|lent| {
        let Lent { memory, ledger, .. } = lent;
        damage(rng, machine, memory.words_mut(), ledger.words_mut());
    });
}
