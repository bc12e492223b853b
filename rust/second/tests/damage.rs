//! Damaged states: acceptance says what each kind of damage calls for, both
//! checks say the same, and a batch on a refused state changes nothing.

use second::layout::RECORD_WORDS;
use second::random::{
    damage, fresh, kinds, limit_machines, next_call, random_machine, scattered, Rng, Verdict, View,
};
use second::{accepts, batch, direct, Machine};
use std::collections::BTreeMap;

/// Frames beyond which a machine takes too long.
const LARGE: u32 = 300;

fn both(machine: Machine, memory: &[u32], ledger: &[u32]) -> bool {
    let yes = accepts(machine, memory, ledger);
    assert_eq!(direct::accepts(machine, memory, ledger), yes);
    yes
}

/// Walks a state on by some calls drawn by chance.
fn walk(rng: &mut Rng, machine: Machine, memory: &mut [u32], ledger: &mut [u32], calls: u32) {
    for _ in 0..calls {
        let call = next_call(rng, View { machine, memory, ledger });
        let mut answer = [0; RECORD_WORDS];
        assert_eq!(batch(machine, memory, ledger, &call, &mut answer), 0);
    }
}

/// A batch on a refused state, of one record or none.
fn batch_refused(rng: &mut Rng, machine: Machine, memory: &[u32], ledger: &[u32]) {
    let (mut mem, mut led) = (memory.to_vec(), ledger.to_vec());
    let calls = vec![0; RECORD_WORDS * rng.below(2) as usize];
    let mut answers = vec![9; calls.len()];
    assert_eq!(batch(machine, &mut mem, &mut led, &calls, &mut answers), 18);
    assert!(mem == memory && led == ledger && answers.iter().all(|word| *word == 9));
}

#[test]
fn each_kind_gets_its_verdict() {
    let mut rng = Rng::new(21);
    let mut done: BTreeMap<&str, [u32; 2]> = BTreeMap::new();
    for _ in 0..50 {
        let machine = random_machine(&mut rng);
        if machine.frames > LARGE {
            continue;
        }
        let (mut memory, mut ledger) = fresh(&mut rng, machine);
        for _ in 0..20 {
            walk(&mut rng, machine, &mut memory, &mut ledger, 25);
            for kind in kinds() {
                let (mut mem, mut led) = (memory.clone(), ledger.clone());
                if !kind.apply(&mut rng, machine, &mut mem, &mut led) {
                    assert!(mem == memory && led == ledger, "{}", kind.name);
                    continue;
                }
                let yes = both(machine, &mem, &led);
                done.entry(kind.name).or_default()[usize::from(yes)] += 1;
                match kind.verdict {
                    Verdict::Yes => assert!(yes, "{}", kind.name),
                    Verdict::No => assert!(!yes, "{}", kind.name),
                    Verdict::Either => {}
                }
                if !yes {
                    batch_refused(&mut rng, machine, &mem, &led);
                }
            }
        }
    }
    for kind in kinds() {
        let times = done.get(kind.name).copied().unwrap_or_default();
        println!("no {:4}  yes {:4}  {}", times[0], times[1], kind.name);
        assert!(times[0] + times[1] >= 10, "{} came up {times:?} times", kind.name);
    }
}

/// One to three damages on top of each other, on crowded and empty boxes.
#[test]
fn the_two_checks_agree_on_random_damage() {
    let mut rng = Rng::new(22);
    let mut machines = limit_machines();
    machines.extend((0..40).map(|_| random_machine(&mut rng)).filter(|m| m.frames <= 100));
    let mut seen = [0; 2];
    for machine in machines {
        let (mut memory, mut ledger) = fresh(&mut rng, machine);
        for _ in 0..if machine.frames > LARGE { 2 } else { 12 } {
            walk(&mut rng, machine, &mut memory, &mut ledger, 20);
            for _ in 0..12 {
                let (mut mem, mut led) = (memory.clone(), ledger.clone());
                damage(&mut rng, machine, &mut mem, &mut led);
                while rng.once_in(3) && both(machine, &mem, &led) {
                    damage(&mut rng, machine, &mut mem, &mut led);
                }
                seen[usize::from(both(machine, &mem, &led))] += 1;
            }
        }
    }
    assert!(seen[0] > 100 && seen[1] > 100, "{seen:?}");
}

/// Ledgers of small random words: hardly any is accepted, none may trip.
#[test]
fn the_two_checks_agree_on_random_words() {
    let mut rng = Rng::new(23);
    let machine = Machine { frames: 6, secure: 2, pages: 3, monitor: 0, monitors: 1 };
    for _ in 0..20_000 {
        let (memory, ledger) = scattered(&mut rng, machine);
        both(machine, &memory, &ledger);
    }
}

/// From an accepted state that damage left accepted, calls go on well.
#[test]
fn calls_keep_acceptance_from_odd_accepted_states() {
    let mut rng = Rng::new(24);
    for _ in 0..150 {
        let machine = random_machine(&mut rng);
        if machine.frames > 100 {
            continue;
        }
        let (mut memory, mut ledger) = fresh(&mut rng, machine);
        for _ in 0..12 {
            walk(&mut rng, machine, &mut memory, &mut ledger, 15);
            assert!(both(machine, &memory, &ledger));
            let (old_memory, old_ledger) = (memory.clone(), ledger.clone());
            damage(&mut rng, machine, &mut memory, &mut ledger);
            if !both(machine, &memory, &ledger) {
                (memory, ledger) = (old_memory, old_ledger);
            }
        }
    }
}
