//! Wrong readings of why an access fails. Those that can be seen from outside
//! are told from the second program by accesses or by rounds. Other orders of
//! the reasons cannot, for 33 is all that is seen; they are told from what the
//! second program names.
//!
//! 101 flaws are seen: 67 of accesses, 27 of ADDR, 7 of UnmapData. 96 are not:
//! 71 other orders and 25 other names.

mod wrong_walks;

use differ::services::{Second, Services};
use differ::shift::on_a_machine;
use differ::tally::Tally;
use differ::twins::Twins;
use differ::{accesses, lent, round};
use second::calls::{number, Code};
use second::cases::{BOX_A, KEY};
use second::layout::{state, word, RECORD_WORDS, RUNNING};
use second::mapping::{ADDRESSES, EXECUTE, WRITE};
use second::random::Rng;
use second::shift::record;
use second::{accepts, batch, boot, reason, Reason, DONE};
use std::collections::BTreeSet;
use wrong_walks::{Access, After, Before, Maps, Says, Walks, Wanted};
use Reason::{EmptySlot, Misaligned, NoTable, NoWrite, TooHigh};

const FAULT: u32 = Code::Faulted as u32;
const THREAD: u32 = 5;

/// Box A with a running thread: pages to store to at both ends of the addresses,
/// one to read and one to execute; tables with indexes 0 and 255.
#[rustfmt::skip]
const BUILD: &[&[u32]] = &[
    &[2, 0, 1],
    &[4, 0, 2, 0],
    &[4, 0, 3, 255],
    &[7, 0, 3, 2],
    &[7, 0, 4097, 3],
    &[6, 0, 4, 8197, 5],
    &[7, 0, ADDRESSES - 4096 + 3, 4],
    &[3, 0, THREAD, 4096],
    &[8, 0],
    &[9, THREAD],
];

/// Its memory and its ledger; no word of the memory is zero but secure ones.
fn running() -> (Vec<u32>, Vec<u32>) {
    let mut memory: Vec<u32> = (1..).take(BOX_A.memory_words()).collect();
    let mut ledger = vec![0; BOX_A.ledger_words()];
    assert_eq!(boot(BOX_A, &KEY, &mut memory, &mut ledger), DONE);
    for call in BUILD {
        let mut answer = [0; RECORD_WORDS];
        assert_eq!(batch(BOX_A, &mut memory, &mut ledger, &record(call), &mut answer), DONE);
        assert_eq!(answer[0], DONE, "{call:?}");
    }
    (memory, ledger)
}

/// The first difference in the accesses that a round asks, so many times, on
/// that box.
fn in_accesses(services: &dyn Services, times: u64) -> Option<String> {
    let ((memory, ledger), mut tally) = (running(), Tally::default());
    let lent = lent::Lent::new(&mut Rng::new(0), &KEY, &memory, &ledger, &[]);
    let twins = Twins::new(services, BOX_A, lent);
    (0..times).find_map(|seed| accesses::asked(&mut Rng::new(seed), &twins, &mut tally).err())
}

/// The same in the shifts of these rounds. The first have calls at slots of
/// every kind, so that most flaws are found soon.
fn in_shifts(services: &dyn Services) -> Option<String> {
    let (mut seeds, mut tally) = ([0, 1, 5, 43].into_iter().chain(2..60), Tally::default());
    seeds.find_map(|seed| {
        let found = on_a_machine(services, &mut Rng::new(seed), seed, &mut tally).err();
        found.map(|what| format!("seed {seed}: {what}"))
    })
}

/// Flaws by name, to be counted; each is told apart.
struct Flaws(BTreeSet<String>);

impl Flaws {
    fn none() -> Flaws {
        Flaws(BTreeSet::new())
    }

    fn found(&mut self, name: String, found: Option<String>) {
        println!("{name}: {}", found.as_deref().unwrap_or("NOT FOUND"));
        assert!(found.is_some(), "{name}");
        assert!(self.0.insert(name), "twice");
    }

    /// Told apart by accesses.
    fn told(&mut self, name: impl Into<String>, flaw: Walks) {
        self.found(name.into(), in_accesses(&flaw, 48));
    }
}

#[test]
fn the_right_ones_are_not_told_apart() {
    for right in [&Second as &dyn Services, &Walks::why(|it| it.plain())] {
        assert_eq!(in_accesses(right, 4), None);
        assert_eq!(round(right, 1, &mut Tally::default()), Ok(()));
    }
}

/// Without one of the tests: for loads, for stores, for both. A store to an empty
/// slot fails all the same, for want of the right.
#[test]
fn a_test_is_left_out() {
    let mut flaws = Flaws::none();
    for left_out in Reason::ALL {
        let kinds: [(&str, &[bool]); 3] =
            [("loads", &[false]), ("stores", &[true]), ("accesses", &[false, true])];
        let seen = match left_out {
            EmptySlot => vec![kinds[0], kinds[2]],
            NoWrite => vec![kinds[1]],
            _ => kinds.to_vec(),
        };
        for (kind, stores) in seen {
            let rest: Vec<Reason> = Reason::ALL.into_iter().filter(|it| *it != left_out).collect();
            let why = move |it: &Access| match stores.contains(&it.store) {
                true => it.first_of(&rest),
                false => it.plain(),
            };
            flaws.told(format!("{kind} are not asked whether: {left_out}"), Walks::why(why));
        }
    }
    assert_eq!(flaws.0.len(), 3 + 3 + 3 + 2 + 1);
}

/// Another reason of an access: for those of which this holds.
fn also(name: &str, flaws: &mut Flaws, reason: Reason, fails: fn(&Access) -> bool) {
    let why = move |it: &Access| it.plain().or(fails(it).then_some(reason));
    flaws.told(name, Walks::why(why));
}

/// An access at another address than the one given.
fn sees(name: &str, flaws: &mut Flaws, seen: fn(u32) -> u32) {
    flaws.told(name, Walks::why(move |it| it.at(seen(it.va)).plain()));
}

#[test]
fn addresses_are_read_otherwise() {
    let mut flaws = Flaws::none();
    sees("takes multiples of 2", &mut flaws, |va| va & !2);
    sees("takes odd addresses after a multiple of 4", &mut flaws, |va| match va % 4 {
        1 => va - 1,
        _ => va,
    });
    sees("takes 2^30", &mut flaws, |va| if va == ADDRESSES { 0 } else { va });
    sees("takes addresses below 2^31", &mut flaws, |va| match va >> 31 {
        0 => va % ADDRESSES,
        _ => va,
    });
    sees("takes addresses from 2^31 on", &mut flaws, |va| va & !(2 * ADDRESSES));
    also("refuses 2^30 - 4", &mut flaws, TooHigh, |it| it.va == ADDRESSES - 4);
    also("refuses addresses from 2^29 on", &mut flaws, TooHigh, |it| it.va >= ADDRESSES / 2);
    also("refuses 0", &mut flaws, EmptySlot, |it| it.va == 0);
    also("refuses what is no multiple of 8", &mut flaws, Misaligned, |it| it.va % 8 != 0);
    also("refuses the last word of a page", &mut flaws, Misaligned, |it| it.va % 4096 == 4092);
    assert_eq!(flaws.0.len(), 10);
}

#[test]
fn slots_are_read_otherwise() {
    let mut flaws = Flaws::none();
    also("loads ask for the write right", &mut flaws, NoWrite, |it| it.lacks(WRITE));
    also("loads ask for the execute right", &mut flaws, NoWrite, |it| {
        !it.store && it.lacks(EXECUTE)
    });
    also("stores ask for the execute right too", &mut flaws, NoWrite, |it| {
        it.store && it.lacks(EXECUTE)
    });
    also("takes the table with index 255 for none", &mut flaws, NoTable, |it| it.va >> 22 == 255);
    also("takes the slot of a shared frame for empty", &mut flaws, EmptySlot, |it| {
        it.slot().is_some_and(|slot| slot >> 12 < BOX_A.secure)
    });
    flaws.told(
        "stores ask for the execute right and not for the write right",
        Walks::why(|it| match it.store && it.lacks(EXECUTE) {
            true => Some(NoWrite),
            false => it.first_of(&Reason::ALL[..4]),
        }),
    );
    assert_eq!(flaws.0.len(), 6);
}

/// What is answered besides 33, or in its place.
#[test]
fn wrong_answers_of_a_fault() {
    let mut flaws = Flaws::none();
    let mut told = |name: &str, fault: fn(&Access, Reason, &mut After)| {
        flaws.told(name, Walks::fault(fault));
    };
    told("shows the reason in word 1", |_, reason, after| after.answer[1] = reason.number());
    told("shows the reason in the last word", |_, reason, after| {
        after.answer[RECORD_WORDS - 1] = reason.number();
    });
    told("answers the reason", |_, reason, after| after.answer[0] = reason.number());
    told("answers 33 and on", |_, reason, after| after.answer[0] = 32 + reason.number());
    told("answers 32", |_, _, after| after.answer[0] = Code::Interrupted as u32);
    told("answers 0", |_, _, after| after.answer[0] = DONE);
    told("shows the address", |it, _, after| after.answer[1] = it.va);
    told("shows the slot's word", |it, _, after| after.answer[1] = it.slot().unwrap_or(0));
    told("answers as ADDR does", |_, reason, after| {
        if reason == NoTable {
            after.answer[0] = Code::NoTable as u32;
        }
    });
    told("answers 6 to an address that cannot be", |_, reason, after| {
        if reason < NoTable {
            after.answer[0] = Code::BadMapping as u32;
        }
    });
    assert_eq!(flaws.0.len(), 10);
}

/// The same for one of the reasons alone.
#[test]
fn wrong_answers_by_reason() {
    let mut flaws = Flaws::none();
    for alone in Reason::ALL {
        let shows = move |_: &Access, reason: Reason, after: &mut After| {
            after.answer[1] = u32::from(reason == alone);
        };
        flaws.told(format!("shows whether: {alone}"), Walks::fault(shows));
        let passes = move |_: &Access, reason: Reason, after: &mut After| {
            if reason == alone {
                after.answer[0] = DONE;
            }
        };
        flaws.told(format!("answers 0 to: {alone}"), Walks::fault(passes));
    }
    assert_eq!(flaws.0.len(), 2 * 5);
}

/// What is done to the state besides the run's end, or in its place.
#[test]
fn wrong_ends_of_a_run() {
    let mut flaws = Flaws::none();
    let mut told = |name: &str, fault: fn(&Access, Reason, &mut After)| {
        flaws.told(name, Walks::fault(fault));
    };
    told("does not end the run", |it, _, after| after.ledger[RUNNING] = it.before.ledger[RUNNING]);
    told("suspends the thread", |_, _, after| after.page(THREAD)[word::SUSPENDED] = 1);
    told("suspends the thread with the reason", |_, reason, after| {
        after.page(THREAD)[word::SUSPENDED] = 1;
        after.page(THREAD)[word::SAVED] = reason.number();
    });
    told("keeps the reason in the header", |_, reason, after| {
        after.ledger[RUNNING] = reason.number();
    });
    told("stops the space", |_, _, after| after.page(0)[word::STATE] = state::STOPPED);
    assert_eq!(flaws.0.len(), 5);
}

/// 33 is answered and the run is over, and yet the access is done.
#[test]
fn a_fault_that_goes_on() {
    let mut flaws = Flaws::none();
    let mut told = |name: &str, fault: fn(&Access, Reason, &mut After)| {
        flaws.told(name, Walks::fault(fault));
    };
    told("a store writes that lacks the right", |it, reason, after| {
        if reason == NoWrite {
            after.memory[it.place().expect("a page")] = it.word;
        }
    });
    told("a misaligned store writes", |it, reason, after| match it.place() {
        Some(place) if reason == Misaligned && it.store && !it.lacks(WRITE) => {
            after.memory[place] = it.word;
        }
        _ => (),
    });
    told("a store too high writes", |it, reason, after| match it.place() {
        Some(place) if reason == TooHigh && it.store && !it.lacks(WRITE) => {
            after.memory[place] = it.word;
        }
        _ => (),
    });
    told("a misaligned load shows its word", |it, reason, after| match it.place() {
        Some(place) if reason == Misaligned && !it.store => after.answer[1] = after.memory[place],
        _ => (),
    });
    assert_eq!(flaws.0.len(), 4);
}

#[test]
fn wrong_ends_by_reason() {
    let mut flaws = Flaws::none();
    for alone in Reason::ALL {
        let goes_on = move |it: &Access, reason: Reason, after: &mut After| {
            if reason == alone {
                after.ledger[RUNNING] = it.before.ledger[RUNNING];
            }
        };
        flaws.told(format!("does not end the run at: {alone}"), Walks::fault(goes_on));
        let suspends = move |_: &Access, reason: Reason, after: &mut After| {
            after.page(THREAD)[word::SUSPENDED] = u32::from(reason == alone);
        };
        flaws.told(format!("suspends the thread at: {alone}"), Walks::fault(suspends));
    }
    assert_eq!(flaws.0.len(), 2 * 5);
}

/// The calls that ask ADDR.
const ADDR: [u32; 3] = [number::MAP_SECURE, number::MAP_INSECURE, number::MAP_DATA];

const TAKEN: u32 = Code::Taken as u32;
const NO_TABLE: u32 = Code::NoTable as u32;

/// Other readings of ADDR.
const SAYS: [(&str, Says); 9] = [
    ("takes the mapping word for misaligned, and says 8", |_| NO_TABLE),
    ("takes the mapping word for misaligned, and says 6", |_| Code::BadMapping as u32),
    ("takes the mapping word for misaligned, and says 33", |_| FAULT),
    ("says 8 to an empty slot", |it| if it.addr() == DONE { NO_TABLE } else { it.addr() }),
    ("says 7 where there is no table", |it| if it.slot.is_none() { TAKEN } else { it.addr() }),
    ("says 8 to a filled slot", |it| if it.addr() == TAKEN { NO_TABLE } else { it.addr() }),
    ("says 7 for 8 and 8 for 7", |it| match it.addr() {
        TAKEN => NO_TABLE,
        NO_TABLE => TAKEN,
        other => other,
    }),
    ("says 8 to a slot without the write right", |it| match it.lacks(WRITE) {
        true => NO_TABLE,
        false => it.addr(),
    }),
    ("takes a slot without the write right for empty", |it| match it.lacks(WRITE) {
        true => DONE,
        false => it.addr(),
    }),
];

#[test]
fn wrong_walks_of_addr() {
    let mut flaws = Flaws::none();
    for (name, says) in SAYS {
        for call in ADDR {
            flaws.found(format!("call {call} {name}"), in_shifts(&Maps::addr(call, says)));
        }
    }
    assert_eq!(flaws.0.len(), 3 * 9);
}

#[test]
fn wrong_walks_of_unmap_data() {
    let mut flaws = Flaws::none();
    let mut told = |name: &str, reads: fn(&Wanted, &Before, &mut After)| {
        let flaw = Maps { call: number::UNMAP_DATA, reads: Box::new(reads) };
        flaws.found(name.into(), in_shifts(&flaw));
    };
    told("takes the mapping word for misaligned, and leaves the slot", |it, _, after| {
        let (place, slot) = it.slot.expect("a table");
        after.memory[place] = slot;
    });
    told("takes the mapping word for misaligned, and says 8", |_, before, after| {
        before.refuse(after, NO_TABLE);
    });
    told("takes the mapping word for misaligned, and ends the run", |_, before, after| {
        before.refuse(after, FAULT);
        after.ledger[RUNNING] = 0;
    });
    told("leaves a slot without the write right", |it, _, after| match it.slot {
        Some((place, slot)) if it.lacks(WRITE) => after.memory[place] = slot,
        _ => (),
    });
    told("says 17 to a page without the write right", |it, before, after| {
        if it.lacks(WRITE) {
            before.refuse(after, Code::NotOwnData as u32);
        }
    });
    told("says 33 to a page without the write right", |it, before, after| {
        if it.lacks(WRITE) {
            before.refuse(after, FAULT);
        }
    });
    told("leaves the rights in the slot", |it, _, after| {
        let (place, _) = it.slot.expect("a table");
        after.memory[place] = it.map.rights();
    });
    assert_eq!(flaws.0.len(), 7);
}

/// Addresses of every page of that box and of some that are not mapped, at
/// both ends and aside, below 2^30 and beyond.
fn addresses() -> Vec<u32> {
    let low = [0, 4096, 8192, 12288, 4190208, 4194304];
    let pages = low.into_iter().chain([ADDRESSES / 2, ADDRESSES - 8192, ADDRESSES - 4096]);
    let offsets = [0, 1, 2, 3, 4, 2048, 4092, 4093, 4094, 4095];
    let high = [0, 1, 2, 3].map(|times| times * ADDRESSES);
    let below = pages.flat_map(|page| offsets.map(|offset| page + offset));
    below.flat_map(|va| high.map(|high| va + high)).collect()
}

/// What accesses at all of these are said to fail by, loads and stores in turns.
type Names = Vec<Option<Reason>>;

fn names(why: &dyn Fn(&Access) -> Option<Reason>) -> Names {
    let (memory, ledger) = running();
    assert!(accepts(BOX_A, &memory, &ledger));
    let before = Before { machine: BOX_A, memory: &memory, ledger: &ledger };
    let all = addresses().into_iter().flat_map(|va| [(va, false), (va, true)]);
    all.map(|(va, store)| why(&Access { before, va, store, word: 0 })).collect()
}

/// The names that the second program gives.
fn right() -> Names {
    names(&|it| {
        let Before { machine, memory, ledger } = it.before;
        reason(machine, memory, ledger, it.va, it.store)
    })
}

/// By five tests, each said in a line, of which the first that holds counts.
#[test]
fn the_second_program_names_the_first() {
    assert_eq!(right(), names(&|it| it.plain()));
}

/// Other names than the right ones, each but once.
struct Unseen(BTreeSet<Names>);

impl Unseen {
    /// Whether these names are new. By answers they are not told apart.
    fn is_new(&mut self, name: &str, why: impl Fn(&Access) -> Option<Reason> + 'static) -> bool {
        let is_new = self.0.insert(names(&why));
        if is_new {
            assert_eq!(in_accesses(&Walks::why(why), 1), None, "{name} is seen");
        }
        is_new
    }
}

/// All orders of these.
fn orders(reasons: &[Reason]) -> Vec<Vec<Reason>> {
    let Some((first, rest)) = reasons.split_first() else { return vec![vec![]] };
    let with_first = |order: Vec<Reason>| {
        (0..reasons.len()).map(move |place| {
            let mut order = order.clone();
            order.insert(place, *first);
            order
        })
    };
    orders(rest).into_iter().flat_map(with_first).collect()
}

/// Where there is no table there is no slot: so it is all one whether "no
/// table" is asked before what is said of slots or after, and of 120 orders 72
/// differ, the right one among them.
#[test]
fn other_orders_cannot_be_seen() {
    let (all, mut unseen) = (orders(&Reason::ALL), Unseen([right()].into()));
    assert_eq!(all.len(), 120);
    for order in all {
        unseen.is_new(&format!("{order:?}"), move |it| it.first_of(&order));
    }
    assert_eq!(unseen.0.len(), 1 + 71);
}

/// One reason named in the place of another.
#[test]
fn other_names_cannot_be_seen() {
    let mut unseen = Unseen([right()].into());
    let pairs = Reason::ALL.into_iter().flat_map(|it| Reason::ALL.map(|other| (it, other)));
    for (one, other) in pairs.filter(|(one, other)| one != other) {
        let why = move |it: &Access| it.plain().map(|it| if it == one { other } else { it });
        assert!(unseen.is_new(&format!("{other} for: {one}"), why));
    }
    let mut instead = |name: &str, other: fn(&Access, Reason) -> Reason| {
        let why = move |it: &Access| it.plain().map(|reason| other(it, reason));
        assert!(unseen.is_new(name, why), "{name}");
    };
    instead("a load names the write right at an empty slot", |it, reason| match reason {
        EmptySlot if !it.store => NoWrite,
        _ => reason,
    });
    instead("a load names the write right at a misaligned address", |it, reason| match reason {
        Misaligned if !it.store && it.lacks(WRITE) => NoWrite,
        _ => reason,
    });
    instead("names 2^30 by its index", |it, reason| match it.va {
        ADDRESSES => it.at(0).plain().unwrap_or(NoTable),
        _ => reason,
    });
    instead("names addresses too high from 2^29 on", |it, reason| match reason {
        NoTable | EmptySlot if it.va >= ADDRESSES / 2 => TooHigh,
        _ => reason,
    });
    instead("names multiples of 2 by what comes after", |it, reason| match it.va % 4 {
        2 => it.at(it.va - 2).plain().unwrap_or(Misaligned),
        _ => reason,
    });
    assert_eq!(unseen.0.len(), 1 + 20 + 5);
}
