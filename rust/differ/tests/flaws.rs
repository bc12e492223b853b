//! Wrong monitors, each with one flaw, are told from the second program.

mod wrong_entries;

use differ::round;
use differ::services::{Images, Second, Services};
use differ::tally::Tally;
use second::calls::{number, Code};
use second::layout::{
    kind, record_of, state, word, BLOCK_WORDS, FRAME_WORDS, HASH_WORDS, HEADER_WORDS, MAP_END,
    MOST_CALLS, MOST_PAGES, RECORD_WORDS, SAVED_WORDS,
};
use second::mapping::{is_legal_entry, Leaf, Mapping, ADDRESSES, EXECUTE, WORD_BYTES};
use second::{accepts, batch, boot, sha, Machine, DONE, UNFIT};
use wrong_entries::{measure, take, Entries, May, RIGHT};

type Boot = fn(Machine, &[u32], &mut [u32], &mut [u32]) -> u32;
type Accepts = fn(Machine, &[u32], &[u32]) -> bool;
type Batch = fn(Machine, &mut [u32], &mut [u32], &[u32], &mut [u32]) -> u32;

/// The second program with one flaw in one of its services.
#[derive(Clone, Copy)]
enum Flaw {
    Boot(Boot),
    Accepts(Accepts),
    Batch(Batch),
}

impl Services for Flaw {
    fn boot(&self, m: Machine, key: &[u32], memory: &mut [u32], ledger: &mut [u32]) -> u32 {
        match self {
            Flaw::Boot(boot) => boot(m, key, memory, ledger),
            _ => boot(m, key, memory, ledger),
        }
    }

    fn accepts(&self, m: Machine, memory: &[u32], ledger: &[u32]) -> bool {
        match self {
            Flaw::Accepts(accepts) => accepts(m, memory, ledger),
            _ => accepts(m, memory, ledger),
        }
    }

    fn batch(
        &self,
        m: Machine,
        memory: &mut [u32],
        ledger: &mut [u32],
        calls: &[u32],
        answers: &mut [u32],
    ) -> u32 {
        match self {
            Flaw::Batch(batch) => batch(m, memory, ledger, calls, answers),
            _ => batch(m, memory, ledger, calls, answers),
        }
    }

    fn images(&self) -> &dyn Images {
        &Second
    }
}

/// The records of a ledger, be it one or not.
fn pages(ledger: &[u32]) -> impl Iterator<Item = &[u32]> {
    ledger.get(HEADER_WORDS..).unwrap_or_default().chunks_exact(RECORD_WORDS)
}

/// The first difference in so many rounds.
fn difference(services: &dyn Services, rounds: u64) -> Option<String> {
    let mut tally = Tally::default();
    (0..rounds).find_map(|seed| round(services, seed, &mut tally).err())
}

fn told_apart(name: &str, flaw: impl Services) {
    let found = difference(&flaw, 60);
    println!("{name}: {}", found.as_deref().unwrap_or("NOT FOUND"));
    assert!(found.is_some(), "{name}");
}

#[test]
fn the_second_program_is_not_told_from_itself() {
    assert_eq!(difference(&Second, 8), None);
}

#[test]
fn wrong_boots() {
    told_apart(
        "boots with a key of any length",
        Flaw::Boot(|m, key, mem, led| {
            let key: Vec<u32> =
                key.iter().copied().chain([0; HASH_WORDS]).take(HASH_WORDS).collect();
            boot(m, &key, mem, led)
        }),
    );
    told_apart(
        "leaves the last secure word",
        Flaw::Boot(|m, key, mem, led| {
            let last = (m.secure as usize + m.pages as usize) * FRAME_WORDS;
            let old = mem.get(last.wrapping_sub(1)).copied();
            let code = boot(m, key, mem, led);
            if let (DONE, Some(word)) = (code, old) {
                mem[last - 1] = word;
            }
            code
        }),
    );
    told_apart(
        "wipes frame 0",
        Flaw::Boot(|m, key, mem, led| {
            let code = boot(m, key, mem, led);
            if code == DONE {
                mem[..FRAME_WORDS].fill(0);
            }
            code
        }),
    );
    told_apart(
        "writes the ledger although it refuses",
        Flaw::Boot(|m, key, mem, led| {
            let code = boot(m, key, mem, led);
            if code != DONE {
                led.fill(0);
            }
            code
        }),
    );
}

#[test]
fn wrong_acceptances() {
    told_apart("says no to all", Flaw::Accepts(|_, _, _| false));
    told_apart("says yes to all", Flaw::Accepts(|_, _, _| true));
    told_apart(
        "overlooks the header's end",
        Flaw::Accepts(|m, mem, led| {
            let mut led = led.to_vec();
            led.iter_mut().take(HEADER_WORDS).skip(MAP_END).for_each(|word| *word = 0);
            accepts(m, mem, &led)
        }),
    );
    told_apart(
        "overlooks a last word of memory",
        Flaw::Accepts(|m, mem, led| {
            let mut mem = mem.to_vec();
            for page in 0..m.pages.min(MOST_PAGES) as usize {
                if led.get(record_of(page).start + word::TYPE) != Some(&kind::DATA) {
                    mem.get_mut((m.secure as usize + page + 1) * FRAME_WORDS - 1)
                        .into_iter()
                        .for_each(|w| *w = 0);
                }
            }
            accepts(m, &mem, led)
        }),
    );
    told_apart(
        "keeps the link rules of stopped spaces",
        Flaw::Accepts(|m, mem, led| {
            accepts(m, mem, led)
                && !pages(led).any(|page| {
                    page[word::TYPE] == kind::SPACE && page[word::STATE] == state::STOPPED
                })
        }),
    );
    told_apart(
        "lets the sum of secure frames wrap",
        Flaw::Accepts(|m, mem, led| {
            accepts(m, mem, led)
                || (m.secure.wrapping_add(m.pages) <= m.frames && m.secure > 1 << 16)
        }),
    );
}

#[test]
fn wrong_batches() {
    told_apart("refuses all", Flaw::Batch(|_, _, _, _, _| UNFIT));
    told_apart(
        "has a single reply",
        Flaw::Batch(|m, mem, led, calls, answers| {
            let code = batch(m, mem, led, calls, answers);
            if code == DONE {
                answers.fill(0);
            }
            code
        }),
    );
    told_apart(
        "moves nothing",
        Flaw::Batch(|m, mem, led, calls, answers| {
            batch(m, &mut mem.to_vec(), &mut led.to_vec(), calls, answers)
        }),
    );
    told_apart(
        "plays the whole list at its first record",
        Flaw::Batch(|m, mem, led, calls, answers| {
            let code = batch(m, mem, led, calls, &mut answers.to_vec());
            let (mut mem, mut led) = (mem.to_vec(), led.to_vec());
            batch(m, &mut mem, &mut led, calls, answers).max(code)
        }),
    );
    told_apart(
        "writes answers although it refuses",
        Flaw::Batch(|m, mem, led, calls, answers| {
            let code = batch(m, mem, led, calls, answers);
            if code == UNFIT {
                answers.fill(UNFIT);
            }
            code
        }),
    );
    told_apart(
        "takes a record more than a batch has",
        Flaw::Batch(|m, mem, led, calls, answers| {
            if calls.len() == RECORD_WORDS * (MOST_CALLS + 1) && answers.len() == calls.len() {
                let (first, last) = answers.split_at_mut(RECORD_WORDS);
                return batch(m, mem, led, &calls[..RECORD_WORDS], first).max(batch(
                    m,
                    mem,
                    led,
                    &calls[RECORD_WORDS..],
                    last,
                ));
            }
            batch(m, mem, led, calls, answers)
        }),
    );
}

/// After a batch of one record, spoils what the record's call has done.
fn spoiled(
    m: Machine,
    memory: &mut [u32],
    ledger: &mut [u32],
    calls: &[u32],
    answers: &mut [u32],
    spoil: fn(&[u32], &mut [u32], &mut [u32]),
) -> u32 {
    let code = batch(m, memory, ledger, calls, answers);
    if code == DONE && calls.len() == RECORD_WORDS {
        spoil(calls, answers, ledger);
    }
    code
}

macro_rules! spoils {
    ($name:literal, $spoil:expr) => {
        told_apart(
            $name,
            Flaw::Batch(|m, mem, led, calls, answers| spoiled(m, mem, led, calls, answers, $spoil)),
        )
    };
}

#[test]
fn wrong_calls() {
    spoils!("invents an owned count", |call, answer, ledger| {
        if call[0] == number::ALLOC_SPARE && answer[0] == DONE {
            ledger[record_of(call[1] as usize)][word::COUNT] += 1;
        }
    });
    spoils!("invents a block count", |call, answer, ledger| {
        if call[0] == number::INIT_THREAD && answer[0] == DONE {
            ledger[record_of(call[1] as usize)][word::BLOCKS] += 64;
        }
    });
    spoils!("invents a free count", |call, answer, _| {
        if call[0] == number::FREE_PAGES && answer[0] == DONE {
            answer[1] ^= 1;
        }
    });
    spoils!("leaves a resumed thread suspended", |call, answer, ledger| {
        if call[0] == number::RESUME && answer[0] == DONE {
            ledger[record_of(call[1] as usize)][word::SUSPENDED] = 1;
        }
    });
    spoils!("says 17 where 16 is meant", |_, answer, _| {
        if answer[0] == Code::NotOwnSpare as u32 {
            answer[0] = Code::NotOwnData as u32;
        }
    });
    spoils!("leaves a word in a refusal's record", |call, answer, _| {
        if answer[0] == Code::NoTable as u32 {
            answer[RECORD_WORDS - 1] = call[1];
        }
    });
    spoils!("keeps the low flags", |call, answer, ledger| {
        let interrupted = answer[0] == Code::Interrupted as u32;
        if call[0] == number::INTERRUPT && interrupted && call[SAVED_WORDS] & 1 == 1 {
            let mut pages = ledger[HEADER_WORDS..].chunks_mut(RECORD_WORDS);
            let suspended =
                pages.find(|page| page[word::TYPE] == kind::THREAD && page[word::SUSPENDED] == 1);
            suspended.expect("one is")[word::FLAGS] |= 1;
        }
    });
    spoils!("verifies anything", |call, answer, _| {
        if call[0] == number::VERIFY && answer[0] == DONE {
            answer[1] = 1;
        }
    });
}

/// What a call has mapped: for which space, by which mapping word, to which
/// frame; and the words that it copied.
struct Mapped {
    space: usize,
    map: Mapping,
    frame: u32,
    words: Vec<u32>,
}

impl Mapped {
    /// By a call that was done and left these words.
    fn by(call: &[u32], m: Machine, memory: &[u32], ledger: &[u32]) -> Mapped {
        let copied = |page: u32| memory[m.words_of(page as usize)].to_vec();
        let owner = |page: u32| ledger[record_of(page as usize)][word::OWNER];
        let (space, map, frame, words) = match call[0] {
            number::MAP_SECURE => (call[1], call[3], m.secure + call[2], copied(call[2])),
            number::MAP_INSECURE => (call[1], call[2], call[3], vec![]),
            _ => (owner(call[1]), call[2], m.secure + call[1], vec![]),
        };
        Mapped { space: space as usize, map: Mapping(map), frame, words }
    }

    /// A message for the hash: a block with this as its second word, then the
    /// words copied.
    fn message(&self, second: u32) -> Vec<u32> {
        [&[2, second][..], &[0; BLOCK_WORDS - 2], &self.words].concat()
    }
}

/// Where a space's record has its hash.
const HASH: std::ops::Range<usize> = word::HASH..word::HASH_END;

/// After a batch of one record, a call of this number that was done: its
/// space's hash is the one before with this message added.
fn measured(
    m: Machine,
    memory: &mut [u32],
    ledger: &mut [u32],
    calls: &[u32],
    answers: &mut [u32],
    (number, message): (u32, fn(&Mapped) -> Vec<u32>),
) -> u32 {
    let before = ledger.to_vec();
    let code = batch(m, memory, ledger, calls, answers);
    if code == DONE && calls.len() == RECORD_WORDS && [calls[0], answers[0]] == [number, DONE] {
        let mapped = Mapped::by(calls, m, memory, ledger);
        let record = record_of(mapped.space);
        let hash = before[record.clone()][HASH].try_into().expect("a hash");
        ledger[record][HASH].copy_from_slice(&sha::add(hash, &message(&mapped)));
    }
    code
}

macro_rules! measures {
    ($number:expr, $message:expr) => {
        Flaw::Batch(|m, mem, led, calls, answers| {
            measured(m, mem, led, calls, answers, ($number, $message))
        })
    };
}

#[test]
fn wrong_measurements() {
    let right = measures!(number::MAP_SECURE, |it| it.message(it.map.0));
    assert_eq!(difference(&right, 8), None);
    told_apart(
        "measures the page address, rights cleared",
        measures!(number::MAP_SECURE, |it| it.message(it.map.address())),
    );
    told_apart(
        "measures the slot's word",
        measures!(number::MAP_SECURE, |it| {
            it.message(Leaf { frame: it.frame, rights: it.map.rights() }.word())
        }),
    );
    told_apart(
        "measures the mapping word as the second of the words copied",
        measures!(number::MAP_SECURE, |it| {
            let mut message = it.message(it.map.address());
            message[BLOCK_WORDS + 1] = it.map.0;
            message
        }),
    );
    told_apart(
        "leaves the execute right out",
        measures!(number::MAP_SECURE, |it| it.message(it.map.0 & !EXECUTE)),
    );
    told_apart(
        "measures the mapping word of MapInsecure",
        measures!(number::MAP_INSECURE, |it| it.message(it.map.0)),
    );
    told_apart(
        "measures the mapping word of MapData",
        measures!(number::MAP_DATA, |it| it.message(it.map.0)),
    );
}

/// The highest legal entry.
const HIGHEST: u32 = ADDRESSES - WORD_BYTES;

/// Other readings of which entries are legal.
const LEGAL: [(&str, May); 11] = [
    ("takes any entry", |_| true),
    ("takes any multiple of 4", |it| it.entry.is_multiple_of(WORD_BYTES)),
    ("takes any entry below 2^30", |it| it.entry < ADDRESSES),
    ("takes multiples of 2", |it| it.entry.is_multiple_of(2) && it.entry < ADDRESSES),
    ("takes 2^30", |it| it.is_legal() || it.entry == ADDRESSES),
    ("takes multiples of 4 below 2^31", |it| is_legal_entry(it.entry & !ADDRESSES)),
    ("refuses 0", |it| it.is_legal() && it.entry != 0),
    ("refuses 2^30 - 4", |it| it.is_legal() && it.entry != HIGHEST),
    ("asks that the entry is mapped", |it| {
        it.is_legal() && (it.is_stopped() || it.leaf().is_some())
    }),
    ("asks that the entry can be executed", |it| {
        it.is_legal() && it.leaf().is_some_and(|leaf| leaf.rights & EXECUTE != 0)
    }),
    ("asks that the entry can be executed where it is mapped", |it| {
        let executes = |leaf: Leaf| leaf.rights & EXECUTE != 0;
        it.is_legal() && (it.is_stopped() || it.leaf().is_none_or(executes))
    }),
];

#[test]
fn wrong_entries_of_init_thread() {
    assert_eq!(difference(&RIGHT, 8), None);
    for (name, call) in LEGAL {
        told_apart(&format!("InitThread {name}"), Entries { call, ..RIGHT });
    }
    let checks = ["19", "15", "the space", "4", "the page's number", "2"];
    for (before, name) in checks.into_iter().enumerate() {
        told_apart(&format!("asks for the entry before {name}"), Entries { before, ..RIGHT });
    }
    let refuse = |refuse| Entries { refuse, ..RIGHT };
    told_apart(
        "says 6 where 23 is meant",
        refuse(|_, answer, _| answer[0] = Code::BadMapping as u32),
    );
    told_apart(
        "measures a thread that it refuses",
        refuse(|it, answer, ledger| {
            (RIGHT.refuse)(it, answer, ledger);
            measure(it, ledger);
        }),
    );
    told_apart(
        "takes the page of a thread that it refuses",
        refuse(|it, answer, ledger| {
            (RIGHT.refuse)(it, answer, ledger);
            take(it, ledger);
        }),
    );
    told_apart(
        "makes the entry legal and goes on",
        refuse(|it, _, ledger| {
            let it = it.with_entry(it.entry & HIGHEST);
            take(&it, ledger);
            measure(&it, ledger);
        }),
    );
}

#[test]
fn wrong_entries_of_acceptance() {
    for (name, accepts) in LEGAL {
        told_apart(&format!("acceptance {name}"), Entries { accepts, ..RIGHT });
    }
    let unasked: [(&str, May); 7] = [
        ("stopped spaces", |it| it.is_stopped() || it.is_legal()),
        ("building spaces", |it| it.is_building() || it.is_legal()),
        ("final spaces", |it| !it.is_building() && !it.is_stopped() || it.is_legal()),
        ("suspended threads", |it| it.is_suspended() || it.is_legal()),
        ("threads that are not suspended", |it| !it.is_suspended() || it.is_legal()),
        ("the running thread", |it| it.is_running() || it.is_legal()),
        ("threads that do not run", |it| !it.is_running() || it.is_legal()),
    ];
    for (name, accepts) in unasked {
        told_apart(&format!("acceptance does not ask of {name}"), Entries { accepts, ..RIGHT });
    }
}
