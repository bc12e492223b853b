//! Wrong sizes: other limits of n and F, another header, another free map, old
//! ledgers. Each monitor has one flaw and is told from the second program.

use differ::fitting::ill_fitting;
use differ::services::{Images, Second, Services};
use differ::tally::Tally;
use differ::{old, round};
use second::calls::number::FREE_PAGES;
use second::layout::{
    free_bit, kind, record_of, word, HEADER_WORDS, MAP_END, MAP_START, MOST_FRAMES, MOST_PAGES,
    RECORD_WORDS,
};
use second::random::Rng;
use second::{accepts, batch, boot, Machine, DONE, UNFIT};
use std::ops::Range;

/// The first difference in these rounds, as one of them finds it.
fn difference(
    seeds: impl Iterator<Item = u64>,
    one: impl Fn(u64, &mut Tally) -> Result<(), String>,
) -> Option<String> {
    let mut tally = Tally::default();
    let mut seeds = seeds;
    seeds.find_map(|seed| one(seed, &mut tally).err().map(|what| format!("seed {seed}: {what}")))
}

/// The first round is one on a box of the most pages, most of them taken.
fn in_rounds(services: &dyn Services) -> Option<String> {
    difference([7].into_iter().chain(0..32), |seed, tally| round(services, seed, tally))
}

/// In that part of rounds which tries numbers that do not fit.
fn in_fitting(services: &dyn Services, seeds: &[u64]) -> Option<String> {
    let seeds = seeds.iter().copied();
    difference(seeds, |seed, tally| ill_fitting(services, &mut Rng::new(seed), seed, tally))
}

/// Rounds that try n, and F, at its limit and one above.
const OF_PAGES: &[u64] = &[6, 7];
const OF_FRAMES: &[u64] = &[40, 41];

fn told(name: &str, found: Option<String>) {
    println!("{name}: {}", found.as_deref().unwrap_or("NOT FOUND"));
    assert!(found.is_some(), "{name}");
}

/// The services.
#[derive(Clone, Copy, Debug, PartialEq, Eq)]
enum Service {
    Boot,
    Accepts,
    Batch,
    Blocks,
    Write,
    Read,
    End,
}

/// Other limits in one of the services: the machine that it goes by, none where
/// it refuses.
#[derive(Clone, Copy)]
struct Limits {
    service: Service,
    seen: fn(Machine) -> Option<Machine>,
}

impl Limits {
    /// What a service goes by: a machine, and how much of memory and ledger.
    fn goes_by(&self, service: Service, m: Machine, lent: [usize; 2]) -> Option<Seen> {
        let machine = if service == self.service { (self.seen)(m)? } else { m };
        let [memory, ledger] = match machine == m {
            true => lent,
            false => [lent[0].min(machine.memory_words()), lent[1].min(machine.ledger_words())],
        };
        Some(Seen { machine, memory, ledger })
    }
}

struct Seen {
    machine: Machine,
    memory: usize,
    ledger: usize,
}

/// The ledger of a page less: the last page's free bit is not there.
fn shorter(ledger: &[u32], words: usize) -> Vec<u32> {
    let mut shorter = ledger[..words].to_vec();
    if words < ledger.len() {
        shorter[MAP_END] = 0;
    }
    shorter
}

impl Services for Limits {
    fn boot(&self, m: Machine, key: &[u32], memory: &mut [u32], ledger: &mut [u32]) -> u32 {
        let lengths = [memory.len(), ledger.len()];
        match self.goes_by(Service::Boot, m, lengths) {
            Some(it) => boot(it.machine, key, &mut memory[..it.memory], &mut ledger[..it.ledger]),
            None => UNFIT,
        }
    }

    fn accepts(&self, m: Machine, memory: &[u32], ledger: &[u32]) -> bool {
        let seen = self.goes_by(Service::Accepts, m, [memory.len(), ledger.len()]);
        seen.is_some_and(|it| {
            accepts(it.machine, &memory[..it.memory], &shorter(ledger, it.ledger))
        })
    }

    fn batch(
        &self,
        m: Machine,
        memory: &mut [u32],
        ledger: &mut [u32],
        calls: &[u32],
        answers: &mut [u32],
    ) -> u32 {
        let seen = self.goes_by(Service::Batch, m, [memory.len(), ledger.len()]);
        let Some(Seen { machine, memory: words, ledger: many }) = seen else { return UNFIT };
        if machine == m {
            return batch(m, memory, ledger, calls, answers);
        }
        let mut ledger = shorter(ledger, many);
        batch(machine, &mut memory[..words], &mut ledger, calls, answers)
    }

    fn images(&self) -> &dyn Images {
        self
    }
}

impl Images for Limits {
    fn blocks(&self, m: Machine) -> u32 {
        self.goes_by(Service::Blocks, m, [0, 0]).map_or(0, |it| Second.blocks(it.machine))
    }

    fn write(
        &self,
        m: Machine,
        memory: &[u32],
        ledger: &[u32],
        number: u32,
        index: u32,
        block: &mut [u8],
    ) -> u32 {
        let seen = self.goes_by(Service::Write, m, [memory.len(), ledger.len()]);
        let Some(it) = seen else { return UNFIT };
        let (memory, ledger) = (&memory[..it.memory], &ledger[..it.ledger]);
        Second.write(it.machine, memory, ledger, number, index, block)
    }

    fn read(
        &self,
        m: Machine,
        memory: &mut [u32],
        ledger: &mut [u32],
        progress: &mut [u32],
        block: &[u8],
    ) -> u32 {
        let seen = self.goes_by(Service::Read, m, [memory.len(), ledger.len()]);
        let Some(it) = seen else { return UNFIT };
        let (memory, ledger) = (&mut memory[..it.memory], &mut ledger[..it.ledger]);
        Second.read(it.machine, memory, ledger, progress, block)
    }

    fn end(&self, m: Machine, memory: &[u32], ledger: &[u32], progress: &mut [u32]) -> u32 {
        let seen = self.goes_by(Service::End, m, [memory.len(), ledger.len()]);
        let Some(it) = seen else { return UNFIT };
        Second.end(it.machine, &memory[..it.memory], &ledger[..it.ledger], progress)
    }
}

#[test]
fn wrong_limits() {
    let right = Limits { service: Service::Boot, seen: Some };
    assert_eq!(in_fitting(&right, OF_PAGES).or(in_fitting(&right, OF_FRAMES)), None);
    let limits: [(&str, &[u64], fn(Machine) -> Option<Machine>); 4] = [
        ("takes n of 1,025", OF_PAGES, |m| match m.pages {
            1025 => Some(Machine { pages: MOST_PAGES, ..m }),
            _ => Some(m),
        }),
        ("takes F of 16,385", OF_FRAMES, |m| match m.frames {
            16_385 => Some(Machine { frames: MOST_FRAMES, ..m }),
            _ => Some(m),
        }),
        ("takes n up to 256", OF_PAGES, |m| (m.pages <= 256).then_some(m)),
        ("takes F up to 4,096", OF_FRAMES, |m| (m.frames <= 4096).then_some(m)),
    ];
    use Service::{Accepts, Batch, Blocks, Boot, End, Read, Write};
    for (name, seeds, seen) in limits {
        for service in [Boot, Accepts, Batch, Blocks, Write, Read, End] {
            told(&format!("{service:?} {name}"), in_fitting(&Limits { service, seen }, seeds));
        }
    }
}

type DoBoot = fn(Machine, &[u32], &mut [u32], &mut [u32]) -> u32;
type DoAccepts = fn(Machine, &[u32], &[u32]) -> bool;
type DoBatch = fn(Machine, &mut [u32], &mut [u32], &[u32], &mut [u32]) -> u32;

/// Boot, acceptance and batch by whichever reading.
#[derive(Clone, Copy)]
struct Wrong {
    boot: DoBoot,
    accepts: DoAccepts,
    batch: DoBatch,
}

/// As the rules have it.
const RIGHT: Wrong = Wrong { boot, accepts, batch };

impl Services for Wrong {
    fn boot(&self, m: Machine, key: &[u32], memory: &mut [u32], ledger: &mut [u32]) -> u32 {
        (self.boot)(m, key, memory, ledger)
    }

    fn accepts(&self, m: Machine, memory: &[u32], ledger: &[u32]) -> bool {
        (self.accepts)(m, memory, ledger)
    }

    fn batch(
        &self,
        m: Machine,
        memory: &mut [u32],
        ledger: &mut [u32],
        calls: &[u32],
        answers: &mut [u32],
    ) -> u32 {
        (self.batch)(m, memory, ledger, calls, answers)
    }

    fn images(&self) -> &dyn Images {
        &Second
    }
}

fn told_apart(name: &str, flaw: Wrong) {
    told(name, in_rounds(&flaw));
}

/// Words of the free map: those that an older monitor had too, and others.
const EIGHT: Range<usize> = MAP_START..MAP_START + 8;
const BUT_EIGHT: Range<usize> = EIGHT.end..MAP_END;
const BUT_LAST: Range<usize> = MAP_START..MAP_END - 1;
const LAST: Range<usize> = MAP_END - 1..MAP_END;

macro_rules! boots_without {
    ($name:literal, $words:expr) => {
        told_apart(
            $name,
            Wrong {
                boot: |m, key, mem, led| {
                    let code = boot(m, key, mem, led);
                    if code == DONE {
                        led[$words].fill(0);
                    }
                    code
                },
                ..RIGHT
            },
        )
    };
}

#[test]
fn wrong_maps_of_boot() {
    boots_without!("sets the map's first eight words alone", BUT_EIGHT);
    boots_without!("does not set the map's last word", LAST);
}

/// What FreePages says where it goes by these words of the map.
fn counted(m: Machine, ledger: &[u32], words: Range<usize>) -> [u32; 2] {
    let count = ledger[words.clone()].iter().map(|word| word.count_ones()).sum();
    let lowest = words
        .clone()
        .find(|word| ledger[*word] != 0)
        .map(|word| u32::BITS * (word - MAP_START) as u32 + ledger[word].trailing_zeros());
    [count, lowest.unwrap_or(m.pages)]
}

/// After a batch that FreePages ends, its values are read from these words, or
/// one of them is.
macro_rules! counts {
    ($name:literal, $words:expr, $values:expr) => {
        told_apart(
            $name,
            Wrong {
                batch: |m, mem, led, calls, answers| {
                    let code = batch(m, mem, led, calls, answers);
                    let last = calls.len().wrapping_sub(RECORD_WORDS);
                    let asked = code == DONE && calls.get(last) == Some(&FREE_PAGES);
                    if asked && answers[last] == DONE {
                        let values = counted(m, led, $words);
                        $values.for_each(|value| answers[last + 1 + value] = values[value]);
                    }
                    code
                },
                ..RIGHT
            },
        )
    };
}

#[test]
fn wrong_counts_of_free_pages() {
    counts!("counts the map's first eight words alone", EIGHT, (0..1));
    counts!("looks for the lowest in the map's first eight words", EIGHT, (1..2));
    counts!("goes by the map's first eight words", EIGHT, (0..2));
    counts!("does not count the map's last word", BUT_LAST, (0..1));
    counts!("does not look for the lowest in the map's last word", BUT_LAST, (1..2));
}

/// The ledger with these words of its map made exact, where it has its length.
fn exact(m: Machine, ledger: &[u32], words: Range<usize>) -> Vec<u32> {
    let mut exact = ledger.to_vec();
    if !m.fits() || ledger.len() != m.ledger_words() {
        return exact;
    }
    exact[words.clone()].fill(0);
    for page in 0..m.page_count() {
        let (place, bit) = free_bit(page);
        if words.contains(&place) && ledger[record_of(page)][word::TYPE] == kind::FREE {
            exact[place] |= bit;
        }
    }
    exact
}

/// The ledger with these words of its header zero.
fn cleared(ledger: &[u32], words: Range<usize>) -> Vec<u32> {
    let mut cleared = ledger.to_vec();
    cleared.iter_mut().take(words.end).skip(words.start).for_each(|word| *word = 0);
    cleared
}

macro_rules! accepts_by {
    ($name:literal, $seen:expr) => {
        told_apart(
            $name,
            Wrong {
                accepts: |m, mem, led| {
                    let seen: fn(Machine, &[u32]) -> Vec<u32> = $seen;
                    accepts(m, mem, &seen(m, led))
                },
                ..RIGHT
            },
        )
    };
}

#[test]
fn wrong_looks_at_the_header() {
    accepts_by!("overlooks the map's last word", |m, led| exact(m, led, LAST));
    accepts_by!("looks at the map's first eight words alone", |m, led| exact(m, led, BUT_EIGHT));
    accepts_by!("overlooks word 63", |_, led| cleared(led, HEADER_WORDS - 1..HEADER_WORDS));
    accepts_by!("overlooks word 41", |_, led| cleared(led, MAP_END..MAP_END + 1));
    accepts_by!("of words 41-63 looks at 63 alone", |_, led| {
        cleared(led, MAP_END..HEADER_WORDS - 1)
    });
}

/// A ledger in the old form as it would be today.
fn renewed(ledger: &[u32]) -> Vec<u32> {
    let zeros = [0; HEADER_WORDS - EIGHT.end];
    [&ledger[..EIGHT.end], &zeros, &ledger[old::HEADER..]].concat()
}

/// Whether a ledger has the length of the old form.
fn is_old(m: Machine, ledger: &[u32]) -> bool {
    let words = old::HEADER + RECORD_WORDS * m.pages.min(old::PAGES) as usize;
    m.fits() && m.pages <= old::PAGES && ledger.len() == words
}

fn boot_old(m: Machine, key: &[u32], mem: &mut [u32], led: &mut [u32]) -> u32 {
    let mut new = renewed(led);
    let code = boot(m, key, mem, &mut new);
    led.copy_from_slice(&old::ledger(&new));
    code
}

fn batch_old(
    m: Machine,
    mem: &mut [u32],
    led: &mut [u32],
    calls: &[u32],
    answers: &mut [u32],
) -> u32 {
    let mut new = renewed(led);
    let code = batch(m, mem, &mut new, calls, answers);
    if code == DONE {
        led.copy_from_slice(&old::ledger(&new));
    }
    code
}

const TAKES_OLD: Wrong = Wrong {
    boot: |m, key, mem, led| match is_old(m, led) {
        true => boot_old(m, key, mem, led),
        false => boot(m, key, mem, led),
    },
    accepts: |m, mem, led| match is_old(m, led) {
        true => accepts(m, mem, &renewed(led)),
        false => accepts(m, mem, led),
    },
    batch: |m, mem, led, calls, answers| match is_old(m, led) {
        true => batch_old(m, mem, led, calls, answers),
        false => batch(m, mem, led, calls, answers),
    },
};

#[test]
fn old_ledgers_taken() {
    told_apart("boots a ledger of the old length", Wrong { boot: TAKES_OLD.boot, ..RIGHT });
    told_apart("accepts an old ledger", Wrong { accepts: TAKES_OLD.accepts, ..RIGHT });
    told_apart("obeys calls on an old ledger", Wrong { batch: TAKES_OLD.batch, ..RIGHT });
    told_apart("takes old ledgers", TAKES_OLD);
    told_apart(
        "has the old header in boxes up to 256 pages",
        Wrong {
            boot: |m, key, mem, led| match m.pages <= old::PAGES && !is_old(m, led) {
                true => UNFIT,
                false => (TAKES_OLD.boot)(m, key, mem, led),
            },
            accepts: |m, mem, led| {
                (m.pages > old::PAGES || is_old(m, led)) && (TAKES_OLD.accepts)(m, mem, led)
            },
            batch: |m, mem, led, calls, answers| match m.pages <= old::PAGES && !is_old(m, led) {
                true => UNFIT,
                false => (TAKES_OLD.batch)(m, mem, led, calls, answers),
            },
        },
    );
}

/// Whether this is an accepted ledger in the old form, of one page more.
fn is_one_more(m: Machine, mem: &[u32], led: &[u32]) -> bool {
    let more = Machine { pages: m.pages.saturating_add(1), ..m };
    is_old(more, led) && accepts(more, mem, &renewed(led))
}

#[test]
fn old_ledgers_of_one_page_more_taken() {
    told_apart(
        "accepts an old ledger of one page more",
        Wrong { accepts: |m, mem, led| is_one_more(m, mem, led) || accepts(m, mem, led), ..RIGHT },
    );
    told_apart(
        "obeys calls on an old ledger of one page more",
        Wrong {
            batch: |m, mem, led, calls, answers| match is_one_more(m, mem, led) {
                true => {
                    let more = Machine { pages: m.pages + 1, ..m };
                    batch_old(more, mem, led, calls, answers)
                }
                false => batch(m, mem, led, calls, answers),
            },
            ..RIGHT
        },
    );
}
