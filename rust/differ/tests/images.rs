//! Saved images on box A and on boxes of other sizes, by the proved library and
//! by the second program: what is written, which blocks are bad, what is in the
//! spare then.

use differ::images::stream::{mend, set, word};
use differ::old;
use differ::services::{Proved, Second, Services};
use second::cases::{BOX_A, KEY};
use second::layout::{record_of, BLOCK_BYTES, FRAME_WORDS, PROGRESS_WORDS, RECORD_WORDS};
use second::random::View;
use second::shift::record;
use second::{Machine, BAD_BLOCK, DONE, NOT_ACCEPTED, UNFIT};

/// By whom: both programs.
const SIDES: [&dyn Services; 2] = [&Proved, &Second];

/// What stands in a spare before.
const IN_MEMORY: u32 = 0xaaaa_aaaa;
const IN_LEDGER: u32 = 0xbbbb_bbbb;

/// A box: one that is saved, or a spare that is read into.
#[derive(Clone)]
struct Bench<'s> {
    by: &'s dyn Services,
    machine: Machine,
    memory: Vec<u32>,
    ledger: Vec<u32>,
    progress: Vec<u32>,
}

/// Making a state and saving it.
impl<'s> Bench<'s> {
    fn of(by: &'s dyn Services, machine: Machine, [memory, ledger]: [u32; 2]) -> Bench<'s> {
        Bench {
            by,
            machine,
            memory: vec![memory; machine.memory_words()],
            ledger: vec![ledger; machine.ledger_words()],
            progress: vec![0; PROGRESS_WORDS],
        }
    }

    /// Booted on zeros.
    fn booted(by: &'s dyn Services, machine: Machine) -> Bench<'s> {
        let mut bench = Bench::of(by, machine, [0, 0]);
        assert_eq!(by.boot(machine, &KEY, &mut bench.memory, &mut bench.ledger), DONE);
        bench
    }

    /// Box A after these calls, none refused.
    fn after(by: &'s dyn Services, calls: &[&[u32]]) -> Bench<'s> {
        let mut bench = Bench::booted(by, BOX_A);
        for call in calls {
            let mut answer = [9; RECORD_WORDS];
            let (memory, ledger) = (&mut bench.memory, &mut bench.ledger);
            assert_eq!(by.batch(BOX_A, memory, ledger, &record(call), &mut answer), DONE);
            assert_eq!(answer[0], DONE, "{call:?}");
        }
        bench
    }

    fn write(&self, number: u32, index: u32, block: &mut [u8]) -> u32 {
        let images = self.by.images();
        images.write(self.machine, &self.memory, &self.ledger, number, index, block)
    }

    /// The whole image.
    fn image(&self, number: u32) -> Vec<Vec<u8>> {
        let block = |index| {
            let mut block = vec![0x5a; BLOCK_BYTES];
            assert_eq!(self.write(number, index, &mut block), DONE);
            block
        };
        (0..self.by.images().blocks(self.machine)).map(block).collect()
    }
}

/// Reading.
impl<'s> Bench<'s> {
    fn spare(by: &'s dyn Services, machine: Machine) -> Bench<'s> {
        Bench::of(by, machine, [IN_MEMORY, IN_LEDGER])
    }

    fn read(&mut self, block: &[u8]) -> u32 {
        let Bench { by, machine, memory, ledger, progress } = self;
        by.images().read(*machine, memory, ledger, progress, block)
    }

    fn end(&mut self) -> u32 {
        self.by.images().end(self.machine, &self.memory, &self.ledger, &mut self.progress)
    }

    /// A spare with these blocks read, be they good or bad, and what the end says.
    fn reads(by: &'s dyn Services, machine: Machine, blocks: &[Vec<u8>]) -> (u32, Bench<'s>) {
        let mut spare = Bench::spare(by, machine);
        for block in blocks {
            spare.read(block);
        }
        (spare.end(), spare)
    }

    /// How many words of the ledger and of the secure frames were written, from
    /// the first on; all others are as lent.
    fn payload(&self) -> (usize, usize) {
        let written = |words: &[u32], lent: u32| {
            let many = words.iter().take_while(|word| **word != lent).count();
            assert!(words[many..].iter().all(|word| *word == lent));
            many
        };
        let first = self.machine.words_of(0).start;
        let (before, rest) = self.memory.split_at(first);
        let (secure, after) = rest.split_at(FRAME_WORDS * self.machine.page_count());
        assert!(before.iter().chain(after).all(|word| *word == IN_MEMORY));
        (written(&self.ledger, IN_LEDGER), written(secure, IN_MEMORY))
    }

    /// The spare is this state: ledger and secure frames.
    fn is(&self, state: &Bench) -> bool {
        let words = |of: &Bench| {
            let secure = &of.memory[of.machine.words_of(0).start..];
            [&of.ledger, &secure[..FRAME_WORDS * of.machine.page_count()]].concat()
        };
        words(self) == words(state)
    }
}

/// The stream is bad at this block, and so many words were written before.
fn bad_at(by: &dyn Services, name: &str, stream: &[Vec<u8>], place: u32) {
    let (code, spare) = Bench::reads(by, BOX_A, stream);
    assert_eq!((code, spare.progress[0], spare.progress[1]), (25, 25, place), "{name}");
    let words = 124 * place as usize;
    let ledger = words.min(320);
    assert_eq!(spare.payload(), (ledger, (words - ledger).min(8192)), "{name}");
}

/// A box of so many pages between a monitor frame and an insecure one.
fn with_pages(pages: u32) -> Machine {
    Machine { frames: pages + 2, secure: 1, pages, monitor: 0, monitors: 1 }
}

#[test]
fn the_first_block() {
    for by in SIDES {
        let block = &Bench::booted(by, BOX_A).image(7)[0];
        let words: Vec<u32> = (0..128).map(|place| word(block, place)).collect();
        let head = [7, 0, 69 + 65_536, 0, 1, 2, 3, 4, 5, 6, 7, 8, 255];
        assert_eq!(words[..13], head);
        assert!(words[13..127].iter().all(|word| *word == 0));
        assert_eq!(words[127], 0xbbde_2a8e);
        assert_eq!(block[508..], [0x8e, 0x2a, 0xde, 0xbb]);
    }
}

#[test]
fn totals() {
    for by in SIDES {
        for (pages, total) in [(1, 10), (8, 69), (15, 129), (30, 256), (256, 2181), (1024, 8722)] {
            assert_eq!(by.images().blocks(with_pages(pages)), total);
        }
        assert_eq!(by.images().blocks(with_pages(0)), 0);
        assert_eq!(by.images().blocks(with_pages(1025)), 0);
    }
}

/// Building, final, running, stopped: each is saved and read back.
#[test]
fn read_whole() {
    let calls: [&[u32]; 7] = [
        &[2, 0, 1],
        &[4, 0, 2, 0],
        &[6, 0, 3, 4099, 5],
        &[3, 0, 4, 4096],
        &[8, 0],
        &[9, 4],
        &[38, 0],
    ];
    let stopped = [&calls[..], &[&[11, 0]]].concat();
    for by in SIDES {
        for calls in [&calls[..0], &calls[..4], &calls[..5], &calls[..6], &stopped] {
            let state = Bench::after(by, calls);
            for number in [0, 7, u32::MAX] {
                let (code, spare) = Bench::reads(by, BOX_A, &state.image(number));
                assert_eq!((code, &spare.progress[..]), (0, &[0, 69, number, 0][..]));
                assert!(spare.is(&state));
            }
        }
    }
}

#[test]
fn boxes_of_other_sizes() {
    for by in SIDES {
        for pages in [1, 15, 30, 256, 1024] {
            let state = Bench::booted(by, with_pages(pages));
            let mut stream = state.image(u32::MAX);
            let (code, spare) = Bench::reads(by, with_pages(pages), &stream);
            assert!(code == DONE && spare.is(&state), "{pages}");
            let pages = pages as usize;
            assert_eq!(spare.payload(), (64 + 32 * pages, 1024 * pages));
            stream.pop();
            let (code, spare) = Bench::reads(by, with_pages(pages as u32), &stream);
            assert_eq!((code, spare.progress[1] as usize), (25, stream.len()), "{pages}");
        }
    }
}

/// Words that are all different, though they are no state.
#[test]
fn every_word_is_read() {
    for by in SIDES {
        for pages in [1, 8, 15, 30, 256, 1024] {
            let mut state = Bench::booted(by, with_pages(pages));
            let words = state.ledger.iter_mut().chain(&mut state.memory);
            words.zip(1..).for_each(|(word, number)| *word = number);
            let (code, spare) = Bench::reads(by, with_pages(pages), &state.image(0));
            assert!(code == NOT_ACCEPTED && spare.is(&state), "{pages}");
            let pages = pages as usize;
            assert_eq!(spare.payload(), (64 + 32 * pages, 1024 * pages));
        }
    }
}

/// The image of a state that is not accepted reads whole.
#[test]
fn not_accepted() {
    for by in SIDES {
        let mut state = Bench::after(by, &[&[2, 0, 1], &[3, 0, 4, 4096]]);
        state.ledger[record_of(4)][2] = 4097;
        let stream = state.image(3);
        let (code, mut spare) = Bench::reads(by, BOX_A, &stream);
        assert_eq!((code, &spare.progress[..]), (26, &[26, 69, 3, 0][..]));
        assert!(spare.is(&state));
        assert_eq!((spare.read(&stream[0]), spare.end()), (NOT_ACCEPTED, NOT_ACCEPTED));
        assert_eq!(spare.progress, [26, 69, 3, 0]);
        assert!(spare.is(&state));
    }
}

#[test]
fn too_few_too_many_or_out_of_order() {
    for by in SIDES {
        let stream = Bench::booted(by, BOX_A).image(7);
        bad_at(by, "none", &[], 0);
        bad_at(by, "68", &stream[..68], 68);
        let (_, spare) = Bench::reads(by, BOX_A, &stream[..68]);
        assert_eq!(spare.payload(), (320, 8112));
        bad_at(by, "block 0 twice", &[stream[0].clone(), stream[0].clone()], 1);
        bad_at(by, "block 0 missing", &stream[1..], 0);
        let mut swapped = stream.clone();
        swapped.swap(40, 41);
        bad_at(by, "swapped", &swapped, 40);
        let mut more = stream[68].clone();
        bad_at(by, "the last twice", &[&stream[..], &[more.clone()]].concat(), 69);
        set(&mut more, 1, 69);
        mend(&mut more);
        bad_at(by, "one more", &[&stream[..], &[more]].concat(), 69);
    }
}

/// A block is changed; its check is made right again, or is left.
#[test]
fn changed_blocks() {
    for by in SIDES {
        let stream = Bench::booted(by, BOX_A).image(7);
        let with = |place: u32, change: fn(&mut Vec<u8>)| {
            let mut other = stream.clone();
            change(&mut other[place as usize]);
            other
        };
        let payload = with(1, |block| set(block, 60, 1));
        bad_at(by, "a payload word", &payload, 1);
        let (_, spare) = Bench::reads(by, BOX_A, &payload);
        assert_eq!((spare.ledger[123], spare.ledger[124]), (0, IN_LEDGER));
        let words: [(&str, fn(&mut Vec<u8>)); 6] = [
            ("a check stored big-endian", |block| block[508..].reverse()),
            ("another number", |block| set(block, 0, 8)),
            ("another index", |block| set(block, 1, 67)),
            ("another total", |block| set(block, 2, 70 + 65_536)),
            ("a shorter block", |block| block.truncate(511)),
            ("a longer block", |block| block.push(0)),
        ];
        for (name, change) in words {
            [0, 1, 68].iter().for_each(|place| bad_at(by, name, &with(*place, change), *place));
        }
        let right: [fn(&mut Vec<u8>); 5] = [
            |block| set(block, 0, 8),
            |block| set(block, 1, 67),
            |block| set(block, 2, 69),
            |block| set(block, 2, 70 + 65_536),
            |block| set(block, 126, 1 << 31),
        ];
        for change in right {
            let mut other = with(68, change);
            mend(&mut other[68]);
            bad_at(by, "the check right", &other, 68);
        }
    }
}

/// An image of an older monitor, whose header had 32 words and whose word 2 was
/// the total alone: refused at block 0, nothing written.
#[test]
fn an_old_image() {
    for by in SIDES {
        let state = Bench::booted(by, BOX_A);
        let view = View { machine: BOX_A, memory: &state.memory, ledger: &state.ledger };
        let old: Vec<_> = old::blocks(view, 7).collect();
        assert_eq!((old.len(), word(&old[0], 2), word(&old[0], 127)), (69, 69, 0x3685_ad66));
        bad_at(by, "old", &old, 0);
        let mut plain = state.image(7);
        for block in &mut plain {
            set(block, 2, 69);
            mend(block);
        }
        bad_at(by, "the total alone", &plain, 0);
        let mut spare = Bench::spare(by, BOX_A);
        assert_eq!((spare.read(&old[0]), &spare.progress[..]), (25, &[25, 0, 0, 0][..]));
        assert_eq!(spare.payload(), (0, 0));
    }
}

/// Every bit of a block, its check included.
#[test]
fn every_bit_counts() {
    for by in SIDES {
        let mut spare = Bench::spare(by, BOX_A);
        let mut block = Bench::booted(by, BOX_A).image(7)[0].clone();
        for bit in 0..8 * BLOCK_BYTES {
            spare.progress.fill(0);
            block[bit / 8] ^= 1 << (bit % 8);
            assert_eq!(spare.read(&block), BAD_BLOCK, "{bit}");
            assert_eq!(spare.progress, [25, 0, 0, 0]);
            block[bit / 8] ^= 1 << (bit % 8);
        }
        assert_eq!(spare.payload(), (0, 0));
        spare.progress.fill(0);
        assert_eq!(spare.read(&block), DONE);
        assert_eq!((spare.payload(), &spare.progress[..]), ((124, 0), &[0, 1, 7, 0][..]));
    }
}

/// 25 and 26 stay, any other number counts as 25, and no word moves.
#[test]
fn any_progress() {
    for by in SIDES {
        let block = &Bench::booted(by, BOX_A).image(7)[0];
        for word in [1, 7, 18, 24, 25, 26, 27, 28, u32::MAX] {
            let mut spare = Bench::spare(by, BOX_A);
            let answer = if word == 26 { 26 } else { 25 };
            for came in [0, 69, u32::MAX] {
                spare.progress = vec![word, came, 7, 9];
                assert_eq!((spare.read(block), spare.end()), (answer, answer), "{word}");
                assert_eq!(spare.progress, [word, came, 7, 9]);
            }
            assert_eq!(spare.payload(), (0, 0));
        }
        let mut state = Bench::booted(by, BOX_A);
        for came in [69, 70, u32::MAX] {
            state.progress = vec![0, came, 5, 6];
            assert_eq!(state.end(), DONE);
            assert_eq!(state.progress, [0, came, 5, 6]);
        }
    }
}

/// 18 by the writer and the reader, and no word or byte moves.
#[test]
fn refused() {
    for by in SIDES {
        let state = Bench::booted(by, BOX_A);
        for (index, length) in [(0, 0), (0, 511), (0, 513), (69, 512), (70, 512), (u32::MAX, 512)] {
            let mut block = vec![0x5a; length];
            assert_eq!(state.write(7, index, &mut block), UNFIT, "{index}, {length}");
            assert!(block.iter().all(|byte| *byte == 0x5a));
        }
        for length in [0, 3, 5, 36] {
            let mut spare = Bench::spare(by, BOX_A);
            spare.progress = vec![25; length];
            assert_eq!((spare.read(&[0; BLOCK_BYTES]), spare.end()), (UNFIT, UNFIT), "{length}");
            assert!(spare.progress.iter().all(|word| *word == 25));
        }
        let mut spare = Bench::spare(by, Machine { pages: 7, ..BOX_A });
        assert_eq!(spare.read(&state.image(7)[0]), BAD_BLOCK);
        spare.progress.fill(0);
        spare.machine = BOX_A;
        assert_eq!((spare.read(&state.image(7)[0]), spare.end()), (UNFIT, UNFIT));
        assert_eq!(spare.progress, [0; 4]);
    }
}
