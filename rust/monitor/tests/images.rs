//! Saved images: what a block holds, what comes back, what is refused and where.
//! Built and run with the feature `alloc` and without.

use monitor::layout::{
    block, BLOCK_BYTES, FRAME_WORDS, HEADER_WORDS, MOST_FRAMES, MOST_PAGES, PROGRESS_WORDS,
};
use monitor::{
    words, BadImage, Block, Call, Key, Ledger, List, Machine, Mapping, Memory, Monitor, Restore,
    Rule, Unfit,
};

const A: Machine = Machine::BOX_A;
const KEY: Key = Key::new([1, 2, 3, 4, 5, 6, 7, 8]);
/// What a spare holds before.
const LENT: [u32; 2] = [0xaaaa_aaaa, 0xbbbb_bbbb];

type Bench = Monitor<Vec<u32>, Vec<u32>>;

fn fresh(machine: Machine) -> Bench {
    let memory = Memory::over(vec![0; machine.memory_words()]);
    let ledger = Ledger::over(vec![0; machine.ledger_words()]);
    Monitor::boot_over(machine, memory, ledger, &KEY).expect("it fits")
}

/// Box A with a thread that runs.
fn running() -> Bench {
    let mut bench = fresh(A);
    let map = Mapping::at(4096).expect("a page").writable();
    let built = bench.batch_of([
        Call::InitAddrSpace { space: 0, first: 1 },
        Call::InitTable { space: 0, page: 2, index: 0 },
        Call::MapSecure { space: 0, page: 3, map, frame: 5 },
        Call::InitThread { space: 0, page: 4, entry: 4096 },
        Call::Finalise { space: 0 },
        Call::Enter { thread: 4, x: 1, y: 2, z: 3 },
        Call::Store { address: 4100, word: 77 },
    ]);
    assert!(built.is_ok() && bench.ledger().running() == Some(4));
    bench
}

fn saved(bench: &Bench, number: u32) -> Vec<Block> {
    bench.image(number).expect("it fits").collect()
}

fn spare(machine: Machine) -> Restore<Vec<u32>, Vec<u32>> {
    let memory = Memory::over(vec![LENT[0]; machine.memory_words()]);
    Restore::over(machine, memory, Ledger::over(vec![LENT[1]; machine.ledger_words()]))
        .expect("it fits")
}

/// What is bad, and how many words of ledger and memory were written by then.
fn refused<B: AsRef<[u8]>>(blocks: &[B]) -> (BadImage, usize, usize) {
    let mut restore = spare(A);
    let taken = blocks.iter().try_for_each(|block| restore.take(block.as_ref()));
    let (bad, restore) = restore.end().expect_err("refused");
    assert!(taken.is_ok() || taken == Err(bad), "the end says the same");
    let (memory, ledger) = restore.into_parts();
    let kept = |words: &[u32], lent| words.iter().filter(|word| **word == lent).count();
    let (mem, led) = (kept(memory.words(), LENT[0]), kept(ledger.words(), LENT[1]));
    (bad, A.ledger_words() - led, A.memory_words() - mem)
}

fn word(block: &Block, place: usize) -> u32 {
    u32::from_le_bytes(block[4 * place..4 * place + 4].try_into().expect("a word"))
}

#[test]
fn the_first_block() {
    let blocks = saved(&fresh(A), 7);
    let words: Vec<u32> = (0..BLOCK_BYTES / 4).map(|place| word(&blocks[0], place)).collect();
    assert_eq!(words[..13], [7, 0, 69 + 65536, 0, 1, 2, 3, 4, 5, 6, 7, 8, 255]);
    assert!(words[13..block::CHECK].iter().all(|word| *word == 0));
    assert_eq!(words[block::CHECK], 0xbbde_2a8e);
    assert_eq!(blocks[0][BLOCK_BYTES - 4..], [0x8e, 0x2a, 0xde, 0xbb]);
    for (index, one) in (0..).zip(&blocks) {
        let head = [block::NUMBER, block::INDEX, block::TOTAL].map(|place| word(one, place));
        assert_eq!(head, [7, index, 69 + block::TOTAL_FROM]);
    }
}

#[test]
fn as_many_blocks_as_are_said() {
    for (pages, total) in [(1, 10), (8, 69), (30, 256), (MOST_PAGES, 8722)] {
        let machine = Machine { frames: MOST_FRAMES, secure: 6, pages, monitor: 0, monitors: 2 };
        assert_eq!(words::image_blocks(machine), total);
        assert_eq!(machine.image_blocks(), total as usize);
        let bench = fresh(machine);
        let mut blocks = bench.image(0).expect("it fits");
        assert_eq!(blocks.len(), total as usize);
        assert!(blocks.next().is_some());
        assert_eq!(
            (blocks.len(), blocks.by_ref().count()),
            (total as usize - 1, total as usize - 1)
        );
        assert_eq!((blocks.next(), blocks.len()), (None, 0));
    }
    assert_eq!(words::image_blocks(Machine { monitors: 0, ..A }), 0);
    assert_eq!(Machine { monitors: 0, ..A }.image_blocks(), 0);
}

/// Ledger and secure frames come back, a running thread too; the other frames of
/// the spare stay.
#[test]
fn what_was_saved_comes_back() {
    let bench = running();
    for number in [0, 7, u32::MAX] {
        let mut restore = spare(A);
        assert_eq!((restore.came(), restore.number()), (0, None));
        for block in bench.image(number).expect("it fits") {
            assert_eq!(restore.take(&block), Ok(()));
        }
        assert_eq!((restore.came(), restore.number()), (69, Some(number)));
        let mut again = restore.end().expect("a whole image");
        assert_eq!(again.ledger(), bench.ledger());
        for frame in 0..A.frames {
            let (ours, theirs) = (again.memory().frame(frame), bench.memory().frame(frame));
            match A.page_in(frame) {
                Some(_) => assert_eq!(ours, theirs),
                None => assert_eq!(ours, Some(&[LENT[0]; FRAME_WORDS][..])),
            }
        }
        assert_eq!(
            again.call(Call::Load { address: 4100 }).map(|answer| answer.values()[0]),
            Ok(77)
        );
    }
}

#[test]
fn over_borrowed_words() {
    let blocks = saved(&running(), 1);
    let (mut memory, mut ledger) = ([0; A.memory_words()], [0; A.ledger_words()]);
    let (mem, led) = (Memory::over(&mut memory[..]), Ledger::over(&mut ledger[..]));
    let mut restore = Restore::over(A, mem, led).expect("it fits");
    assert!(blocks.iter().all(|block| restore.take(block).is_ok()));
    assert!(restore.end().is_ok());
    assert!(Monitor::over(A, Memory::over(&memory[..]), Ledger::over(&ledger[..])).accepted());
}

/// The first bad block is named by its place; the spare has the payload before it.
#[test]
fn bad_blocks() {
    let good = saved(&fresh(A), 7);
    let with = |place: usize, byte: usize| {
        let mut blocks = good.clone();
        blocks[place][byte] ^= 1;
        blocks
    };
    assert_eq!(refused(&good[..68]), (BadImage::Block(68), 320, 8112));
    assert_eq!(refused(&good[..0]), (BadImage::Block(0), 0, 0));
    assert_eq!(refused(&[&good[..], &good[68..]].concat()), (BadImage::Block(69), 320, 8192));
    assert_eq!(refused(&[good[0], good[0]]), (BadImage::Block(1), 124, 0));
    assert_eq!(refused(&good[1..]), (BadImage::Block(0), 0, 0));
    for byte in [0, 4, 8, 12, 507, 508, 511] {
        assert_eq!(refused(&with(1, byte)), (BadImage::Block(1), 124, 0), "{byte}");
    }
    let other = saved(&fresh(A), 8);
    assert_eq!(refused(&[&good[..2], &other[2..]].concat()), (BadImage::Block(2), 248, 0));
    let mut turned = good.clone();
    turned[0][BLOCK_BYTES - 4..].reverse();
    assert_eq!(refused(&turned), (BadImage::Block(0), 0, 0));
}

/// A block as versions before 0.5.0 wrote it says the bare total, with a right check.
#[test]
fn older_images() {
    let mut older = saved(&fresh(A), 7);
    let put = |block: &mut Block, place: usize, word: u32| {
        block[4 * place..4 * place + 4].copy_from_slice(&word.to_le_bytes());
    };
    put(&mut older[0], block::TOTAL, 69);
    put(&mut older[0], block::CHECK, 0x3685_ad66);
    assert_eq!(refused(&older), (BadImage::Block(0), 0, 0));
}

#[test]
fn blocks_of_another_length() {
    let good = saved(&fresh(A), 7);
    let long = [&good[0][..], &[0]].concat();
    for bytes in [&good[0][..511], &long, &[]] {
        assert_eq!(refused(&[bytes]), (BadImage::Block(0), 0, 0));
        assert_eq!(refused(&[&good[0][..], bytes]), (BadImage::Block(1), 124, 0));
    }
}

/// After a bad block nothing more is taken, good or not.
#[test]
fn once_bad_it_stays_bad() {
    let good = saved(&fresh(A), 7);
    let mut restore = spare(A);
    assert_eq!(restore.take(&good[0]), Ok(()));
    assert_eq!(restore.take(&good[2]), Err(BadImage::Block(1)));
    assert_eq!(restore.take(&good[1]), Err(BadImage::Block(1)));
    let (bad, mut again) = restore.end().expect_err("bad");
    assert_eq!((bad, again.came()), (BadImage::Block(1), 1));
    assert_eq!(again.take(&good[1]), Err(BadImage::Block(1)));
}

/// A state that is out of order is written, and refused when it is read.
#[test]
fn acceptance_comes_last() {
    let mut bench = fresh(A);
    bench.ledger_mut().words_mut()[HEADER_WORDS - 1] = 1;
    let mut blocks = saved(&bench, 7);
    assert_eq!(refused(&blocks), (BadImage::NotAccepted, 320, 8192));
    blocks[68][0] ^= 1;
    assert_eq!(refused(&blocks), (BadImage::Block(68), 320, 8112));
}

#[test]
fn what_does_not_fit() {
    let machine = Machine { monitors: 0, ..A };
    let (memory, ledger) = fresh(A).into_parts();
    let bench = Monitor::over(machine, memory, ledger);
    let numbers = Unfit::Numbers(Rule::Monitors);
    assert_eq!(bench.image(1).err(), Some(numbers));
    let (memory, ledger) = bench.into_parts();
    let (lent, kept) = (Memory::over(memory.words()), Ledger::over(&ledger.words()[1..]));
    let short = Unfit::Length { list: List::Ledger, found: 319, needed: 320 };
    assert_eq!(Monitor::over(A, lent, kept).image(1).err(), Some(short));
    let over = |machine, memory: usize, ledger: usize| {
        let (memory, ledger) = (Memory::over(vec![0; memory]), Ledger::over(vec![0; ledger]));
        Restore::over(machine, memory, ledger).err()
    };
    assert_eq!(over(machine, 16384, 320), Some(numbers));
    assert_eq!(over(A, 16384, 319), Some(short));
    let long = Unfit::Length { list: List::Memory, found: 16385, needed: 16384 };
    assert_eq!(over(A, 16385, 320), Some(long));
}

/// In words, what is lent may have any length: 18, and nothing is written.
#[test]
fn lengths_in_words() {
    let (memory, ledger) = fresh(A).into_parts();
    let (mut memory, mut ledger) = (memory.into_words(), ledger.into_words());
    let mut block = [9; BLOCK_BYTES + 1];
    for (index, bytes) in [(0, BLOCK_BYTES - 1), (0, BLOCK_BYTES + 1), (69, BLOCK_BYTES)] {
        let code = words::image_write(A, &memory, &ledger, 7, index, &mut block[..bytes]);
        assert_eq!((code, block), (words::UNFIT, [9; BLOCK_BYTES + 1]));
    }
    for length in [0, PROGRESS_WORDS - 1, PROGRESS_WORDS + 1] {
        let mut progress = vec![0; length];
        let code = words::image_read(A, &mut memory, &mut ledger, &mut progress, &block);
        assert_eq!(code, words::UNFIT);
        assert_eq!(words::image_end(A, &memory, &ledger, &mut progress), words::UNFIT);
        assert!(progress.iter().all(|word| *word == 0));
    }
}
