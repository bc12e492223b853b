//! Saved images: what is written, what is read, and which blocks are bad.

#[allow(dead_code)]
mod common;
mod saved;

use common::Lent;
use saved::{mend, set, word, written, written_of_old, Block, Reader, IN_LEDGER};
use second::cases::{BOX_A, KEY};
use second::layout::{record_of, BLOCK_BYTES, RECORD_WORDS};
use second::shift::record;
use second::{
    accepts, batch, boot, image_blocks, image_write, Machine, BAD_BLOCK, DONE, NOT_ACCEPTED, UNFIT,
};

/// Box A with zero memory, booted.
fn fresh() -> Lent {
    let (mut memory, mut ledger) = (vec![0; BOX_A.memory_words()], vec![0; BOX_A.ledger_words()]);
    assert_eq!(boot(BOX_A, &KEY, &mut memory, &mut ledger), DONE);
    Lent { memory, ledger }
}

/// The blocks of box A, booted, under number 7.
fn blocks() -> Vec<Block> {
    image(&fresh(), 7)
}

fn image(state: &Lent, number: u32) -> Vec<Block> {
    written(BOX_A, &state.memory, &state.ledger, number)
}

fn reader() -> Reader {
    Reader::new(BOX_A)
}

/// A box of so many pages with a frame of the monitor's before and an insecure
/// one behind.
fn with_pages(pages: u32) -> Machine {
    Machine { frames: pages + 2, secure: 1, pages, monitor: 0, monitors: 1 }
}

/// A stream that meets its first bad block at this place: the spare holds what
/// came before, nothing is written from then on, and the answer stays.
fn bad_at(name: &str, stream: &[Block], place: usize) {
    let before = reader().with(&stream[..place]);
    let (code, after) = reader().whole(stream);
    assert_eq!(code, BAD_BLOCK, "{name}");
    assert_eq!(after.progress[..2], [BAD_BLOCK, place as u32], "{name}");
    assert_eq!(after.progress[2..], before.progress[2..], "{name}");
    assert!(after.memory == before.memory && after.ledger == before.ledger, "{name}");
}

#[test]
fn totals() {
    for (pages, total) in [(1, 10), (8, 69), (15, 129), (30, 256), (256, 2181), (1024, 8722)] {
        assert_eq!(image_blocks(with_pages(pages)), total);
    }
    for pages in 1..=1024 {
        let (total, words) = (image_blocks(with_pages(pages)), 64 + 32 * pages + 1024 * pages);
        assert!(124 * total >= words && 124 * (total - 1) < words, "{pages}");
    }
    assert_eq!(image_blocks(BOX_A), 69);
    for machine in second::random::unfit_machines() {
        assert_eq!(image_blocks(machine), 0, "{machine:?}");
    }
}

#[test]
fn the_first_block() {
    let block = &blocks()[0];
    let words: Vec<u32> = (0..128).map(|place| word(block, place)).collect();
    assert_eq!(words[..4], [7, 0, 69 + 65_536, 0]);
    assert_eq!(words[4..12], KEY);
    assert_eq!(words[12], 255);
    assert!(words[13..127].iter().all(|word| *word == 0));
    assert_eq!(words[127], 0xbbde_2a8e);
    assert_eq!(block[508..], [0x8e, 0x2a, 0xde, 0xbb]);
}

/// Every word of the image stands where it belongs, and zeros behind.
#[test]
fn every_word_is_written() {
    let mut state = fresh();
    state.memory.iter_mut().zip(0x0100_0000..).for_each(|(word, number)| *word = number);
    state.ledger.iter_mut().zip(0x0200_0000..).for_each(|(word, number)| *word = number);
    assert!(!accepts(BOX_A, &state.memory, &state.ledger));
    let payload: Vec<u32> = image(&state, 9)
        .iter()
        .flat_map(|block| (3..127).map(|place| word(block, place)).collect::<Vec<_>>())
        .collect();
    let secure = &state.memory[6 * 1024..14 * 1024];
    let fill = vec![0; 69 * 124 - 8512];
    assert_eq!(payload, [&state.ledger[..], secure, &fill].concat());
}

#[test]
fn read_whole() {
    for number in [0, 1, 7, u32::MAX] {
        let state = Lent::accepted();
        let (code, after) = reader().whole(&image(&state, number));
        assert_eq!((code, &after.progress[..]), (DONE, &[0, 69, number, 0][..]));
        assert!(after.ledger == state.ledger);
        assert!(after.memory[6 * 1024..14 * 1024] == state.memory[6 * 1024..14 * 1024]);
        let other = [&after.memory[..6 * 1024], &after.memory[14 * 1024..]].concat();
        assert!(other.iter().all(|word| *word == saved::IN_MEMORY));
    }
}

#[test]
fn boxes_of_other_sizes() {
    for pages in [1, 2, 15, 30, 256, 1024] {
        let machine = with_pages(pages);
        let mut memory = vec![3; machine.memory_words()];
        let mut ledger = vec![3; machine.ledger_words()];
        assert_eq!(boot(machine, &KEY, &mut memory, &mut ledger), DONE);
        let stream = written(machine, &memory, &ledger, 5);
        let (code, after) = Reader::new(machine).whole(&stream);
        assert_eq!(code, DONE, "{pages}");
        assert_eq!(after.payload(), (64 + 32 * pages as usize, 1024 * pages as usize));
        assert!(after.ledger == ledger);
        let (code, after) = Reader::new(machine).whole(&stream[..stream.len() - 1]);
        assert_eq!((code, after.progress[1] as usize), (BAD_BLOCK, stream.len() - 1));
    }
}

#[test]
fn a_stopped_and_a_running_state() {
    let mut state = Lent::accepted();
    let mut answer = [0; RECORD_WORDS];
    let (memory, ledger) = (&mut state.memory, &mut state.ledger);
    assert_eq!(batch(BOX_A, memory, ledger, &record(&[9, 4]), &mut answer), DONE);
    assert_eq!((answer[0], state.ledger[0]), (DONE, 5));
    let (code, after) = reader().whole(&image(&state, 1));
    assert!(code == DONE && after.ledger == state.ledger);
    let (memory, ledger) = (&mut state.memory, &mut state.ledger);
    let calls = [record(&[38, 0]), record(&[11, 0])].concat();
    assert_eq!(batch(BOX_A, memory, ledger, &calls, &mut [0; 64]), DONE);
    let (code, after) = reader().whole(&image(&state, 1));
    assert!(code == DONE && after.ledger == state.ledger);
}

/// All blocks are good, so that the whole payload is in the spare.
#[test]
fn not_accepted() {
    let mut state = Lent::accepted();
    state.record(4)[2] = 4097;
    let mut after = reader().with(&image(&state, 3));
    let whole = after.clone();
    for _ in 0..2 {
        assert_eq!(after.end(), NOT_ACCEPTED);
        assert_eq!(after.progress, [NOT_ACCEPTED, 69, 3, 0]);
        assert!(after.ledger == state.ledger && after.ledger[record_of(4)][2] == 4097);
        assert!(after.memory == whole.memory);
    }
    // A later block finds the answer again.
    let ended = after.clone();
    assert_eq!(after.read(&image(&state, 3)[0]), NOT_ACCEPTED);
    assert!(after == ended);
}

#[test]
fn too_few_and_too_many() {
    let stream = blocks();
    for came in 0..69 {
        bad_at("cut", &stream[..came], came);
    }
    let (_, after) = reader().whole(&stream[..68]);
    assert_eq!(after.payload(), (320, 8112));
    let mut more = stream[68].clone();
    bad_at("the last twice", &[&stream[..], &[more.clone()]].concat(), 69);
    set(&mut more, 1, 69);
    mend(&mut more);
    bad_at("one more", &[&stream[..], &[more.clone()]].concat(), 69);
    set(&mut more, 2, 70 + 65_536);
    mend(&mut more);
    bad_at("one more of more", &[&stream[..], &[more]].concat(), 69);
}

#[test]
fn out_of_order() {
    let stream = blocks();
    for place in 0..68 {
        let mut swapped = stream.clone();
        swapped.swap(place, place + 1);
        bad_at("swapped", &swapped, place);
        let mut doubled = stream.clone();
        doubled.insert(place, stream[place].clone());
        bad_at("doubled", &doubled, place + 1);
        let mut dropped = stream.clone();
        dropped.remove(place);
        bad_at("dropped", &dropped, place);
    }
    bad_at("block 0 twice", &[stream[0].clone(), stream[0].clone()], 1);
    let mut back = stream.clone();
    back.reverse();
    bad_at("backwards", &back, 0);
}

#[test]
fn a_payload_changed() {
    let mut stream = blocks();
    let was = word(&stream[1], 60);
    set(&mut stream[1], 60, was ^ 0x0100);
    bad_at("check as it was", &stream, 1);
    let (_, after) = reader().whole(&stream);
    assert_eq!(after.payload(), (124, 0));
    assert_eq!(after.ledger[124], IN_LEDGER);
}

/// A bit is flipped anywhere in a block, its check included.
#[test]
fn every_bit_counts() {
    let state = Lent::accepted();
    let stream = image(&state, 7);
    for place in [0, 2, 68] {
        let before = reader().with(&stream[..place]);
        for bit in 0..8 * BLOCK_BYTES {
            let (mut after, mut block) = (before.clone(), stream[place].clone());
            block[bit / 8] ^= 1 << (bit % 8);
            assert_eq!(after.read(&block), BAD_BLOCK, "{bit}");
            assert_eq!(after.progress[..2], [BAD_BLOCK, place as u32]);
            assert!(after.ledger == before.ledger && after.memory == before.memory);
        }
    }
}

/// Word 0, 1 or 2 is another, and the check is right for it.
#[test]
fn wrong_words_with_a_right_check() {
    let stream = blocks();
    let with = |place: usize, number: usize, word: u32| {
        let mut other = stream.clone();
        set(&mut other[place], number, word);
        mend(&mut other[place]);
        other
    };
    for place in [1, 40, 68] {
        for number in [0, 6, 8, u32::MAX] {
            bad_at("another number", &with(place, 0, number), place);
        }
        for index in [0, place as u32 - 1, place as u32 + 1, 69, u32::MAX] {
            bad_at("another index", &with(place, 1, index), place);
        }
    }
    bad_at("another number after the first block", &with(0, 0, 8), 1);
    for place in [0, 1, 40, 68] {
        for total in [0, 69, 68 + 65_536, 70 + 65_536, 69 + 131_072, u32::MAX] {
            bad_at("another total", &with(place, 2, total), place);
        }
    }
    for word in 83..127 {
        bad_at("a wrong fill", &with(68, word, 1 << (word % 32)), 68);
    }
    assert_eq!(reader().whole(&with(68, 82, 1)).0, NOT_ACCEPTED);
}

#[test]
fn other_checks() {
    let stream = blocks();
    for place in [0, 1, 68] {
        let mut other = stream.clone();
        other[place][508..].reverse();
        bad_at("big-endian", &other, place);
        let mut other = stream.clone();
        let check = !word(&other[place], 127);
        set(&mut other[place], 127, check);
        bad_at("not inverted", &other, place);
        let mut other = stream.clone();
        let check = second::crc::crc32(&other[place][..504]);
        set(&mut other[place], 127, check);
        bad_at("of 504 bytes", &other, place);
    }
}

#[test]
fn blocks_of_another_length() {
    let stream = blocks();
    for length in (0..512).chain([513, 516, 1024]) {
        let mut other = stream.clone();
        other[1].resize(length, 0);
        bad_at("another length", &other, 1);
    }
}

#[test]
fn another_image() {
    let (stream, other) = (blocks(), image(&Lent::accepted(), 8));
    for place in [1, 2, 68] {
        bad_at("mixed", &[&stream[..place], &other[place..]].concat(), place);
    }
    let (machine, state) = (with_pages(7), fresh());
    let smaller =
        written(machine, &state.memory[..9 * 1024], &state.ledger[..machine.ledger_words()], 7);
    bad_at("of a smaller box", &smaller, 0);
}

/// An image of an older monitor, booted or not, and whatever its blocks hold:
/// nothing of it is read.
#[test]
fn an_old_image() {
    for state in [fresh(), Lent::accepted()] {
        let old = written_of_old(BOX_A, &state.memory, &state.ledger, 7);
        assert_eq!(old.len(), 69);
        bad_at("old", &old, 0);
        let mut plain = image(&state, 7);
        for block in &mut plain {
            set(block, 2, 69);
            mend(block);
        }
        bad_at("the plain total", &plain, 0);
    }
    let block = &written_of_old(BOX_A, &fresh().memory, &fresh().ledger, 7)[0];
    assert_eq!([2, 12, 127].map(|place| word(block, place)), [69, 255, 0x3685_ad66]);
    let mut after = reader();
    assert_eq!((after.read(block), after.payload()), (BAD_BLOCK, (0, 0)));
    assert_eq!(after.progress, [BAD_BLOCK, 0, 0, 0]);
}

/// 25 and 26 are the answers that a reader leaves; any other counts as 25.
#[test]
fn any_progress() {
    let (state, stream) = (fresh(), blocks());
    for word in [1, 7, 18, 24, 25, 26, 27, 28, 69, u32::MAX] {
        let answer = if word == 26 { NOT_ACCEPTED } else { BAD_BLOCK };
        for came in [0, 1, 69, u32::MAX] {
            let mut after = reader();
            after.progress = vec![word, came, 7, 9];
            let before = after.clone();
            assert_eq!((after.read(&stream[0]), after.end()), (answer, answer));
            assert!(after == before);
        }
    }
    for came in [69, 70, u32::MAX] {
        let mut after = Reader { memory: state.memory.clone(), ..reader() };
        after.ledger.copy_from_slice(&state.ledger);
        after.progress = vec![0, came, 5, 6];
        let before = after.clone();
        assert_eq!(after.end(), DONE);
        assert!(after == before);
        let mut block = stream[68].clone();
        set(&mut block, 1, came);
        mend(&mut block);
        assert_eq!(after.read(&block), BAD_BLOCK);
        assert_eq!(after.progress, [BAD_BLOCK, came, 5, 6]);
    }
    let mut after = reader();
    after.progress = vec![0, 0, 12345, 6];
    assert_eq!(after.read(&stream[0]), DONE);
    assert_eq!(after.progress, [0, 1, 7, 6]);
}

/// The writer's block, index, lengths and numbers.
#[test]
fn the_writer_refuses() {
    let Lent { memory, ledger } = fresh();
    let refused = |m, memory: &[u32], ledger: &[u32], index, length| {
        let mut block = vec![0x5a; length];
        assert_eq!(image_write(m, memory, ledger, 7, index, &mut block), UNFIT);
        assert!(block.iter().all(|byte| *byte == 0x5a));
    };
    for length in (0..512).chain([513, 1024]) {
        refused(BOX_A, &memory, &ledger, 0, length);
    }
    for index in [69, 70, 1 << 31, u32::MAX] {
        refused(BOX_A, &memory, &ledger, index, BLOCK_BYTES);
    }
    refused(BOX_A, &memory[1..], &ledger, 0, BLOCK_BYTES);
    refused(BOX_A, &memory, &ledger[1..], 0, BLOCK_BYTES);
    for machine in second::random::unfit_machines() {
        refused(machine, &memory, &ledger, 0, BLOCK_BYTES);
    }
}

/// The reader's lengths and numbers: 18 before all else, and nothing moves.
#[test]
fn the_reader_refuses() {
    let block = &blocks()[0];
    let refused = |reader: Reader| {
        for answer in [0, 7, 25, 26] {
            let mut after = reader.clone();
            after.progress.iter_mut().take(1).for_each(|word| *word = answer);
            let before = after.clone();
            assert_eq!((after.read(block), after.read(&[]), after.end()), (UNFIT, UNFIT, UNFIT));
            assert!(after == before);
        }
    };
    for length in [0, 1, 2, 3, 5, 36] {
        refused(Reader { progress: vec![0; length], ..reader() });
    }
    refused(Reader { memory: vec![0; 16 * 1024 - 1], ..reader() });
    refused(Reader { memory: vec![0; 16 * 1024 + 1], ..reader() });
    refused(Reader { ledger: vec![0; 319], ..reader() });
    refused(Reader { ledger: vec![0; 321], ..reader() });
    for machine in second::random::unfit_machines() {
        refused(Reader { machine, ..reader() });
    }
}
