//! Saved images: the plain twin does what the second program does, and the
//! sides of a row do the same work.

use bench::boxes::{small, Lent};
use bench::images::{self, Loading, Saving, READERS, WRITERS};
use bench::meter::Side;
use bench::plain;
use bench::rows::images::boxes;
use second::layout::{BLOCK_BYTES, CHECKED_BYTES, FRAME_WORDS, PROGRESS_WORDS};
use second::random::Rng;
use second::{crc, Machine, DONE};

/// The twin's writer and the second program's.
const TWINS: [images::Write; 2] = [plain::image::write, second::image_write];

/// A box whose words are drawn, accepted or not.
fn drawn(rng: &mut Rng, machine: Machine) -> Lent {
    let mut words = |many| (0..many).map(|_| rng.word()).collect();
    let memory = words(machine.memory_words());
    Lent { machine, memory, ledger: words(machine.ledger_words()) }
}

/// What both write, into as many bytes as are said: the code and the bytes.
fn written(lent: &Lent, index: u32, bytes: usize) -> (u32, Vec<u8>) {
    let Lent { machine, memory, ledger } = lent;
    let [twin, second] = TWINS.map(|write| {
        let mut block = vec![0x5a; bytes];
        (write(*machine, memory, ledger, 7, index, &mut block), block)
    });
    assert!(twin == second, "{machine:?}, block {index}, {bytes} bytes");
    twin
}

#[test]
fn the_twin_writes_as_the_second_program() {
    let mut rng = Rng::new(44);
    for pages in [1, 2, 8, 15] {
        let mut lent = drawn(&mut rng, small(pages));
        let blocks = second::image_blocks(lent.machine);
        assert_eq!(plain::image::blocks(lent.machine), blocks);
        (0..blocks).for_each(|index| assert_eq!(written(&lent, index, BLOCK_BYTES).0, DONE));
        assert_ne!(written(&lent, blocks, BLOCK_BYTES).0, DONE);
        for bytes in [0, BLOCK_BYTES - 1, BLOCK_BYTES + 1] {
            assert_ne!(written(&lent, 0, bytes).0, DONE);
        }
        lent.ledger.pop();
        assert_ne!(written(&lent, 0, BLOCK_BYTES).0, DONE);
        lent.machine.monitors = 0;
        assert_ne!(written(&lent, 0, BLOCK_BYTES).0, DONE);
        assert_eq!(plain::image::blocks(lent.machine), 0);
    }
}

/// Reads a block by both, which answer and leave the same; whether it is good.
fn is_good(spare: &mut (Lent, Vec<u32>), block: &[u8]) -> bool {
    let other = &mut spare.clone();
    let read = |read: images::Read, (lent, progress): &mut (Lent, Vec<u32>)| {
        read(lent.machine, &mut lent.memory, &mut lent.ledger, progress, block)
    };
    let [twin, second] = [read(plain::image::read, spare), read(second::image_read, other)];
    assert_eq!((twin, &spare.1), (second, &other.1));
    assert!(spare.0 == other.0);
    twin == DONE
}

/// The words of a block before its check.
const WORDS: usize = CHECKED_BYTES / 4;

/// A word of a block changed, and its check made right.
fn changed(block: &[u8], word: usize) -> Vec<u8> {
    let mut block = block.to_vec();
    block[4 * word] ^= 1;
    let check = crc::crc32(&block[..CHECKED_BYTES]);
    block[CHECKED_BYTES..].copy_from_slice(&check.to_le_bytes());
    block
}

#[test]
fn the_twin_reads_as_the_second_program() {
    let mut rng = Rng::new(45);
    for pages in [1, 8, 15] {
        let lent = drawn(&mut rng, small(pages));
        let mut spare = (drawn(&mut rng, lent.machine), vec![0; PROGRESS_WORDS]);
        let blocks = second::image_blocks(lent.machine);
        for index in 0..blocks {
            let block = written(&lent, index, BLOCK_BYTES).1;
            let all = if index + 1 == blocks { WORDS } else { 0 };
            for word in [0, 1, 2, 3, WORDS - 1].into_iter().chain(0..all) {
                is_good(&mut spare.clone(), &changed(&block, word));
            }
            let mut unsealed = block.clone();
            unsealed[rng.below(BLOCK_BYTES as u32) as usize] ^= 4;
            assert!(!is_good(&mut spare.clone(), &unsealed));
            assert!(!is_good(&mut spare.clone(), &block[1..]));
            assert!(is_good(&mut spare, &block));
            assert!(!is_good(&mut spare.clone(), &block), "it has come already");
        }
        assert!(spare.0.ledger == lent.ledger);
        for answer in [0, 1, 25, 26] {
            spare.1[0] = answer;
            assert!(!is_good(&mut spare.clone(), &[0; BLOCK_BYTES]));
        }
        assert!(!is_good(&mut (lent, vec![0; PROGRESS_WORDS + 1]), &[0; BLOCK_BYTES]));
    }
}

/// The image of a box by this writer.
fn saved(lent: &Lent, write: images::Write) -> Vec<u8> {
    let mut side = Saving::new(lent, write);
    side.prepare();
    side.run();
    side.image().to_vec()
}

/// An image as it is read by this reader.
fn loaded<'b>(image: &'b [u8], lent: &Lent, read: images::Read) -> Loading<'b> {
    let mut side = Loading::new(image, lent, read);
    side.prepare();
    side.run();
    side
}

#[test]
fn both_sides_do_the_same() {
    for (name, lent) in boxes() {
        assert_eq!(images::blocks(lent.machine), plain::image::blocks(lent.machine), "{name}");
        let [image, plain] = WRITERS.map(|write| saved(&lent, write));
        assert!(image == plain, "{name}");
        let [ours, plain] = READERS.map(|read| loaded(&image, &lent, read));
        assert!(ours.left() == plain.left(), "{name}");
        let (spare, progress) = ours.left();
        assert_eq!(progress, [0, images::blocks(lent.machine), 7, 0]);
        let start = lent.machine.words_of(0).start;
        let secure = start..start + FRAME_WORDS * lent.machine.page_count();
        assert!(spare.ledger == lent.ledger && spare.memory[secure.clone()] == lent.memory[secure]);
    }
}
