//! "A shift on box A", row by row, with every word the rules name.

use second::cases::BOX_A;
use second::layout::{record_of, Record, FRAME_WORDS, KEY_START, MAP_START, RECORD_WORDS};
use second::sha::{bytes, digest, mac, Hash};
use second::{accepts, batch, boot, direct};

struct Shift {
    memory: Vec<u32>,
    ledger: Vec<u32>,
}

impl Shift {
    fn fresh(key: Hash) -> Shift {
        let mut memory: Vec<u32> =
            (0..BOX_A.memory_words() as u32).map(|i| i.wrapping_mul(2654435761)).collect();
        let mut ledger = vec![0xdead_beef; BOX_A.ledger_words()];
        assert_eq!(boot(BOX_A, &key, &mut memory, &mut ledger), 0);
        Shift { memory, ledger }
    }

    /// The whole answer record of one call in a batch of its own.
    fn call(&mut self, words: &[u32]) -> Record {
        let mut record = [0; RECORD_WORDS];
        record[..words.len()].copy_from_slice(words);
        let mut answer = [0xdead_beef; RECORD_WORDS];
        let code = batch(BOX_A, &mut self.memory, &mut self.ledger, &record, &mut answer);
        assert_eq!(code, 0);
        assert!(accepts(BOX_A, &self.memory, &self.ledger));
        assert!(direct::accepts(BOX_A, &self.memory, &self.ledger));
        answer
    }

    /// The answer record must be this, then zeros.
    fn gives(&mut self, words: &[u32], answer: &[u32]) {
        let mut expected = [0; RECORD_WORDS];
        expected[..answer.len()].copy_from_slice(answer);
        assert_eq!(self.call(words), expected, "call {words:?}");
    }

    fn record(&self, page: usize) -> &[u32] {
        &self.ledger[record_of(page)]
    }

    fn page(&self, page: usize) -> &[u32] {
        &self.memory[BOX_A.words_of(page)]
    }
}

fn whole_shift(key: Hash) {
    let mut shift = Shift::fresh(key);
    assert_eq!(shift.ledger[KEY_START..MAP_START], key);
    assert_eq!(shift.ledger[MAP_START], 255);
    row_1(&mut shift);
    row_2(&mut shift);
    row_3(&mut shift);
    row_4(&mut shift);
    row_5(&mut shift);
    attestation(&mut shift, key);
    row_6(&mut shift);
    row_7(&mut shift);
    row_8(&mut shift);
    let end = Shift::fresh(key);
    assert_eq!(shift.ledger, end.ledger, "all is free again");
}

fn row_1(shift: &mut Shift) {
    shift.gives(&[2, 0, 0], &[2]);
    shift.gives(&[2, 8, 8], &[1]);
    shift.gives(&[2, 0, 1], &[0]);
    shift.gives(&[2, 1, 2], &[2]);
    assert_eq!(shift.record(0)[..6], [1, 0, 1, 0, 1, 0]);
    assert_eq!(shift.record(1)[..3], [3, 0, 0]);
}

fn row_2(shift: &mut Shift) {
    shift.gives(&[4, 1, 2, 0], &[3]);
    shift.gives(&[4, 0, 2, 256], &[21]);
    shift.gives(&[4, 0, 2, 0], &[0]);
    shift.gives(&[4, 0, 3, 0], &[7]);
    assert_eq!(shift.page(1)[0], 3);
    assert_eq!(shift.record(2)[..3], [4, 0, 0]);
}

fn row_3(shift: &mut Shift) {
    shift.gives(&[6, 0, 3, 4194307, 2], &[8]);
    for frame in [6, 1, 16] {
        shift.gives(&[6, 0, 3, 4099, frame], &[9]);
    }
    shift.gives(&[6, 0, 3, 4099, 5], &[0]);
    assert_eq!(shift.page(2)[1], 36867);
    assert_eq!(shift.record(3)[..3], [5, 0, 4099]);
    assert_eq!(shift.page(3), &shift.memory[5 * FRAME_WORDS..6 * FRAME_WORDS]);
}

fn row_4(shift: &mut Shift) {
    shift.gives(&[3, 0, 4, 4096], &[0]);
    assert_eq!(shift.record(0)[5], 66);
    assert_eq!(shift.record(0)[4], 4);
    assert_eq!(shift.ledger[MAP_START], 224);
    shift.gives(&[13], &[0, 3, 5]);
    shift.gives(&[9, 4], &[5]);
}

/// The measurement as the hash of the whole message: page 3 with mapping word
/// 4099 and the words of frame 5, then the thread with entry 4096.
fn measurement(shift: &Shift) -> Hash {
    let mut message = vec![0; 16];
    message[..2].copy_from_slice(&[2, 4099]);
    message.extend(&shift.memory[5 * FRAME_WORDS..6 * FRAME_WORDS]);
    message.extend([1, 4096].iter().chain(&[0; 14]));
    digest(&bytes(&message))
}

fn row_5(shift: &mut Shift) {
    shift.gives(&[8, 0], &[0]);
    shift.gives(&[8, 0], &[4]);
    assert_eq!(shift.record(0)[5], 66);
    assert_eq!(shift.record(0)[6..14], measurement(shift));
    let mut whole = [0; RECORD_WORDS];
    whole[1..4].copy_from_slice(&[7, 8, 9]);
    whole[16] = 4096;
    assert_eq!(shift.call(&[9, 4, 7, 8, 9]), whole);
    assert_eq!(shift.ledger[0], 5);
}

fn row_6(shift: &mut Shift) {
    shift.gives(&[3, 0, 5, 4096], &[15]);
    shift.gives(&[42, 4096, 1234], &[0]);
    assert_eq!(shift.page(3)[0], 1234);
    shift.gives(&[41, 4096], &[0, 1234]);
    shift.gives(&[41, 4098], &[33]);
    shift.gives(&[41, 4096], &[15]);
}

/// Beyond the rows: what the thread attests, any thread can verify.
fn attestation(shift: &mut Shift, key: Hash) {
    let data = [11, 12, 13, 14, 15, 16, 17, 18];
    let measurement: Hash = shift.record(0)[6..14].try_into().unwrap();
    let expected = mac(&key, &measurement, &data);
    shift.gives(&[&[33][..], &data].concat(), &[&[0][..], &expected].concat());
    let good = [&[34][..], &data, &measurement, &expected].concat();
    shift.gives(&good, &[0, 1]);
    for word in 1..25 {
        let mut bad = good.clone();
        bad[word] ^= 1;
        shift.gives(&bad, &[0, 0]);
    }
}

fn row_7(shift: &mut Shift) {
    shift.gives(&[9, 4], &{
        let mut answer = [0; 18];
        answer[16] = 4096;
        answer
    });
    let mut interrupt = [39; 18];
    interrupt[17] = 0xffff_ffff;
    shift.gives(&interrupt, &[32]);
    assert_eq!(shift.record(4)[..4], [2, 0, 4096, 1]);
    assert_eq!(shift.record(4)[20], 0xf000_0000);
    shift.gives(&[9, 4], &[11]);
    let mut saved = [39; 18];
    saved[0] = 0;
    saved[17] = 0xf000_0000;
    shift.gives(&[10, 4], &saved);
    assert_eq!(shift.record(4)[3..], [0; RECORD_WORDS - 3]);
    shift.gives(&[38, 5], &[0, 5]);
    shift.gives(&[12, 3], &[13]);
}

fn row_8(shift: &mut Shift) {
    shift.gives(&[11, 0], &[0]);
    shift.gives(&[12, 0], &[14]);
    for page in [1, 2, 3, 4, 0] {
        shift.gives(&[12, page], &[0]);
    }
    shift.gives(&[12, 0], &[22]);
}

#[test]
fn with_small_keys() {
    whole_shift([1, 2, 3, 4, 5, 6, 7, 8]);
}

#[test]
fn with_another_key() {
    whole_shift([0xffff_ffff, 0, 0x8000_0000, 3, 0xdead_beef, 0x7fff_ffff, 1, 0x0102_0304]);
}
