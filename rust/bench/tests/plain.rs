//! The plain side of the table answers as the second program does, so that
//! the two sides of a row do the same work.

use bench::plain::{self, Folded, Plain, CALLS};
use second::calls::Code;
use second::layout::RECORD_WORDS;
use second::random::{fresh, next_call, random_machine, Rng, View};
use second::{batch, sha, DONE};

#[test]
fn hashes_agree() {
    let mut rng = Rng::new(41);
    for blocks in [0, 1, 2, 64] {
        let words: Vec<u32> = (0..16 * blocks).map(|_| rng.word()).collect();
        let mut hash = plain::sha::START;
        plain::sha::absorb(&mut hash, &words);
        assert_eq!(hash, sha::add(sha::START, &words));
    }
    let words: Vec<u32> = (0..24).map(|_| rng.word()).collect();
    let key = std::array::from_fn(|place| words[place]);
    let mac = plain::sha::mac(&key, &words[8..16], &words[16..]);
    assert_eq!(mac, sha::mac(&key, &words[8..16], &words[16..]));
}

/// The published value, and the proved one of every length up to a block's.
#[test]
fn checks_agree() {
    assert_eq!(plain::crc::crc32(b"123456789"), 0xcbf4_3926);
    let mut rng = Rng::new(43);
    let bytes: Vec<u8> = (0..512).map(|_| rng.word() as u8).collect();
    for many in 0..=bytes.len() {
        assert_eq!(plain::crc::crc32(&bytes[..many]), crc::crc32(&bytes[..many]), "{many} bytes");
    }
}

#[test]
fn calls_agree() {
    let mut rng = Rng::new(42);
    let mut seen = std::collections::BTreeSet::new();
    for _ in 0..240 {
        let machine = random_machine(&mut rng);
        if machine.frames > 30 {
            continue;
        }
        let (mut memory, mut ledger) = fresh(&mut rng, machine);
        for _ in 0..150 {
            let call = next_call(&mut rng, View { machine, memory: &memory, ledger: &ledger });
            let (old_memory, old_ledger) = (memory.clone(), ledger.clone());
            let mut answer = [0; RECORD_WORDS];
            assert_eq!(batch(machine, &mut memory, &mut ledger, &call, &mut answer), DONE);
            if !CALLS.iter().any(|(number, _)| *number == call[0]) {
                continue;
            }
            for twin in [plain::batch::<Plain>, plain::batch::<Folded>] {
                let (mut mem, mut led) = (old_memory.clone(), old_ledger.clone());
                let mut plainly = [7; RECORD_WORDS];
                assert_eq!(twin(machine, &mut mem, &mut led, &call, &mut plainly), DONE);
                assert!(plainly == answer && mem == memory && led == ledger, "{call:?}");
            }
            seen.insert((call[0], answer[0]));
        }
    }
    let done_and_bad = [DONE, Code::BadRecord as u32];
    for (number, code) in CALLS.iter().flat_map(|(call, _)| done_and_bad.map(|code| (*call, code)))
    {
        assert!(seen.contains(&(number, code)), "call {number} answered {code}");
    }
}
