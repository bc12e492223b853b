//! The step that keeps sixteen words of the schedule, written here once more:
//! rolled rightly it is not told from the second program, rolled wrongly it is.

use differ::hashes::hashes;
use differ::services::{Hashes, Proved};
use second::layout::BLOCK_WORDS;
use second::sha::{round, words, Hash, ROUND, START};

/// The words of the schedule that are kept.
type Window = [u32; BLOCK_WORDS];

/// The word of number t takes the place of that of number t - 16, at `place`.
fn roll(w: &mut Window, place: usize) {
    let kept = |back: usize| w[(place + BLOCK_WORDS - back) % BLOCK_WORDS];
    let (x, y) = (kept(15), kept(2));
    let small0 = x.rotate_right(7) ^ x.rotate_right(18) ^ x >> 3;
    let small1 = y.rotate_right(17) ^ y.rotate_right(19) ^ y >> 10;
    w[place] = small1.wrapping_add(kept(7)).wrapping_add(small0).wrapping_add(w[place]);
}

/// A step: how a block takes the window, how the window is rolled before each
/// later lap, and where a lap's constants begin.
struct Rolled {
    load: fn(&mut Window, block: &[u32]),
    next: fn(&mut Window, lap: usize),
    constants: fn(lap: usize) -> usize,
}

/// The step as it should be.
const RIGHT: Rolled = Rolled {
    load: |w, block| w.copy_from_slice(block),
    next: |w, _| (0..BLOCK_WORDS).for_each(|place| roll(w, place)),
    constants: |lap| BLOCK_WORDS * lap,
};

impl Rolled {
    /// One block goes into the hash.
    fn step(&self, hash: Hash, w: &mut Window, block: &[u32]) -> Hash {
        (self.load)(w, block);
        let mut work = hash;
        for lap in 0..ROUND.len() / BLOCK_WORDS {
            if lap > 0 {
                (self.next)(w, lap);
            }
            for (constant, word) in ROUND[(self.constants)(lap)..].iter().zip(*w) {
                work = round(work, *constant, word);
            }
        }
        std::array::from_fn(|i| hash[i].wrapping_add(work[i]))
    }

    /// Whole blocks go into the hash, through one window.
    fn blocks(&self, hash: Hash, words: &[u32]) -> Hash {
        let w = &mut [0; BLOCK_WORDS];
        words.chunks(BLOCK_WORDS).fold(hash, |hash, block| self.step(hash, w, block))
    }

    /// SHA-256 of words that are padded here.
    fn padded(&self, mut message: Vec<u32>) -> Hash {
        let bits = 32 * message.len() as u64;
        message.push(0x8000_0000);
        while message.len() % BLOCK_WORDS != BLOCK_WORDS - 2 {
            message.push(0);
        }
        message.extend([(bits >> 32) as u32, bits as u32]);
        self.blocks(START, &message)
    }
}

impl Hashes for Rolled {
    fn absorb(&self, hash: Hash, words: &[u32]) -> Option<Hash> {
        words.len().is_multiple_of(BLOCK_WORDS).then(|| self.blocks(hash, words))
    }

    fn digest(&self, words: &[u32]) -> Hash {
        self.padded(words.to_vec())
    }

    fn hmac(&self, key: &[u32], text: &[u32]) -> Option<Hash> {
        let masked = |pad| (0..BLOCK_WORDS).map(move |i| pad ^ key.get(i).copied().unwrap_or(0));
        let keyed = |pad, text: &[u32]| self.padded(masked(pad).chain(text.to_vec()).collect());
        (key.len() <= BLOCK_WORDS).then(|| keyed(0x5c5c_5c5c, &keyed(0x3636_3636, text)))
    }
}

/// One step from the starting hash on the words 1 to 16, and the digest of
/// the standard's message of two blocks.
const CASES: [Hash; 2] = [
    [
        0x838338a4, 0xc2820d83, 0x73185b83, 0xbb3a721f, 0xb5606eb8, 0x01f73881, 0x4b60a127,
        0x84c69a47,
    ],
    [
        0x248d6a61, 0xd20638b8, 0xe5c02693, 0x0c3e6039, 0xa33ce459, 0x64ff2167, 0xf6ecedd4,
        0x19db06c1,
    ],
];

/// The same by somebody's hashes.
fn cases(by: &dyn Hashes) -> [Hash; 2] {
    let block: Window = std::array::from_fn(|place| place as u32 + 1);
    let two_blocks = words(b"abcdbcdecdefdefgefghfghighijhijkijkljklmklmnlmnomnopnopq");
    [by.absorb(START, &block).expect("a block"), by.digest(&two_blocks)]
}

#[test]
fn rolled_rightly() {
    assert_eq!(cases(&Proved), CASES);
    assert_eq!(cases(&RIGHT), CASES);
    assert_eq!(hashes(&RIGHT, 0), Ok(()));
}

/// A wrong step differs in a case, and the differential run finds it.
fn told_apart(name: &str, by: Rolled) {
    let found = hashes(&by, 0).err();
    println!("{name}: {}", found.as_deref().unwrap_or("NOT FOUND"));
    assert!(found.is_some() && cases(&by) != CASES, "{name}");
}

#[test]
fn rolled_wrongly() {
    told_apart(
        "reads W(t-15) after it was overwritten",
        Rolled {
            next: |w, _| [1, 0].into_iter().chain(2..BLOCK_WORDS).for_each(|place| roll(w, place)),
            ..RIGHT
        },
    );
    told_apart(
        "lets the last word of a lap stand",
        Rolled { next: |w, _| (0..BLOCK_WORDS - 1).for_each(|place| roll(w, place)), ..RIGHT },
    );
    told_apart(
        "rolls once and not for every lap",
        Rolled {
            next: |w, lap| {
                if lap == 1 {
                    (RIGHT.next)(w, lap);
                }
            },
            ..RIGHT
        },
    );
    told_apart(
        "begins the second lap's constants anew",
        Rolled { constants: |lap| if lap == 1 { 0 } else { BLOCK_WORDS * lap }, ..RIGHT },
    );
    told_apart(
        "begins the second lap's constants one too late",
        Rolled { constants: |lap| BLOCK_WORDS * lap + usize::from(lap == 1), ..RIGHT },
    );
    told_apart(
        "leaves rolled words of a block to the next",
        Rolled {
            load: |w, block| {
                if *w == [0; BLOCK_WORDS] {
                    w.copy_from_slice(block);
                }
            },
            ..RIGHT
        },
    );
}
