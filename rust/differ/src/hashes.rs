//! SHA-256 and HMAC against the second program's.

use crate::lent::random_words;
use crate::services::Hashes;
use crate::Outcome;
use second::layout::{BLOCK_WORDS, FRAME_WORDS};
use second::random::Rng;
use second::sha;

/// Messages of every length up to five blocks, and of some more.
pub fn hashes(ours: &dyn Hashes, seed: u64) -> Outcome {
    let rng = &mut Rng::new(seed);
    for words in (0..=80).chain([FRAME_WORDS - 1, FRAME_WORDS, FRAME_WORDS + 1]) {
        let message = random_words(rng, words);
        same("digest", words, ours.digest(&message), sha::digest(&sha::bytes(&message)))?;
        let start = std::array::from_fn(|_| rng.word());
        let whole = words.is_multiple_of(BLOCK_WORDS).then(|| sha::add(start, &message));
        same("absorb", words, ours.absorb(start, &message), whole)?;
        let key = random_words(rng, words % (BLOCK_WORDS + 2));
        let mac =
            (key.len() <= BLOCK_WORDS).then(|| sha::hmac(&sha::bytes(&key), &sha::bytes(&message)));
        same("hmac", words, ours.hmac(&key, &message), mac)?;
    }
    Ok(())
}

fn same<T: PartialEq + std::fmt::Debug>(what: &str, words: usize, ours: T, theirs: T) -> Outcome {
    match ours == theirs {
        true => Ok(()),
        false => Err(format!("{what} of {words} words: ours {ours:x?}, the second {theirs:x?}")),
    }
}
