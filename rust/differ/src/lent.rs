//! Lent lists with words before and after them that nobody may touch.

use second::random::Rng;

/// Words, or bytes, on either side of a list.
const FENCE: usize = 8;

/// What lists are of.
pub trait Lendable: Copy + PartialEq {
    /// What stands on either side.
    const POST: Self;
}

impl Lendable for u32 {
    const POST: u32 = 0xfe9c_e0fe;
}

impl Lendable for u8 {
    const POST: u8 = 0xfe;
}

/// A list of words, or bytes, between two fences.
#[derive(Clone, Default, PartialEq, Eq)]
pub struct Fenced<T = u32>(Vec<T>);

impl<T: Lendable> Fenced<T> {
    /// A list of these words.
    pub fn new(words: &[T]) -> Fenced<T> {
        let mut list = Fenced(Vec::new());
        list.set(words);
        list
    }

    /// Other words, of any length, in its place.
    pub fn set(&mut self, words: &[T]) {
        self.0.clear();
        self.0.extend([T::POST; FENCE]);
        self.0.extend(words);
        self.0.extend([T::POST; FENCE]);
    }

    /// The words.
    pub fn words(&self) -> &[T] {
        &self.0[FENCE..self.0.len() - FENCE]
    }

    /// The words, to be written.
    pub fn words_mut(&mut self) -> &mut [T] {
        let end = self.0.len() - FENCE;
        &mut self.0[FENCE..end]
    }

    /// The first word that differs, fences included: its place in the list,
    /// below zero before it, and both words.
    pub fn difference(&self, other: &Fenced<T>) -> Option<(isize, T, T)> {
        if self.0 == other.0 {
            return None;
        }
        let place = self.0.iter().zip(&other.0).position(|(one, two)| one != two)?;
        Some((place as isize - FENCE as isize, self.0[place], other.0[place]))
    }
}

/// Everything that boot, acceptance and batch are lent.
#[derive(Clone)]
pub struct Lent {
    /// Boot's key.
    pub key: Fenced,
    /// The memory.
    pub memory: Fenced,
    /// The ledger.
    pub ledger: Fenced,
    /// The call records.
    pub calls: Fenced,
    /// The answer records.
    pub answers: Fenced,
}

/// The lists by name, in the order of [`Lent::lists`].
pub const NAMES: [&str; 5] = ["key", "memory", "ledger", "call", "answer"];

impl Lent {
    /// These words, and an answer list of random ones as long as the calls.
    pub fn new(rng: &mut Rng, key: &[u32], memory: &[u32], ledger: &[u32], calls: &[u32]) -> Lent {
        Lent {
            key: Fenced::new(key),
            memory: Fenced::new(memory),
            ledger: Fenced::new(ledger),
            calls: Fenced::new(calls),
            answers: Fenced::new(&random_words(rng, calls.len())),
        }
    }

    /// The five lists.
    pub fn lists(&self) -> [&Fenced; 5] {
        [&self.key, &self.memory, &self.ledger, &self.calls, &self.answers]
    }

    /// One of the five, to be changed.
    pub fn list(&mut self, place: usize) -> &mut Fenced {
        match place {
            0 => &mut self.key,
            1 => &mut self.memory,
            2 => &mut self.ledger,
            3 => &mut self.calls,
            _ => &mut self.answers,
        }
    }
}

/// So many random words.
pub fn random_words(rng: &mut Rng, count: usize) -> Vec<u32> {
    (0..count).map(|_| rng.word()).collect()
}

#[cfg(test)]
mod tests {
    use super::*;

    #[test]
    fn a_word_past_either_end_is_seen() {
        let list = Fenced::<u32>::new(&[1, 2, 3]);
        assert_eq!(list.difference(&list.clone()), None);
        for (place, word) in [(0, -8), (FENCE - 1, -1), (FENCE, 0), (FENCE + 3, 3)] {
            let mut other = list.clone();
            other.0[place] ^= 1;
            assert_eq!(list.difference(&other).map(|found| found.0), Some(word));
        }
    }
}
