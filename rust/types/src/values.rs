use crate::layout::SAVED_WORDS;
use core::{array, fmt, iter, ops};

/// The values of an answer: at most as many words as registers are saved. It is
/// read as a slice.
///
/// ```
/// # extern crate types as monitor;
/// use monitor::Answer;
///
/// let values = Answer::Free { count: 3, lowest: 5 }.values();
/// assert_eq!(values[..], [3, 5]);
/// assert_eq!(values.into_iter().sum::<u32>(), 8);
/// assert!(Answer::Done.values().is_empty());
/// ```
#[derive(Clone, Copy, PartialEq, Eq, Hash)]
pub struct Values {
    words: [u32; SAVED_WORDS],
    count: usize,
}

impl Values {
    /// These words, of which there are not more than it holds.
    pub(crate) fn of(words: &[u32]) -> Values {
        let mut values = Values { words: [0; SAVED_WORDS], count: words.len() };
        values.words[..words.len()].copy_from_slice(words);
        values
    }
}

impl ops::Deref for Values {
    type Target = [u32];

    fn deref(&self) -> &[u32] {
        &self.words[..self.count]
    }
}

impl IntoIterator for Values {
    type Item = u32;
    type IntoIter = iter::Take<array::IntoIter<u32, SAVED_WORDS>>;

    fn into_iter(self) -> Self::IntoIter {
        self.words.into_iter().take(self.count)
    }
}

impl fmt::Debug for Values {
    fn fmt(&self, out: &mut fmt::Formatter) -> fmt::Result {
        (**self).fmt(out)
    }
}
