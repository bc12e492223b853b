use crate::layout::KEY_WORDS;
use core::fmt;

/// What is printed in place of a key.
pub(crate) const NOT_SHOWN: &str = "Key(not shown)";

/// The key for attestations. Printed for debugging it shows none of its words.
///
/// It is not wiped when it goes. Each copy stays until it is overwritten: the
/// words that it was made of, each place that it was moved from, the key itself,
/// each clone, and the one that boot puts into the ledger's header. A host that
/// must wipe keeps the words in one place of its own, hands that to
/// `words::boot` of `monitor`, and makes no `Key`.
///
/// `==` stops at the first word that differs: it takes no constant time.
///
/// ```
/// # extern crate types as monitor;
/// use monitor::Key;
///
/// let key = Key::new([1, 2, 3, 4, 5, 6, 7, 8]);
/// assert_eq!(key.words()[7], 8);
/// assert_eq!(format!("{key:?}"), "Key(not shown)");
/// ```
#[derive(Clone, PartialEq, Eq)]
pub struct Key([u32; KEY_WORDS]);

impl Key {
    /// A key of these words.
    pub const fn new(words: [u32; KEY_WORDS]) -> Key {
        Key(words)
    }

    /// Its words. They are plain numbers, which print themselves.
    pub const fn words(&self) -> &[u32; KEY_WORDS] {
        &self.0
    }
}

impl fmt::Debug for Key {
    fn fmt(&self, out: &mut fmt::Formatter) -> fmt::Result {
        out.write_str(NOT_SHOWN)
    }
}
