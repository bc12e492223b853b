use crate::key::{Key, NOT_SHOWN};
use crate::layout::{
    record_of, word, HEADER_WORDS, KEY_START, MAP_START, MAP_WORDS, RECORD_WORDS, RUNNING,
};
use crate::page::Page;
use crate::record::Record;
use core::fmt;

/// The ledger: a header and a record a page. `W` holds the words, as in
/// [`crate::Memory`].
///
/// The header holds the key, and a suspended thread's record its registers.
/// Printed for debugging it shows neither, but counts the pages by type; of the
/// header it shows the running page, where that is a thread's.
///
/// ```
/// # extern crate types as monitor;
/// use monitor::layout::record_of;
/// use monitor::{Ledger, Machine, Page};
///
/// let mut ledger = Ledger::zeros(Machine::BOX_A);
/// let spare = Page::Spare { owner: 4 };
/// ledger.words_mut()[record_of(7)].copy_from_slice(&spare.encode());
/// assert_eq!(ledger.page(7), Some(spare));
/// assert_eq!(ledger.running(), None);
/// assert_eq!(ledger.page_count(), 8);
/// let shown = "pages: 8, running: None, key: Key(not shown), types: {\"free\": 7, \"spare\": 1}";
/// assert_eq!(format!("{ledger:?}"), format!("Ledger {{ {shown} }}"));
/// ```
#[derive(Clone, PartialEq, Eq)]
pub struct Ledger<
    #[cfg(feature = "alloc")] W = alloc::vec::Vec<u32>,
    #[cfg(not(feature = "alloc"))] W,
>(W);

impl<W> Ledger<W> {
    /// A ledger over these words.
    pub const fn over(words: W) -> Ledger<W> {
        Ledger(words)
    }

    /// The words back.
    pub fn into_words(self) -> W {
        self.0
    }
}

impl<W: AsMut<[u32]>> Ledger<W> {
    /// All words, to be written. What is out of order is then refused.
    pub fn words_mut(&mut self) -> &mut [u32] {
        self.0.as_mut()
    }
}

impl<W: AsRef<[u32]>> Ledger<W> {
    /// All words.
    pub fn words(&self) -> &[u32] {
        self.0.as_ref()
    }

    fn header(&self, word: usize) -> u32 {
        self.words().get(word).copied().unwrap_or(0)
    }

    /// The running thread's page, as header word 0 names it: any number, in words
    /// that are not accepted.
    pub fn running(&self) -> Option<u32> {
        self.header(RUNNING).checked_sub(1)
    }

    /// The key for attestations: a copy more of it.
    pub fn key(&self) -> Key {
        Key::new(core::array::from_fn(|place| self.header(KEY_START + place)))
    }

    /// Whether the free map says that this page is free.
    pub fn is_free(&self, page: u32) -> bool {
        let (word, bit) = ((page / u32::BITS) as usize, page % u32::BITS);
        word < MAP_WORDS && self.header(MAP_START + word) >> bit & 1 == 1
    }

    /// How many pages have a record.
    pub fn page_count(&self) -> u32 {
        (self.words().len().saturating_sub(HEADER_WORDS) / RECORD_WORDS) as u32
    }

    /// The record of a page.
    pub fn record(&self, page: u32) -> Option<Record> {
        self.words().get(record_of(page))?.try_into().ok()
    }

    /// A page by its type; none for a page or a record that is none.
    pub fn page(&self, page: u32) -> Option<Page> {
        Page::decode(&self.record(page)?)
    }

    fn is_thread(&self, page: u32) -> bool {
        matches!(self.page(page), Some(Page::Thread(_)))
    }

    /// All pages in order, as far as their records are in order.
    pub fn pages(&self) -> impl Iterator<Item = Option<Page>> + '_ {
        (0..self.page_count()).map(|page| self.page(page))
    }
}

impl<W: AsRef<[u32]>> fmt::Debug for Ledger<W> {
    fn fmt(&self, out: &mut fmt::Formatter) -> fmt::Result {
        out.debug_struct("Ledger")
            .field("pages", &self.page_count())
            .field("running", &Running(self))
            .field("key", &format_args!("{NOT_SHOWN}"))
            .field("types", &Types(self))
            .finish()
    }
}

/// The running thread's page. What names no thread is not shown: in words that are
/// lent from a wrong place on it may be one of the key.
struct Running<'a, W>(&'a Ledger<W>);

impl<W: AsRef<[u32]>> fmt::Debug for Running<'_, W> {
    fn fmt(&self, out: &mut fmt::Formatter) -> fmt::Result {
        match self.0.running() {
            Some(page) if !self.0.is_thread(page) => out.write_str("out of order"),
            running => running.fmt(out),
        }
    }
}

/// The types by their numbers, and what is none.
const TYPES: [&str; 8] =
    ["free", "space", "thread", "first table", "table", "data", "spare", "out of order"];

/// How many pages there are of each type that there is.
struct Types<'a, W>(&'a Ledger<W>);

impl<W: AsRef<[u32]>> fmt::Debug for Types<'_, W> {
    fn fmt(&self, out: &mut fmt::Formatter) -> fmt::Result {
        let mut counts = [0; TYPES.len()];
        for page in self.0.pages() {
            let kind = page.map(|page| page.encode()[word::TYPE] as usize);
            counts[kind.unwrap_or(TYPES.len() - 1)] += 1;
        }
        let there = TYPES.iter().zip(counts).filter(|(_, count)| *count > 0);
        out.debug_map().entries(there).finish()
    }
}
