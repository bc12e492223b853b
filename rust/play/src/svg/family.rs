//! A space with its tables and pages, as the picture shows them.

use monitor::Space;

/// A space with what belongs to it.
pub struct Family {
    /// Its page.
    pub number: u32,
    pub space: Space,
    /// Its first-level table, or what stands there instead.
    pub first: Result<u32, String>,
    /// Its second-level tables, those that the first level names first.
    pub tables: Vec<Table>,
    /// Those for which there is no room.
    pub told: Vec<Table>,
    /// Slots of the first level that name no table of its own, as far as they
    /// are drawn.
    pub astray: Vec<Astray>,
    /// How many more of those there are.
    pub more: usize,
    /// Its data pages that no slot names.
    pub loose: Vec<u32>,
    /// Its threads; its spare pages and other first-level tables too, where they
    /// are drawn one by one.
    pub rest: Vec<u32>,
    /// Its spare pages, where they are not in the rest.
    pub spare: Vec<u32>,
    /// Its other pages that are told in words.
    pub listed: Vec<u32>,
}

/// A table, and the index where the first level names it.
pub type Named = (u32, Option<u32>);

/// An index of the first level, and what it names.
pub type Astray = (u32, String);

/// A second-level table.
pub struct Table {
    pub page: u32,
    /// Where the first level names it.
    pub index: Option<u32>,
    /// The slots that are drawn.
    pub drawn: Vec<Slot>,
    /// The others that are not empty.
    pub hidden: Vec<Slot>,
}

/// A slot that is not empty; on a large box, slots in a row that lead on from
/// each other.
pub struct Slot {
    /// Its number, and its word.
    pub first: u32,
    pub word: u32,
    pub count: u32,
    pub target: Target,
}

/// Where a slot leads: the first of a run.
pub enum Target {
    /// To a data page of the space's own; all of the run.
    Data(Vec<u32>),
    /// To an insecure frame.
    Insecure(u32),
    /// To a page that is not its own, or no data page.
    Page(u32),
    /// Elsewhere: its word leads to no page and to no insecure frame.
    Astray(u32),
}

impl Table {
    /// All slots that are not empty.
    pub fn slots(&self) -> impl Iterator<Item = &Slot> {
        self.drawn.iter().chain(&self.hidden)
    }
}

impl Slot {
    /// The data pages of the space's own that it leads to.
    pub fn data(&self) -> &[u32] {
        match &self.target {
            Target::Data(pages) => pages,
            _ => &[],
        }
    }
}

/// How many slots these are.
pub fn count<'s>(slots: impl IntoIterator<Item = &'s Slot>) -> usize {
    slots.into_iter().map(|slot| slot.count as usize).sum()
}
