//! A2 to A4: the header. The records are plain words here, of any type and
//! owner.

use super::broken::{a_page, Broken, Rule};
use super::lent::{Lent, Verdict};
use crate::demand::demand;
use crate::layout::{free_bit, kind, state, word, HEADER_WORDS, MAP_END, MOST_PAGES, RUNNING};

impl Lent<'_> {
    pub(super) fn header(&self) -> Verdict {
        self.running()?;
        (0..MOST_PAGES as usize).try_for_each(|number| self.free_bit(number))?;
        (MAP_END..HEADER_WORDS).try_for_each(|word| self.header_zero(word))
    }

    /// A2: word 0 is zero, or t + 1 where page t may run.
    fn running(&self) -> Verdict {
        let Some(thread) = self.ledger[RUNNING].checked_sub(1) else { return Ok(()) };
        self.may_run(thread).map_err(|fault| {
            let page = (thread < self.machine.pages).then_some(thread as usize);
            let fault = format!("the running thread's page {thread} {fault}");
            Broken::header(Rule::A2, page, RUNNING, fault)
        })
    }

    /// The page is below n, a thread, not suspended, and of a final owner.
    fn may_run(&self, page: u32) -> Result<(), String> {
        let n = self.machine.pages;
        demand(page < n, || format!("is not below {n}"))?;
        let record = self.record(page as usize);
        let kind = record[word::TYPE];
        demand(kind == kind::THREAD, || format!("is no thread but {}", a_page(kind)))?;
        let suspended = record[word::SUSPENDED];
        demand(suspended == 0, || format!("is suspended: word 3 of its record is {suspended}"))?;
        let owner = record[word::OWNER];
        demand(self.is_space(owner), || format!("has the owner {owner}, which is no space"))?;
        let found = self.record(owner as usize)[word::STATE];
        demand(found == state::FINAL, || {
            format!("is of space {owner}, whose state is {found}, not 1 (final)")
        })
    }

    /// Whether this is a page number and the page a space.
    pub(super) fn is_space(&self, page: u32) -> bool {
        page < self.machine.pages && self.record(page as usize)[word::TYPE] == kind::SPACE
    }

    /// A3: a bit of the free map is 1 exactly when it is a free page's.
    fn free_bit(&self, number: usize) -> Verdict {
        let (word, bit) = free_bit(number);
        let set = self.ledger[word] & bit != 0;
        if number >= self.machine.page_count() {
            let n = self.machine.pages;
            return demand(!set, || {
                let fault = format!("the bit of number {number} is 1, and pages are below {n}");
                Broken::header(Rule::A3, None, word, fault)
            });
        }
        let free = self.record(number)[word::TYPE] == kind::FREE;
        demand(set == free, || {
            let name = |free| if free { "free" } else { "taken" };
            let (map, record) = (name(set), name(free));
            let fault =
                format!("page {number} is {record} in its record and {map} in the free map");
            Broken::header(Rule::A3, Some(number), word, fault)
        })
    }

    /// A4: words 41-63 are zero.
    fn header_zero(&self, word: usize) -> Verdict {
        let found = self.ledger[word];
        demand(found == 0, || {
            Broken::header(Rule::A4, None, word, format!("expected zero, found {found}"))
        })
    }
}
