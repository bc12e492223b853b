//! Calls as they are paid: each batch starts with acceptance, so that a lone
//! call pays all of it, and a call in a long list a small part.

use crate::lists::Work;
use second::layout::RECORD_WORDS;

/// What the library takes for a call or a pair of calls, in the meter's unit.
pub struct Paid {
    /// The call or the pair.
    pub name: &'static str,
    /// The pages of its box.
    pub pages: u32,
    /// Acceptance of the box: an empty batch.
    pub acceptance: f64,
    /// With every call in a batch of its own.
    pub alone: f64,
    /// The calls of the whole list.
    pub calls: usize,
    /// In one batch of the whole list, which all share the cost of.
    pub shared: f64,
    /// In the same batch, acceptance taken off.
    pub without: f64,
}

impl Paid {
    /// From what an empty batch cost, the calls alone, and the whole list.
    pub fn new(work: &Work, acceptance: f64, alone: f64, whole: f64) -> Paid {
        let times = work.times as f64;
        Paid {
            name: work.name,
            pages: work.lent.machine.pages,
            acceptance,
            alone,
            calls: work.calls.len() / RECORD_WORDS,
            shared: whole / times,
            without: (whole - acceptance) / times,
        }
    }
}
