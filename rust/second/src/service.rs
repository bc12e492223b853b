//! Boot, acceptance and batch over lent words, and advice about them.

use crate::accept::{accepted, fitting, Broken};
use crate::calls::record;
use crate::layout::{MOST_CALLS, RECORD_WORDS};
use crate::ledger::Ledger;
use crate::machine::Machine;
use crate::monitor::Monitor;
use crate::reason::Reason;
use crate::walk::Walk;

/// The answer of Boot and of a batch that was obeyed.
pub const DONE: u32 = 0;
/// The answer when numbers or lengths do not fit, or a state is not accepted.
pub const UNFIT: u32 = 18;

/// Boot: a fresh ledger with all pages free, secure frames zero.
pub fn boot(m: Machine, key: &[u32], mem: &mut [u32], led: &mut [u32]) -> u32 {
    let Ok(key) = key.try_into() else { return UNFIT };
    if fitting(m, mem, led).is_err() {
        return UNFIT;
    }
    led.copy_from_slice(&Ledger::fresh(m.page_count(), key).encode());
    for page in 0..m.page_count() {
        mem[m.words_of(page)].fill(0);
    }
    DONE
}

/// Acceptance: yes or no, and nothing is written.
pub fn accepts(m: Machine, mem: &[u32], led: &[u32]) -> bool {
    why(m, mem, led).is_none()
}

/// Why acceptance says no: the first demand of docs/RULES.md that is broken,
/// in the order A1 to A19, then of pages, then of words. None where it says
/// yes. Nothing is proved of it: it is advice. Its text may show words of the
/// state, secret ones too: see [`Broken`].
pub fn why(m: Machine, mem: &[u32], led: &[u32]) -> Option<Broken> {
    accepted(m, mem, led).err()
}

/// Why a load from, or a store to, this address by the running thread ends its
/// run; none where it would not, where no thread runs, or where the state is
/// not accepted. Call 41 or 42 shows 33 alone, whatever the reason.
pub fn reason(m: Machine, mem: &[u32], led: &[u32], va: u32, store: bool) -> Option<Reason> {
    let ledger = accepted(m, mem, led).ok()?;
    let owner = ledger.thread(ledger.running?)?.owner;
    let walk = Walk { machine: m, memory: mem, first: ledger.space(owner)?.first };
    let answer = if store { walk.store(va) } else { walk.load(va) };
    answer.err()
}

/// A batch: all is checked first, then the records are obeyed in order.
pub fn batch(
    m: Machine,
    mem: &mut [u32],
    led: &mut [u32],
    calls: &[u32],
    answers: &mut [u32],
) -> u32 {
    let list_fits = calls.len().is_multiple_of(RECORD_WORDS)
        && calls.len() <= MOST_CALLS * RECORD_WORDS
        && answers.len() == calls.len();
    if !list_fits {
        return UNFIT;
    }
    let Ok(ledger) = accepted(m, mem, led) else { return UNFIT };
    let mut monitor = Monitor { machine: m, ledger, memory: mem };
    for (call, answer) in
        calls.chunks_exact(RECORD_WORDS).zip(answers.chunks_exact_mut(RECORD_WORDS))
    {
        answer.copy_from_slice(&record(&monitor.obey(call)));
    }
    led.copy_from_slice(&monitor.ledger.encode());
    DONE
}
