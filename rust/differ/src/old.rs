//! Ledgers and images of an older monitor, whose header had 32 words, whose
//! boxes had at most 256 pages, and whose blocks had the total alone in word 2.
//! None of them is taken.

use crate::images::stream::{mend, set};
use crate::tally::Tally;
use crate::twins::Twins;
use crate::{expect, Outcome};
use second::layout::{
    BLOCK_BYTES, FRAME_WORDS, HEADER_WORDS, MAP_START, PAYLOAD_WORDS, RECORD_WORDS,
};
use second::random::{Rng, View};
use second::{image_blocks, Machine, NOT_ACCEPTED, UNFIT};

/// Words of its header, and where the free map ends there.
pub const HEADER: usize = 32;
const MAP_END: usize = MAP_START + 8;
/// Pages of its boxes at most.
pub const PAGES: u32 = 256;

/// This ledger, of so many pages at most, as it would have it.
pub fn ledger(words: &[u32]) -> Vec<u32> {
    [&words[..MAP_END], &[0; HEADER - MAP_END], &words[HEADER_WORDS..]].concat()
}

/// The blocks of its image of this state, under this number.
pub fn blocks(state: View, number: u32) -> impl Iterator<Item = Vec<u8>> {
    let machine = state.machine;
    let secure = &state.memory[machine.words_of(0).start..][..FRAME_WORDS * machine.page_count()];
    let words = [&ledger(state.ledger), secure].concat();
    let total = words.len().div_ceil(PAYLOAD_WORDS);
    (0..total).map(move |index| {
        let mut block = vec![0; BLOCK_BYTES];
        let head = [number, index as u32, total as u32];
        let payload = words.iter().skip(index * PAYLOAD_WORDS).take(PAYLOAD_WORDS);
        let words = head.iter().chain(payload).enumerate();
        words.for_each(|(place, word)| set(&mut block, place, *word));
        mend(&mut block);
        block
    })
}

/// An accepted state whose ledger is lent in the old form: its length is one that
/// no service takes. One of a page more has the right length, and is refused by
/// acceptance, whichever page is left out.
pub fn lent(rng: &mut Rng, twins: &mut Twins, tally: &mut Tally) -> Outcome {
    let (machine, new) = (twins.machine, twins.lent().ledger.clone());
    if machine.pages > PAGES {
        return Ok(());
    }
    let fresh = twins.is_fresh();
    twins.change(|lent| lent.ledger.set(&ledger(new.words())));
    tally.met(met::LENGTH);
    of_old_length(rng, twins, tally)?;
    for secure in [machine.secure, machine.secure + 1] {
        if machine.pages > 1 {
            twins.machine = Machine { secure, pages: machine.pages - 1, ..machine };
            tally.met(if fresh { met::FRESH } else { met::USED });
            of_one_page_more(rng, twins, tally)?;
        }
    }
    twins.machine = machine;
    twins.change(|lent| lent.ledger.clone_from(&new));
    Ok(())
}

/// All services refuse.
fn of_old_length(rng: &mut Rng, twins: &mut Twins, tally: &mut Tally) -> Outcome {
    not_accepted(rng, twins, tally)?;
    expect(twins.boot(tally)?, UNFIT)?;
    let block = [0; BLOCK_BYTES];
    twins.lend(|savers| {
        expect(savers.write(rng.word(), 0, &block, &mut tally.images)?, UNFIT)?;
        expect(savers.read(&block, &mut tally.images)?, UNFIT)?;
        expect(savers.end(&mut tally.images)?, UNFIT)
    })
}

/// Acceptance says no, also where it is asked by the end of a reading.
fn of_one_page_more(rng: &mut Rng, twins: &mut Twins, tally: &mut Tally) -> Outcome {
    not_accepted(rng, twins, tally)?;
    let total = image_blocks(twins.machine);
    twins.lend(|savers| {
        savers.set_progress(&[0, total, rng.word(), 0]);
        expect(savers.end(&mut tally.images)?, NOT_ACCEPTED)
    })
}

fn not_accepted(rng: &mut Rng, twins: &mut Twins, tally: &mut Tally) -> Outcome {
    if twins.accepts()? {
        return Err(format!("an old ledger is accepted: {:?}", twins.machine));
    }
    let calls = vec![1; RECORD_WORDS * rng.below(2) as usize];
    expect(twins.batch(rng, &calls, tally)?, UNFIT)
}

/// What is tried of ledgers.
pub mod met {
    #![allow(missing_docs)]
    pub const LENGTH: &str = "an old ledger";
    pub const FRESH: &str = "an old ledger of one page more, fresh";
    pub const USED: &str = "an old ledger of one page more, in use";
    /// All of these.
    pub const ALL: [&str; 3] = [LENGTH, FRESH, USED];
}
