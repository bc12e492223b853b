//! Holds the proved library to the second program: the same words are lent to
//! both, and after every service the answers and every lent word must agree.
//!
//! A run is a row of rounds. Each has a seed of its own, the run's seed plus
//! its place, so that a round that finds a difference can be had again alone.

pub mod accesses;
pub mod checks;
pub mod fitting;
pub mod hashes;
pub mod images;
pub mod lent;
pub mod old;
pub mod services;
pub mod shift;
pub mod tally;
pub mod twins;

use second::random::Rng;
use services::Services;
use tally::Tally;

/// What a round says: nothing, or how the two differ.
pub type Outcome = Result<(), String>;

/// One round: a shift on a random or a boundary machine with damage, old
/// ledgers and accesses to every end between, then images of its last state
/// and of another, then numbers and lengths that do not fit. Ends at the first
/// difference.
pub fn round(services: &dyn Services, seed: u64, tally: &mut Tally) -> Outcome {
    let rng = &mut Rng::new(seed);
    let found = shift::on_a_machine(services, rng, seed, tally)
        .and_then(|twins| {
            images::saved(services.images(), rng, seed, twins.view(), &mut tally.images)
        })
        .and_then(|()| fitting::ill_fitting(services, rng, seed, tally));
    tally.rounds += 1;
    found.map_err(|difference| format!("seed {seed}: {difference}"))
}

/// What both answered is what was expected.
fn expect(code: u32, expected: u32) -> Outcome {
    match code == expected {
        true => Ok(()),
        false => Err(format!("both answer {code}, and {expected} was expected")),
    }
}
