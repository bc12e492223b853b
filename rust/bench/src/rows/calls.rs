//! Lists of calls. Acceptance, which each batch starts with, is measured by
//! an empty batch on the same box and taken off.

use super::Row;
use crate::lists::Work;
use crate::meter::{Meter, Side};
use crate::paid::Paid;
use crate::sides::{agree, batch, Batching, BATCHES};

/// The row of a list, for each call or pair of calls, and what is paid for it.
pub fn rows(meter: &Meter, work: &Work) -> (Row, Paid) {
    let sides = |calls| BATCHES.map(|batch| Batching::new(&work.lent, vec![calls], batch));
    let (mut whole, mut empty) = (sides(&work.calls[..]), sides(&[]));
    let mut alone = Batching::new(&work.lent, work.alone(), batch);
    let all = whole.iter_mut().chain(&mut empty).chain([&mut alone]);
    let costs = meter.measure(&mut all.map(|side| side as &mut dyn Side).collect::<Vec<_>>());
    assert!(agree(&whole), "all sides do the same");
    let cut = alone.answers();
    assert!(whole[0].answers().starts_with(cut), "a list cut in two gives the same");
    let [whole, empty] = [&costs[..3], &costs[3..6]];
    let cost = |side: usize| (whole[side] - empty[side]) / work.times as f64;
    let (name, paper) = (work.name.into(), work.paper);
    let row = Row { name, ours: cost(0), plain: cost(1), folded: Some(cost(2)), paper };
    (row, Paid::new(work, empty[0], costs[6], whole[0]))
}
