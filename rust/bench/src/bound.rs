//! How dear a batch can be: a bound, and the dearest lists that were found.

use crate::boxes;
use crate::lists::dearest::{by_the_clock, in_instructions, Dearest};
use crate::meter::Meter;
use crate::sides::{accepts, batch, Accepting, Batching};
use second::layout::{MOST_CALLS, RECORD_WORDS};

/// What the library takes at its dearest, in the meter's unit.
pub struct Bound {
    /// The dearest call, MapSecure.
    pub call: f64,
    /// The dearest acceptance found.
    pub acceptance: f64,
    /// The dearest lists found, in instructions and by the clock, acceptance
    /// in.
    pub lists: [f64; 2],
}

impl Bound {
    /// The dearest call as often as a batch has calls, and the dearest
    /// acceptance.
    pub fn bound(&self) -> f64 {
        MOST_CALLS as f64 * self.call + self.acceptance
    }
}

fn batching<'b>(list: &'b Dearest, calls: &'b [u32]) -> Batching<'b> {
    Batching::new(&list.lent, vec![calls], batch)
}

/// All of them, measured in turns.
pub fn measure(meter: &Meter) -> Bound {
    let [counted, clocked] = [in_instructions(), by_the_clock()];
    let mut empty = batching(&counted, &[]);
    let [mut list, mut other] = [&counted, &clocked].map(|list| batching(list, &list.calls));
    let boxes = [boxes::dearest::in_instructions(), boxes::dearest::by_the_clock()];
    let [mut full, mut mixed] = boxes.each_ref().map(|lent| Accepting { lent, accepts });
    let costs = meter.measure(&mut [&mut empty, &mut list, &mut other, &mut full, &mut mixed]);
    let [calls, _] = [list, other].map(|side| side.answers().len() / RECORD_WORDS);
    Bound {
        call: (costs[1] - costs[0]) / calls as f64,
        acceptance: f64::max(costs[3], costs[4]),
        lists: [costs[1], costs[2]],
    }
}
