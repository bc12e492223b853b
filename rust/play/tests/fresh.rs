//! A fresh box, and numbers that do not fit.

use monitor::{Machine, Rule, Unfit};
use plan::KEY;
use play::fresh;

#[test]
fn each_word_holds_its_place() {
    let bench = fresh(Machine::BOX_A, &KEY).expect("it fits");
    let words = bench.memory().words();
    assert_eq!((words.len(), words[5119], words[6 * 1024], words[16383]), (16384, 5119, 0, 16383));
}

/// Refused at once: no room is asked for.
#[test]
fn numbers_that_do_not_fit() {
    let most = u32::MAX;
    for (machine, rule) in [
        (Machine { pages: most, ..Machine::BOX_A }, Rule::Pages),
        (Machine { frames: most, ..Machine::BOX_A }, Rule::Frames),
        (Machine { frames: most, pages: most, ..Machine::BOX_A }, Rule::Frames),
        (Machine { frames: 13, ..Machine::BOX_A }, Rule::SecureBelow),
    ] {
        assert_eq!(fresh(machine, &KEY).err(), Some(Unfit::Numbers(rule)));
    }
}
