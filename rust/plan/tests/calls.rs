//! The table of calls as it is printed.

use plan::calls::calls;
use types::{Call, Refusal};

/// The row of a call, its words apart.
fn row(number: &str) -> Vec<String> {
    let shown = calls();
    let start = format!("{number:>3}  ");
    let line = shown.lines().find(|line| line.starts_with(&start)).expect(number);
    line.split_whitespace().map(String::from).collect()
}

#[test]
fn it_fits_80_columns() {
    for line in calls().lines() {
        assert!(line.len() <= 80 && line == line.trim_end(), "{line}");
    }
}

#[test]
fn arguments_and_refusals_in_order() {
    assert_eq!(row("1"), ["1", "GetPhysPages"]);
    assert_eq!(row("4").join(" "), "4 InitL2PTable, InitTable space page index 1 3 4 1 2 21 7");
    assert_eq!(row("6").join(" "), "6 MapSecure space page map frame 1 3 4 1 2 6 8 7 9");
    assert_eq!(row("12").join(" "), "12 Remove page 1 22 13 14");
    assert_eq!(row("34").join(" "), "34 Verify data[8] measurement[8] mac[8]");
    assert_eq!(row("35").join(" "), "35 InitL2PTable, SpareTable page index 1 16 21 7");
    assert_eq!(row("39").join(" "), "39 Interrupt registers[17]");
}

#[test]
fn every_call_in_its_group_and_every_code() {
    let shown = calls();
    let (before, after) = shown.split_once("While a thread runs").expect("two groups");
    for call in Call::ROWS {
        let start = format!("{:>3}  {}", call.number, call.name);
        let group = if call.number <= 13 { before } else { after };
        assert_eq!(group.lines().filter(|line| line.starts_with(&start)).count(), 1, "{start}");
        assert!(group.contains(call.short), "{}", call.short);
    }
    for refusal in Refusal::ALL {
        assert!(shown.contains(&format!("{:3}  {refusal}", refusal.code())), "{refusal}");
    }
    assert_eq!(shown.matches("19 and then for 15").count(), 1);
    assert!(shown.contains(" 32  interrupted, the thread is suspended: Interrupt\n"));
    assert!(shown.contains(" 33  fault, the run has ended: Fault, Load, Store\n"));
    assert!(shown.contains("  0  done: every call but Interrupt, Fault\n"));
    assert!(shown.ends_with(" 25  a bad block\n 26  acceptance says no\n"));
}
