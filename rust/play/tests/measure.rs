//! What spaces measure, by the library and by the second program's hash.

use monitor::{Answer, Call, Machine, Monitor, Refusal};
use plan::options::Fresh;
use plan::text::Text;
use plan::KEY;
use play::measure::{self, Steps};
use play::player::Player;

/// A space of one thread and one data page, not yet final.
const BUILD: &str = "2 0 1; 4 0 2 0; 6 0 3 4099 5; 3 0 4 4096;";

/// Box A after these calls, and what was measured.
fn played(calls: &str) -> (Monitor, Steps) {
    let text = Text::new("a test".into(), calls.into()).expect("a plan");
    let fresh = Fresh { machine: Machine::BOX_A, key: KEY };
    let mut player = Player::new(&text, &fresh).expect("it fits");
    let mut steps = Steps::default();
    let note = |played: &play::player::Played, bench: &Monitor| {
        steps.note(played.call.as_ref().expect("a call"), &played.answer, bench);
        Ok(())
    };
    player.watched(note).expect("it is played");
    (player.bench().clone(), steps)
}

/// What is said of an answer to a Finalise of this space.
fn answered(space: u32, answer: &Answer, (bench, steps): &(Monitor, Steps)) -> Option<String> {
    measure::line(&Call::Finalise { space }, answer, bench.ledger(), steps)
}

/// What is said after a Finalise that was done.
fn said(calls: &str) -> String {
    answered(0, &Answer::Done, &played(&format!("{calls} 8 0;"))).expect("said")
}

/// What is said at the end of a plan.
fn at_end(calls: &str) -> String {
    let (bench, steps) = played(calls);
    measure::building(&bench, &steps)
}

#[test]
fn a_space_of_nothing_measures_the_hash_of_nothing() {
    let lines = [
        "space 0 is final; Attest vouches for",
        "  e3b0c44298fc1c149afbf4c8996fb92427ae41e4649b934ca495991b7852b855",
        "  for Verify: 3820012610 2566659092 2600203464 2574235940",
        "              665731556 1687917388 2761267483 2018687061",
        "  measured: nothing",
    ];
    assert_eq!(said("2 0 1;"), lines.join("\n"));
}

/// The page's mapping word and words, then the thread's entry, as blocks.
#[test]
fn the_hash_is_of_what_was_mapped() {
    let mut words = vec![0; 16 + 1024 + 16];
    words[..2].copy_from_slice(&[2, 4099]);
    words[16..1040].copy_from_slice(&(5 * 1024..6 * 1024).collect::<Vec<u32>>());
    words[1040..1042].copy_from_slice(&[1, 4096]);
    let bytes: Vec<u8> = words.iter().flat_map(|word| word.to_be_bytes()).collect();
    let hash = second::sha::digest(&bytes).map(|word| format!("{word:08x}")).concat();
    assert!(said(BUILD).contains(&hash));
    assert!(at_end(BUILD).contains(&hash));
}

/// What was measured, in order. Refused calls add nothing, nor do tables and
/// insecure mappings, and a new space on the same page begins anew.
#[test]
fn what_was_measured_is_said() {
    let other = "7 0 12291 5; 6 0 5 4103 5; 3 0 5 8192; 6 0 6 8199 4;";
    let lines = [
        "  measured, in order:",
        "    page at 4096 rw-, words dbb66b3b3a7d2cc85ce62a047067bd45",
        "    thread at 4096",
        "    thread at 8192",
        "    page at 8192 rwx, words ca7fe3494cc05da435c153f9e68467f4",
    ];
    let all = lines.join("\n");
    assert!(said(&format!("{BUILD} {other}")).ends_with(&all));
    assert!(at_end(&format!("{BUILD} {other}")).contains(&all));
    let anew = format!("{BUILD} 11 0; 12 1; 12 2; 12 3; 12 4; 12 0; 2 0 1;");
    assert!(said(&anew).ends_with("  measured: nothing"));
}

/// Two plans that differ in one right.
#[test]
fn another_right_is_another_measurement() {
    let readable = BUILD.replace("4099", "4097");
    let (one, other) = (said(BUILD), said(&readable));
    let differ = one.lines().zip(other.lines()).map(|(one, other)| one != other);
    assert_eq!(differ.collect::<Vec<_>>(), [false, true, true, true, false, true, false]);
    assert_ne!(at_end(BUILD), at_end(&readable));
}

/// What is said as words is what Verify takes: Attest's MAC is right for them.
#[test]
fn verify_takes_the_words() {
    let words: Vec<u32> = said(BUILD)
        .split_once("for Verify:")
        .map(|(_, words)| words.split_whitespace().map_while(|word| word.parse().ok()).collect())
        .expect("words");
    let (mut bench, _) = played(&format!("{BUILD} 8 0; 9 4;"));
    let data = [8, 7, 6, 5, 4, 3, 2, 1];
    let Ok(Answer::Attested(mac)) = bench.call(Call::Attest { data }) else { panic!("a MAC") };
    let measurement = words.try_into().expect("eight words");
    let verified = bench.call(Call::Verify { data, measurement, mac });
    assert_eq!(verified, Ok(Answer::Verified(true)));
}

#[test]
fn nothing_is_said_of_other_calls_and_refusals() {
    let after = played("2 0 1;");
    assert_eq!(answered(0, &Answer::Refused(Refusal::WrongState), &after), None);
    assert_eq!(answered(9, &Answer::Done, &after), None);
    let (bench, steps) = after;
    let stop = Call::Stop { space: 0 };
    assert_eq!(measure::line(&stop, &Answer::Done, bench.ledger(), &steps), None);
}

#[test]
fn the_end_of_a_plan() {
    let none = "at the end there is no space: Attest has nothing to vouch for\n";
    assert_eq!(at_end(""), none);
    let yet = "at the end no space is final: Attest has nothing to vouch for\n";
    let shown = at_end("2 0 1;");
    assert!(shown.starts_with("space 0 is still building; finalised as it is"), "{shown}");
    assert!(shown.ends_with(&format!("  measured: nothing\n{yet}")), "{shown}");
    assert_eq!(at_end("2 0 1; 8 0;"), "");
    assert_eq!(at_end("2 0 1; 11 0;"), yet);
}

/// The copy's run is ended; the box itself is left alone.
#[test]
fn a_space_that_builds_while_another_runs() {
    let (bench, steps) = played(&format!("{BUILD} 8 0; 2 5 6; 9 4;"));
    let before = bench.clone();
    let shown = measure::building(&bench, &steps);
    assert_eq!(bench, before);
    assert!(shown.starts_with("space 5 is still building;"), "{shown}");
    assert!(shown.contains("e3b0c442") && !shown.contains("at the end"), "{shown}");
    assert!(shown.lines().all(|line| line.len() <= 80), "{shown}");
}
