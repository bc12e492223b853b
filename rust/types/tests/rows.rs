//! The table of calls against the second program's and the rules as written.

use second::calls::CALLS;
use second::random::allowed_pairs;
use std::collections::BTreeSet;
use types::code::UNFIT;
use types::layout::RECORD_WORDS;
use types::{BadImage, Call, Refusal, Row, Unfit};

const RULES: &str = include_str!("../../../docs/RULES.md");

#[test]
fn numbers_names_and_arguments() {
    let ours = Call::ROWS.iter().map(|row| (row.number, row.name, row.words()));
    let second = CALLS.iter().map(|row| (row.number, row.name, row.arguments));
    assert_eq!(ours.collect::<Vec<_>>(), second.collect::<Vec<_>>());
    assert_eq!(Call::ROWS.iter().map(|row| row.number).collect::<Vec<_>>(), Call::NUMBERS);
    let short: BTreeSet<&str> = Call::ROWS.iter().map(|row| row.short).collect();
    assert_eq!(short.len(), Call::ROWS.len(), "each call has a short name of its own");
}

/// A call's own names for itself and its arguments are those of its row.
#[test]
fn rows_are_those_of_the_calls() {
    for row in Call::ROWS {
        let mut record = [0; RECORD_WORDS];
        record[0] = row.number;
        let call = Call::decode(&record).expect("a call");
        assert_eq!((call.number(), call.name()), (row.number, row.name));
        assert_eq!(call.to_string().split(' ').count(), 1 + row.words());
        let shown = format!("{call:?}");
        assert_eq!(shown.split(' ').next(), Some(row.short));
        assert!(row.arguments.iter().all(|(name, _)| shown.contains(&format!("{name}: "))));
        assert_eq!(Row::of(row.number), Some(row));
    }
    let known = (0..100).filter(|number| Row::of(*number).is_some());
    assert_eq!(known.collect::<Vec<_>>(), Call::NUMBERS);
}

/// As sets: every answer that the second program allows, and no other.
#[test]
fn answers_are_those_of_the_second_program() {
    let answers = |row: &Row| -> Vec<(u32, u32)> {
        let refusals = Refusal::FIRST.iter().chain(row.refusals).map(|refusal| refusal.code());
        refusals.chain(row.outcomes.iter().copied()).map(|code| (row.number, code)).collect()
    };
    let ours: BTreeSet<_> = Call::ROWS.iter().flat_map(answers).collect();
    let second = allowed_pairs().into_iter().filter(|(call, _)| *call != 0);
    assert_eq!(ours, second.collect());
}

/// What the rules say of a check that calls share, as `PG t`.
fn shared(check: &str) -> Option<&'static str> {
    let name = check.split(' ').next()?;
    let named = !name.is_empty() && name.bytes().all(|letter| letter.is_ascii_uppercase());
    let start = format!("| {name} ");
    let line = RULES.lines().find_map(|line| line.strip_prefix(&start)).filter(|_| named)?;
    line.split('|').nth(1)
}

/// The codes of checks in the rules: `PG t; 7 slot taken`. Where Remove asks
/// pages of other types otherwise, 13 is theirs too.
fn codes(checks: &str) -> Vec<u32> {
    let own = |check: &str| -> Vec<u32> {
        let check = check.strip_prefix("p a space: ").unwrap_or(check);
        let number = |part: &str| part.split(' ').next().and_then(|word| word.parse().ok());
        check.split(", ").filter_map(number).collect()
    };
    let all = |check: &str| shared(check).map_or_else(|| own(check), codes);
    checks.trim().split("; ").flat_map(all).collect()
}

#[test]
fn refusals_have_the_order_of_the_rules() {
    let mut found = 0;
    for line in RULES.lines() {
        let cells: Vec<&str> = line.split('|').map(str::trim).collect();
        let [_, number, _, words, refusals, _, _, _] = cells[..] else { continue };
        let Some(row) = number.parse().ok().and_then(Row::of) else { continue };
        assert_eq!(words.parse(), Ok(row.words()), "{line}");
        let ours: Vec<u32> = row.refusals.iter().map(|refusal| refusal.code()).collect();
        assert_eq!(ours, codes(refusals), "{line}");
        found += 1;
    }
    assert_eq!(found, Call::ROWS.len());
}

#[test]
fn eighteen_means_what_the_rules_say() {
    let row = format!("| {UNFIT} | {} |", Unfit::IN_WORDS);
    assert!(RULES.lines().any(|line| line.starts_with(&row)), "{row}");
}

#[test]
fn a_bad_image_is_what_the_rules_say() {
    for (bad, words) in [
        (BadImage::Block(0), BadImage::BLOCK_IN_WORDS),
        (BadImage::NotAccepted, BadImage::ACCEPTANCE_IN_WORDS),
    ] {
        let row = format!("| {} | {words}; ", bad.code());
        assert!(RULES.lines().any(|line| line.starts_with(&row)), "{row}");
        assert!(Refusal::from_code(bad.code()).is_none());
    }
}
