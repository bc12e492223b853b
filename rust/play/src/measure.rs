//! What spaces measure: what Attest vouches for, and Verify is asked for.

use monitor::layout::KEY_WORDS;
use monitor::{Answer, Call, Ledger, Monitor, Page, Space, State};
use second::sha;
use std::collections::BTreeMap;

/// What was measured of each space, in order, in words: who compares two builds
/// sees where they differ.
#[derive(Default)]
pub struct Steps(BTreeMap<u32, Vec<String>>);

impl Steps {
    /// Takes note of a call and its answer, which left this box.
    pub fn note(&mut self, call: &Call, answer: &Answer, bench: &Monitor) {
        let (space, step) = match (call, answer) {
            (Call::InitAddrSpace { space, .. }, Answer::Done) => {
                self.0.remove(space);
                return;
            }
            (Call::InitThread { space, entry, .. }, Answer::Done) => {
                (*space, format!("thread at {entry}"))
            }
            (Call::MapSecure { space, page, map, .. }, Answer::Done) => {
                (*space, format!("page at {map}, words {}", page_sum(bench, *page)))
            }
            _ => return,
        };
        self.0.entry(space).or_default().push(step);
    }

    /// Those of a space, a line each; the last has no line feed.
    fn of(&self, space: u32) -> String {
        match self.0.get(&space) {
            None => "  measured: nothing".into(),
            Some(steps) => format!("  measured, in order:\n    {}", steps.join("\n    ")),
        }
    }
}

/// The first half of the SHA-256 of a page's words, enough to see whether two
/// pages are the same.
fn page_sum(bench: &Monitor, page: u32) -> String {
    let words = bench.memory().frame(bench.machine().secure + page).unwrap_or_default();
    hex(&sha::digest(&sha::bytes(words))[..KEY_WORDS / 2])
}

/// After a Finalise that is done: what the space measures, in the ledger that
/// it left. Several lines; the last has no line feed.
pub fn line(call: &Call, answer: &Answer, ledger: &Ledger, steps: &Steps) -> Option<String> {
    match (call, answer) {
        (Call::Finalise { space }, Answer::Done) => {
            let shown = shown(&space_at(ledger, *space)?.hash);
            let steps = steps.of(*space);
            Some(format!("space {space} is final; Attest vouches for\n{shown}\n{steps}"))
        }
        _ => None,
    }
}

/// What the spaces that are still building would measure, and whether there is
/// anything that Attest can vouch for. Lines with line feeds; none where a
/// space is final and none is building.
pub fn building(bench: &Monitor, steps: &Steps) -> String {
    let spaces: Vec<Space> = bench.ledger().pages().filter_map(as_space).collect();
    let mut text = String::new();
    for space in spaces.iter().filter(|space| space.state == State::Building) {
        let number = space.page;
        text += &match finalised(bench, number) {
            Some(hash) => format!(
                "space {number} is still building; finalised as it is, it would measure\n{}\n{}\n",
                shown(&hash),
                steps.of(number)
            ),
            None => format!("space {number} is still building, and Finalise is refused\n"),
        };
    }
    if spaces.is_empty() {
        text += "at the end there is no space: Attest has nothing to vouch for\n";
    } else if spaces.iter().all(|space| space.state != State::Final) {
        text += "at the end no space is final: Attest has nothing to vouch for\n";
    }
    text
}

/// What a space would measure: Finalise by the library, on a copy of the box.
fn finalised(bench: &Monitor, space: u32) -> Option<[u32; KEY_WORDS]> {
    let mut copy = bench.clone();
    // While a thread runs the system is not heard.
    if copy.ledger().running().is_some() {
        copy.call(Call::Exit { value: 0 }).ok()?;
    }
    match copy.call(Call::Finalise { space }).ok()? {
        Answer::Done => Some(space_at(copy.ledger(), space)?.hash),
        _ => None,
    }
}

fn space_at(ledger: &Ledger, page: u32) -> Option<Space> {
    as_space(ledger.page(page))
}

fn as_space(page: Option<Page>) -> Option<Space> {
    match page {
        Some(Page::Space(space)) => Some(space),
        _ => None,
    }
}

/// A hash as SHA-256 prints it, then as the words that Verify takes.
fn shown(hash: &[u32; KEY_WORDS]) -> String {
    let words = hash.map(|word| word.to_string());
    let (left, right) = words.split_at(KEY_WORDS / 2);
    format!("  {}\n  for Verify: {}\n              {}", hex(hash), left.join(" "), right.join(" "))
}

/// Words of a hash as SHA-256 prints them.
fn hex(words: &[u32]) -> String {
    words.iter().map(|word| format!("{word:08x}")).collect()
}
