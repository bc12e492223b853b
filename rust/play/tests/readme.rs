//! What README.md shows of `./box` is so.

mod common;

use common::{play_with, Folder};

const README: &str = include_str!("../../../README.md");
const SCREEN: &str = include_str!("screen.txt");

/// The fenced block with this line in it.
fn block(line: &str) -> &'static str {
    let mut blocks = README.split("```\n").skip(1).step_by(2);
    blocks.find(|block| block.lines().any(|found| found == line)).expect(line)
}

#[test]
fn its_step_is_on_the_screen() {
    assert!(SCREEN.contains(block("3. A data page at 4096, copied from an insecure frame")));
}

#[test]
fn its_plan_is_answered_as_it_expects() {
    let out =
        play_with(&Folder::new("readme"), &["run", "-"], block("FreePages = 0 5 3;").as_bytes());
    assert!(out.status.success() && out.stderr.is_empty(), "{out:?}");
}

#[test]
fn its_version_is_the_programs() {
    assert!(README.contains(concat!("Version ", env!("CARGO_PKG_VERSION"), ".")));
}
