//! The Rust example of README.md: it stands here word for word, and runs. And the
//! folders that README.md and docs/HOST.md name for Rust are there.

use std::fs;
use std::path::Path;

const README: &str = include_str!("../../../README.md");
const HOST: &str = include_str!("../../../docs/HOST.md");
const HERE: &str = include_str!("readme.rs");

#[rustfmt::skip]
fn example() -> Result<(), monitor::Unfit> {
    use monitor::{Answer, Call, Key, Machine, Monitor, Refusal};

    let mut bench = Monitor::boot(Machine::BOX_A, &Key::new([1, 2, 3, 4, 5, 6, 7, 8]))?;
    let answers = bench.batch(&[
        Call::InitAddrSpace { space: 0, first: 0 },
        Call::InitAddrSpace { space: 0, first: 1 },
    ])?;
    assert_eq!(answers[0], Answer::Refused(Refusal::NotFree));
    assert_eq!(answers[1], Answer::Done);
    Ok(())
}

/// The lines of a text after the line that is `first`, up to that which is `last`.
fn lines<'a>(text: &'a str, first: &str, last: &str) -> Vec<&'a str> {
    let after = text.lines().skip_while(|line| *line != first).skip(1);
    after.take_while(|line| *line != last).collect()
}

#[test]
fn it_runs_and_is_that_of_readme() {
    assert_eq!(example(), Ok(()));
    let here = lines(HERE, "fn example() -> Result<(), monitor::Unfit> {", "    Ok(())");
    let here: Vec<&str> =
        here.iter().map(|line| line.strip_prefix("    ").unwrap_or(line)).collect();
    assert!(here.len() > 5);
    assert_eq!(lines(README, "```rust", "```"), here);
}

#[test]
fn the_dependency_is_this_crate() {
    let root = Path::new(env!("CARGO_MANIFEST_DIR")).join("../..");
    let (_, rest) = README.split_once("`monitor = { path = \"PATH/").expect("a dependency");
    let (folder, _) = rest.split_once("\" }`").expect("its end");
    let manifest = fs::read_to_string(root.join(folder).join("Cargo.toml")).expect("a crate");
    assert!(manifest.contains("name = \"monitor\""), "{manifest}");
}

/// Cargo's commands are for `rust/`, from where `.ci` is one folder up.
#[test]
fn commands_are_given_where_they_work() {
    for text in [README, HOST] {
        for line in text.lines().filter(|line| line.contains(".ci/host cargo")) {
            assert!(line.contains("../.ci/host cargo"), "{line}");
        }
        for line in text.lines().filter(|line| line.contains("cargo doc")) {
            assert!(line.contains("in `rust/`"), "{line}");
        }
    }
}
