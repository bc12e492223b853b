//! The tutorial: its plans are the files that it shows, they play as they
//! expect, and what it says is printed is printed.

mod common;

use common::{play, Folder};
use monitor::layout::RECORD_WORDS;
use monitor::{Machine, Monitor, Refusal};
use plan::text::Text;
use plan::KEY;
use std::collections::BTreeMap;
use std::path::{Path, PathBuf};

const PAGE: &str = include_str!("../../../docs/TUTORIAL.md");
/// Where the plans are, from the root on.
const PLANS: &str = "docs/tutorial";
/// A line of a printed block that stands for lines left out.
const LEFT_OUT: &str = "..";

/// The plans by the names of their files.
fn files() -> BTreeMap<String, String> {
    let folder = Path::new(env!("CARGO_MANIFEST_DIR")).join("../..").join(PLANS);
    let entries = std::fs::read_dir(folder).expect("the plans");
    let path = |entry: std::io::Result<std::fs::DirEntry>| entry.expect("an entry").path();
    let named = |path: PathBuf| {
        let name = path.file_name().expect("a name").to_str().expect("UTF-8").to_string();
        (name, std::fs::read_to_string(path).expect("a plan"))
    };
    entries.map(path).map(named).collect()
}

fn read(file: String, text: String) -> Text {
    Text::new(file, text.into_bytes()).expect("a plan")
}

/// The page's fenced blocks of a kind: the words after the kind, the lines.
fn blocks(kind: &str) -> Vec<(Vec<&'static str>, Vec<&'static str>)> {
    let mut blocks = Vec::new();
    let mut lines = PAGE.lines();
    while let Some(line) = lines.next() {
        let Some(fence) = line.strip_prefix("```") else { continue };
        let words: Vec<&str> = fence.split_whitespace().collect();
        let text: Vec<&str> = lines.by_ref().take_while(|line| *line != "```").collect();
        if words.first() == Some(&kind) {
            blocks.push((words[1..].to_vec(), text));
        }
    }
    blocks
}

/// What is to be typed after `./box`, and what is printed then.
fn commands() -> Vec<(Vec<&'static str>, Vec<&'static str>)> {
    let command = |(_, lines): (Vec<&str>, Vec<&'static str>)| {
        let typed = lines[0].strip_prefix("$ ./box ").expect("a command");
        (typed.split_whitespace().collect(), lines[1..].to_vec())
    };
    blocks("printed").into_iter().map(command).collect()
}

/// The numbers of the box that the page plays a plan on; it plays every plan.
fn machine(file: &str) -> &'static str {
    let path = format!("{PLANS}/{file}");
    let plays = |words: &Vec<&str>| words[0] == "run" && words.contains(&path.as_str());
    let words = commands().into_iter().map(|(words, _)| words).find(plays);
    let words = words.unwrap_or_else(|| panic!("the page does not play {path}"));
    let option = words.iter().position(|word| *word == "--machine");
    option.map_or("16,6,8,0,2", |option| words[option + 1])
}

/// A folder in which what is typed finds the plans.
fn laid_out(name: &str) -> Folder {
    let folder = Folder::new(name);
    std::fs::create_dir_all(folder.0.join(PLANS)).expect("a folder");
    for (file, text) in files() {
        std::fs::write(folder.0.join(PLANS).join(file), text).expect("written");
    }
    folder
}

/// Whether these are the printed lines, but for those left out.
fn agrees(said: &[&str], printed: &[&str]) -> bool {
    match said.split_first() {
        None => printed.is_empty(),
        Some((&LEFT_OUT, rest)) => (0..=printed.len()).any(|start| agrees(rest, &printed[start..])),
        Some((line, rest)) => printed.first() == Some(line) && agrees(rest, &printed[1..]),
    }
}

#[test]
fn every_plan_is_shown_as_it_is() {
    let shown = blocks("plan").into_iter();
    let shown = shown.map(|(words, lines)| (words.join(" ") + ".plan", lines.join("\n") + "\n"));
    assert_eq!(shown.collect::<BTreeMap<_, _>>(), files());
    assert!(files().len() >= 4);
}

#[test]
fn every_call_says_what_it_expects() {
    for (file, text) in files() {
        for item in read(file, text).items() {
            assert!(!item.expected().is_empty(), "{item}");
        }
    }
}

/// Nothing more is said on standard error: all answers are as expected, and no
/// call is short of arguments. What is typed first leaves its files to the rest.
#[test]
fn what_is_typed_prints_what_is_shown() {
    let folder = laid_out("tutorial-typed");
    for (words, shown) in commands() {
        let out = play(&folder, &words);
        assert!(out.status.success(), "{words:?}: {out:?}");
        let (said, lines): (Vec<&str>, Vec<&str>) =
            shown.into_iter().partition(|line| line.starts_with("box: "));
        let printed = String::from_utf8(out.stdout).expect("UTF-8");
        assert!(agrees(&lines, &printed.lines().collect::<Vec<_>>()), "{words:?}:\n{printed}");
        let on_error = String::from_utf8(out.stderr).expect("UTF-8");
        assert_eq!(said, on_error.lines().collect::<Vec<_>>(), "{words:?}");
    }
}

/// One image is restored as often as one likes. The page shows what is said of it
/// with one bit changed.
#[test]
fn a_changed_image_is_named() {
    let (folder, plan) = (laid_out("tutorial-image"), format!("{PLANS}/6-restored.plan"));
    let saved = format!("{PLANS}/6-saved.plan");
    assert!(play(&folder, &["run", &saved, "--save", "bench.image"]).status.success());
    let restored = || play(&folder, &["run", &plan, "--load", "bench.image"]);
    assert_eq!(restored(), restored());
    assert!(restored().status.success());
    let file = folder.0.join("bench.image");
    let mut image = std::fs::read(&file).expect("an image");
    image[5 * 512 + 100] ^= 1;
    std::fs::write(&file, image).expect("written");
    let out = restored();
    assert_eq!(out.status.code(), Some(2));
    let said = String::from_utf8(out.stderr).expect("UTF-8");
    assert!(PAGE.contains(&format!("\n    {said}")), "{said}");
}

/// The page shows what is said of an answer that was not expected.
#[test]
fn another_answer_is_named() {
    let (folder, path) = (laid_out("tutorial-other"), format!("{PLANS}/1-one-enclave.plan"));
    let plan = std::fs::read_to_string(folder.0.join(&path)).expect("a plan");
    let other = plan.replacen("= 0 5120;", "= 0 5121;", 1);
    std::fs::write(folder.0.join(&path), other).expect("written");
    let out = play(&folder, &["run", &path]);
    assert_eq!(out.status.code(), Some(1));
    let said = String::from_utf8(out.stderr).expect("UTF-8");
    assert!(PAGE.contains(&format!("\n    {said}")), "{said}");
}

/// The box that the page plays a plan on.
fn fresh(file: &str) -> Monitor {
    let numbers: Vec<u32> = machine(file).split(',').map(|word| word.parse().unwrap()).collect();
    let [frames, secure, pages, monitor, monitors] = numbers[..] else { panic!("{numbers:?}") };
    let machine = Machine { frames, secure, pages, monitor, monitors };
    play::fresh(machine, &KEY).expect("a box")
}

/// A refusal leaves every word of the library's box. The second program gives
/// the same answers and leaves the same words.
#[test]
fn refusals_leave_every_word_and_the_second_program_agrees() {
    for (file, text) in files() {
        let mut bench = fresh(&file);
        let Machine { frames, secure, pages, monitor, monitors } = bench.machine();
        let machine = second::Machine { frames, secure, pages, monitor, monitors };
        let mut memory = bench.memory().words().to_vec();
        let mut ledger = bench.ledger().words().to_vec();
        for item in read(file, text).items() {
            let before = bench.clone();
            let (mut ours, mut theirs) = ([u32::MAX; RECORD_WORDS], [0; RECORD_WORDS]);
            bench.batch_words(item.record(), &mut ours).expect("accepted");
            let code = second::batch(machine, &mut memory, &mut ledger, item.record(), &mut theirs);
            assert_eq!((code, ours), (second::DONE, theirs), "{item}");
            assert!(Refusal::from_code(ours[0]).is_none() || bench == before, "{item}");
            assert!(bench.memory().words() == memory, "{item}");
            assert!(bench.ledger().words() == ledger, "{item}");
        }
    }
}
