//! Files that are written and read: a state, a picture.

mod common;

use common::{complaint, play, play_with, Folder};
use monitor::{Ledger, Machine, Memory, Monitor};
use plan::files::beside::beside;
use plan::KEY;
use play::write;
use std::fs;
use std::path::Path;

fn words(path: &Path) -> Vec<u32> {
    let bytes = fs::read(path).expect("a file");
    assert_eq!(bytes.len() % 4, 0);
    bytes.chunks_exact(4).map(|word| u32::from_le_bytes(word.try_into().expect("a word"))).collect()
}

fn names(folder: &Path) -> Vec<String> {
    let entries = fs::read_dir(folder).expect("a folder");
    let mut names: Vec<String> =
        entries.map(|entry| entry.expect("it").file_name().into_string().expect("UTF-8")).collect();
    names.sort();
    names
}

#[test]
fn a_state_is_written() {
    let folder = Folder::new("state");
    let plan = b"2 0 1; 4 0 2 0; 6 0 3 4099 5;";
    fs::create_dir(folder.0.join("empty")).expect("made");
    for name in ["new", "empty"] {
        let state = folder.0.join(name);
        let out = play_with(&folder, &["run", "-", "--state", name], plan);
        assert!(out.status.success() && out.stderr.is_empty(), "{out:?}");
        assert_eq!(names(&state), ["ledger", "memory"]);
        let (memory, ledger) = (words(&state.join("memory")), words(&state.join("ledger")));
        assert_eq!(memory[5 * 1024..6 * 1024], memory[9 * 1024..10 * 1024]);
        assert_eq!(ledger[1..9], [1, 2, 3, 4, 5, 6, 7, 8]);
        Monitor::resume(Machine::BOX_A, Memory::over(memory), Ledger::over(ledger))
            .expect("accepted");
    }
    assert_eq!(names(&folder.0), ["empty", "new"]);
}

/// Refused before anything is played, and nothing is touched: not even what
/// looks like a state.
#[test]
fn a_state_goes_to_a_folder_of_its_own() {
    let folder = Folder::new("state-bad");
    fs::write(folder.0.join("file"), "").expect("written");
    for (name, own) in [("a", "memory"), ("b", "notes\u{1b}.txt"), ("c", "ledger.7.new")] {
        fs::create_dir(folder.0.join(name)).expect("made");
        fs::write(folder.0.join(name).join(own), vec![b'x'; 4096]).expect("written");
    }
    let own = "expected a new or an empty folder, found";
    for (name, what) in [
        ("a", format!("{own} memory")),
        ("b", format!(r"{own} notes\u{{1b}}.txt")),
        ("c", format!("{own} ledger.7.new")),
        ("file", "expected a folder, found something else".into()),
        ("none/state", "expected a folder to write it in, and none is none".into()),
    ] {
        let out = play_with(&folder, &["run", "-", "--state", name], b"13;");
        assert_eq!(complaint(&out, 2), format!("box: --state: {name}: {what}"));
    }
    assert_eq!(names(&folder.0), ["a", "b", "c", "file"]);
    assert_eq!(fs::read(folder.0.join("a/memory")).expect("a file"), [b'x'; 4096]);
    let out = play_with(&folder, &["run", "-", "--state", "new"], b"13; x");
    assert_eq!(out.status.code(), Some(2));
    assert!(!folder.0.join("new").exists());
    let out = play_with(&folder, &["run", "--state", "/proc/x", "-"], b"13;");
    assert!(complaint(&out, 1).starts_with("box: /proc/x cannot be written: "));
}

/// Where the second file cannot be written the first is not moved either.
#[test]
fn both_files_or_none() {
    let folder = Folder::new("state-both");
    let bench = play::fresh(Machine::BOX_A, &KEY).expect("a box");
    let in_the_way = beside(&folder.0.join("ledger"));
    fs::create_dir(&in_the_way).expect("made");
    assert!(write::state(folder.0.as_os_str(), &bench).is_err());
    fs::remove_dir(&in_the_way).expect("nothing in it");
    assert_eq!(names(&folder.0), [""; 0]);
    assert!(write::state(folder.0.as_os_str(), &bench).is_ok());
    assert_eq!(names(&folder.0), ["ledger", "memory"]);
}

#[test]
fn a_state_that_cannot_be_explained() {
    let folder = Folder::new("why");
    let why = |name: &str| complaint(&play(&folder, &["why", name]), 2);
    let none = "expected a folder of a state, as --state writes it, and there is none";
    assert_eq!(why("none"), format!("box: none: {none}"));
    fs::create_dir(folder.0.join("s")).expect("made");
    let unread = "expected the words of a state, and it cannot be read: there is no such file";
    assert_eq!(why("s"), format!("box: s/memory: {unread}"));
    let write = |name: &str, bytes: usize| {
        fs::write(folder.0.join("s").join(name), vec![0; bytes]).expect("written");
    };
    write("memory", 5);
    assert_eq!(why("s"), "box: s/memory: expected words of 4 bytes, found 5 bytes");
    write("memory", 4);
    assert_eq!(why("s"), format!("box: s/ledger: {unread}"));
    write("ledger", 4 * (64 + 1024 * 32) + 1);
    assert_eq!(why("s"), "box: s/ledger: expected at most 32832 words of 4 bytes, found more");
    write("ledger", 0);
    assert_eq!(play(&folder, &["why", "s"]).status.code(), Some(1));
}

#[test]
fn a_picture_is_written() {
    let folder = Folder::new("picture");
    let picture = folder.0.join("a.svg");
    for words in [&["picture", "a.svg"][..], &["picture", "a.svg", "-"]] {
        let out = play_with(&folder, words, b"2 0 1;");
        assert!(out.status.success() && out.stderr.is_empty() && out.stdout.is_empty(), "{out:?}");
        let drawn = fs::read_to_string(&picture).expect("a picture");
        assert!(drawn.starts_with("<!-- drawn by ./box ") && drawn.contains("\n<svg "), "{drawn}");
        assert_eq!(names(&folder.0), ["a.svg"]);
    }
}

#[test]
fn a_picture_overwrites_nothing_else() {
    let folder = Folder::new("picture-bad");
    fs::write(folder.0.join("notes.svg"), "mine").expect("written");
    fs::write(folder.0.join("own.svg"), "<svg xmlns=\"http://www.w3.org/2000/svg\"/>")
        .expect("written");
    fs::create_dir(folder.0.join("folder.svg")).expect("made");
    assert!(play(&folder, &["picture", "noted.svg"]).status.success());
    let mut noted = fs::read(folder.0.join("noted.svg")).expect("a picture");
    noted.extend(b"<!-- a note of mine -->");
    fs::write(folder.0.join("noted.svg"), noted).expect("written");
    let over =
        "expected nothing, an empty file or a picture as ./box drew it, found something else";
    for (name, what) in [
        ("notes.svg", over),
        ("own.svg", over),
        ("noted.svg", over),
        ("folder.svg", over),
        ("a.png", "expected a name that ends in .svg for the picture"),
        ("none/a.svg", "expected a folder to write it in, and none is none"),
    ] {
        let out = play(&folder, &["picture", name]);
        assert_eq!(complaint(&out, 2), format!("box: {name}: {what}"));
    }
    assert_eq!(fs::read(folder.0.join("notes.svg")).expect("a file"), b"mine");
    let out = play_with(&folder, &["picture", "b.svg", "-"], b";");
    assert_eq!(out.status.code(), Some(2));
    assert_eq!(names(&folder.0), ["folder.svg", "noted.svg", "notes.svg", "own.svg"]);
    fs::write(folder.0.join("empty.svg"), "").expect("written");
    assert!(play(&folder, &["picture", "empty.svg"]).status.success());
    assert_ne!(fs::read(folder.0.join("empty.svg")).expect("a picture"), b"");
}
