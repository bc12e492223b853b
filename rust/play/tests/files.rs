//! Where plans stand, and what is refused there.

mod common;

use common::{command, complaint, play, play_with, Folder};
use plan::files::MOST_BYTES;
use std::ffi::OsStr;
use std::fs::{write, File};
use std::os::unix::ffi::OsStrExt;
use std::os::unix::net::UnixListener;
use std::process::{Command, Output, Stdio};

const UNREAD: &str = "expected a plan of calls, and it cannot be read";

fn printed(out: &Output) -> String {
    assert!(out.status.success() && out.stderr.is_empty(), "{out:?}");
    String::from_utf8(out.stdout.clone()).expect("UTF-8")
}

#[test]
fn what_is_no_file() {
    let folder = Folder::new("no-files");
    let mut cases = vec![
        ("none.txt", "there is no such file"),
        (".", "it is a folder"),
        ("/dev/zero", "it is a device"),
    ];
    // A socket's path may be too long to be bound.
    let socket = UnixListener::bind(folder.0.join("socket"));
    cases.extend(socket.is_ok().then_some(("socket", "it is a socket")));
    for (name, why) in cases {
        for word in ["run", "measure"] {
            let said = complaint(&play(&folder, &[word, name]), 2);
            assert_eq!(said, format!("box: {name}: {UNREAD}: {why}"));
        }
    }
    assert_eq!(
        complaint(&play(&folder, &["run", ""]), 2),
        format!("box: '': {UNREAD}: there is no such file")
    );
}

#[test]
fn names_are_escaped() {
    let folder = Folder::new("names");
    for (name, shown) in [
        (&b"a\x1b[31m\n.txt"[..], r"a\u{1b}[31m\n.txt"),
        (b"\xff\xfe", r"\xff\xfe"),
        (b"it's \"a\\b\"", r#"it\'s \"a\\b\""#),
    ] {
        let name = OsStr::from_bytes(name);
        let said = complaint(&play(&folder, &["run".as_ref(), name]), 2);
        assert_eq!(said, format!("box: {shown}: {UNREAD}: there is no such file"));
        write(folder.0.join(name), ";").expect("written");
        let said = complaint(&play(&folder, &["run".as_ref(), name]), 2);
        assert!(said.starts_with(&format!("box: {shown}:1:1: ")), "{said}");
        write(folder.0.join(name), "13;").expect("written");
        assert!(printed(&play(&folder, &["run".as_ref(), name])).contains("FreePages"));
    }
}

/// Longer than a plan may be; all of it spaces, so that only its length is
/// wrong. A file of that length is not even read.
#[test]
fn a_plan_has_a_bound() {
    let folder = Folder::new("bound");
    let file = File::create(folder.0.join("long")).expect("a file");
    file.set_len(MOST_BYTES + 1).expect("a length");
    let many = format!("expected a plan of at most {MOST_BYTES} bytes, found more");
    assert_eq!(complaint(&play(&folder, &["run", "long"]), 2), format!("box: long: {many}"));
    let spaces = vec![b' '; MOST_BYTES as usize + 1];
    let out = play_with(&folder, &["run", "-"], &spaces);
    assert_eq!(complaint(&out, 2), format!("box: -: {many}"));
    let out = play_with(&folder, &["run", "--json", "-"], &spaces[1..]);
    assert_eq!(printed(&out), "");
}

#[test]
fn standard_input() {
    let folder = Folder::new("input");
    let text = printed(&play_with(&folder, &["run", "-"], b"13;"));
    assert!(text.contains("FreePages"), "{text}");
    let out = play_with(&folder, &["run", "-"], b"13;\n x;");
    assert!(complaint(&out, 2).starts_with("box: -:2:2: expected"));
    let zero = Stdio::from(File::open("/dev/zero").expect("a device"));
    let out = command(&folder, &["run", "-"]).stdin(zero).output().expect("it runs");
    assert_eq!(complaint(&out, 2), format!("box: -: {UNREAD}: it is a device"));
    let here = Stdio::from(File::open(&folder.0).expect("a folder"));
    let out = command(&folder, &["run", "-"]).stdin(here).output().expect("it runs");
    assert_eq!(complaint(&out, 2), format!("box: -: {UNREAD}: it is a folder"));
    write(folder.0.join("-"), "1;").expect("written");
    assert!(printed(&play(&folder, &["run", "./-"])).contains("GetPhysPages"));
}

/// A pipe in the place of a file; and a plan that was passed on.
#[test]
fn pipes() {
    let folder = Folder::new("pipes");
    let pipe = folder.0.join("pipe");
    assert!(Command::new("mkfifo").arg(&pipe).status().expect("mkfifo").success());
    let writer = std::thread::spawn(move || write(pipe, "13; 1;"));
    let text = printed(&play(&folder, &["run", "pipe"]));
    writer.join().expect("a thread").expect("written");
    assert!(text.contains("FreePages") && text.contains("GetPhysPages"), "{text}");
    let text = printed(&play_with(&folder, &["--checked", "run", "gone"], b"13;"));
    assert!(text.contains("FreePages"), "{text}");
}
