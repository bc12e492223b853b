//! Saved images in files: what comes back, what is refused, what is overwritten.

mod common;

use common::{complaint, play_with, Folder};
use std::fs;
use std::os::unix::fs::PermissionsExt;
use std::path::Path;
use std::process::Output;

/// A thread that runs, with a word of its own in page 3.
const BUILD: &[u8] = b"2 0 1; 4 0 2 0; 6 0 3 4099 5; 3 0 4 4096; 8 0; 9 4 0 0 0; 42 4096 77;";
const BLOCK: usize = 512;
const TOTAL: usize = 69;

fn run(folder: &Folder, words: &[&str], plan: &[u8]) -> Output {
    play_with(folder, &[&["run", "-"], words].concat(), plan)
}

/// What it says where it saves.
fn said(out: &Output) -> String {
    assert!(out.status.success(), "{out:?}");
    String::from_utf8(out.stderr.clone()).expect("UTF-8")
}

fn key_line(file: &str, number: u32) -> String {
    format!("box: {file} holds the bench's key (image {number}, {TOTAL} blocks)\n")
}

fn saved(folder: &Folder, plan: &[u8]) -> Vec<u8> {
    assert_eq!(said(&run(folder, &["--save", "a"], plan)), key_line("a", 1));
    fs::read(folder.0.join("a")).expect("an image")
}

/// Why an image of these bytes is refused; nothing is played.
fn refused(folder: &Folder, bytes: &[u8]) -> String {
    fs::write(folder.0.join("bad"), bytes).expect("written");
    let out = run(folder, &["--load", "bad", "--state", "none"], b"13;");
    assert!(!folder.0.join("none").exists());
    let start = "box: --load: bad: expected an image of 69 blocks, and ";
    let said = complaint(&out, 2);
    said.strip_prefix(start).unwrap_or_else(|| panic!("{said}")).to_string()
}

fn files(folder: &Path) -> Vec<String> {
    let entries = fs::read_dir(folder).expect("a folder");
    let mut names: Vec<String> =
        entries.map(|entry| entry.expect("it").file_name().into_string().expect("UTF-8")).collect();
    names.sort();
    names
}

#[test]
fn what_is_saved_comes_back() {
    let folder = Folder::new("images");
    let out = run(&folder, &["--save", "a", "--state", "before"], BUILD);
    assert_eq!(said(&out), key_line("a", 1));
    let out = run(&folder, &["--load", "a", "--state", "after"], b"41 4096 = 0 77;");
    assert!(out.status.success() && out.stderr.is_empty(), "{out:?}");
    let read = |name: &str| fs::read(folder.0.join(name)).expect("a file");
    assert_eq!(read("before/ledger"), read("after/ledger"));
    // No insecure frame was written, so all memory is as it was.
    assert_eq!(read("before/memory"), read("after/memory"));
    assert_eq!(read("a").len(), TOTAL * BLOCK);
    let mode = folder.0.join("a").metadata().expect("a file").permissions().mode();
    assert_eq!(mode & 0o777, 0o600);
    assert_eq!(files(&folder.0), ["a", "after", "before"]);
}

/// The largest box. How far it is, is said on terminals alone.
#[test]
fn many_blocks() {
    let folder = Folder::new("images-many");
    let machine = ["--machine", "16384,8,1024,0,2"];
    let out = run(&folder, &[&machine[..], &["--save", "a"]].concat(), b"2 1022 1023;");
    assert_eq!(said(&out), "box: a holds the bench's key (image 1, 8722 blocks)\n");
    let out = run(&folder, &[&machine[..], &["--load", "a"]].concat(), b"13 = 0 1022 0;");
    assert!(out.status.success() && out.stderr.is_empty(), "{out:?}");
}

/// The image has the key; insecure frames are those of a fresh box.
#[test]
fn the_key_comes_and_insecure_frames_do_not() {
    let folder = Folder::new("images-key");
    let shared =
        b"2 0 1; 4 0 2 0; 7 0 4099 5; 3 0 4 0; 8 0; 9 4 0 0 0; 42 4096 77; 41 4096 = 0 77;";
    let out = run(&folder, &["--key", "9,8,7,6,5,4,3,2", "--save", "a"], shared);
    assert_eq!(said(&out), key_line("a", 1));
    let out = run(&folder, &["--load", "a", "--state", "after"], b"41 4096 = 0 5120;");
    assert!(out.status.success(), "{out:?}");
    let ledger = fs::read(folder.0.join("after/ledger")).expect("a file");
    assert_eq!(ledger[4..12], [9, 0, 0, 0, 8, 0, 0, 0]);
}

#[test]
fn what_is_no_image_is_refused() {
    let folder = Folder::new("images-bad");
    let good = saved(&folder, BUILD);
    let cut = &good[..68 * BLOCK];
    assert_eq!(refused(&folder, cut), "it is too short: 34816 of 35328 bytes");
    assert_eq!(refused(&folder, &good[..35327]), "it is too short: 35327 of 35328 bytes");
    assert_eq!(refused(&folder, b""), "it is too short: 0 of 35328 bytes");
    for more in [1, BLOCK, 2 * BLOCK] {
        let long = [&good[..], &vec![0; more]].concat();
        assert_eq!(refused(&folder, &long), "it goes on after the last");
    }
    let no_image = "block 0 is bad: it is no image, or of a box that --machine has to name";
    for (byte, what) in [(0, no_image), (512, "block 1 is bad"), (35327, "block 68 is bad")] {
        let mut flipped = good.clone();
        flipped[byte] ^= 64;
        assert_eq!(refused(&folder, &flipped), what);
    }
    let out = run(&folder, &["--load", "a", "--machine", "16,6,9,0,2"], b"13;");
    let said = complaint(&out, 2);
    assert_eq!(said, format!("box: --load: a: expected an image of 78 blocks, and {no_image}"));
    // Frames elsewhere: the tables of the image name others.
    let out = run(&folder, &["--load", "a", "--machine", "16,7,8,0,2"], b"13;");
    let said = complaint(&out, 2);
    let no = "acceptance says no: it holds no state of this box, or --machine has to name another";
    assert_eq!(said, format!("box: --load: a: expected an image of 69 blocks, and {no}"));
}

/// Blocks as versions before 0.5.0 wrote them, which say the bare total.
fn older(total: usize) -> Vec<u8> {
    let head = |index| [7, index, total as u32].map(u32::to_le_bytes).concat();
    (0..total as u32).flat_map(|index| [head(index), vec![0; BLOCK - 12]].concat()).collect()
}

/// An image of an older version is told as such: not loaded, and not overwritten.
#[test]
fn older_images() {
    let folder = Folder::new("images-older");
    let anew = "it cannot be read, and its box's state has to be booted anew";
    let found = "a saved image, found one of an older version";
    let all = older(TOTAL);
    for bytes in [&all[..], &all[..BLOCK], &all[..3 * BLOCK + 5], &older(2181)] {
        fs::write(folder.0.join("a"), bytes).expect("written");
        let said = complaint(&run(&folder, &["--load", "a", "--save", "a"], b"13;"), 2);
        assert_eq!(said, format!("box: --load: a: expected {found}: {anew}"));
        let said = complaint(&run(&folder, &["--save", "a"], b"13;"), 2);
        let nothing = "expected nothing, an empty file or";
        assert_eq!(said, format!("box: --save: a: {nothing} {found}, which is not overwritten"));
        assert_eq!(fs::read(folder.0.join("a")).expect("a file"), bytes);
    }
    // One block that lost it is a bad block.
    fs::remove_file(folder.0.join("a")).expect("removed");
    let mut lost = saved(&folder, BUILD);
    lost[10] = 0;
    let bad = "block 0 is bad: it is no image, or of a box that --machine has to name";
    assert_eq!(refused(&folder, &lost), bad);
    assert!(refused(&folder, &all[..BLOCK - 1]).starts_with("it is too short: "));
}

#[test]
fn what_cannot_be_read_is_refused() {
    let folder = Folder::new("images-unread");
    for (name, why) in [
        ("none", "there is no such file"),
        (".", "it is a folder"),
        ("/dev/zero", "it is a device"),
    ] {
        let said = complaint(&run(&folder, &["--load", name], b"13;"), 2);
        let expected = "expected a saved image, and it cannot be read";
        assert_eq!(said, format!("box: --load: {name}: {expected}: {why}"));
    }
}

/// One more than the larger of the images that are overwritten and loaded.
#[test]
fn images_are_numbered() {
    let folder = Folder::new("images-number");
    let number = |words: &[&str]| {
        let said = said(&run(&folder, words, b"13;"));
        let (_, rest) = said.split_once("(image ").expect("a number");
        rest.split(',').next().expect("it").to_string()
    };
    fs::write(folder.0.join("a"), "").expect("written");
    assert_eq!(number(&["--save", "a"]), "1");
    assert_eq!(number(&["--save", "a"]), "2");
    assert_eq!(number(&["--load", "a", "--save", "b"]), "3");
    assert_eq!(number(&["--load", "b", "--save", "a"]), "4");
    assert_eq!(number(&["--load", "b", "--save", "a"]), "5");
    assert_eq!(number(&["--load", "a", "--save", "a"]), "6");
    assert_eq!(number(&["--save", "c"]), "1");
    assert_eq!(files(&folder.0), ["a", "b", "c"]);
}

/// No number follows the last one.
#[test]
fn the_last_number() {
    let folder = Folder::new("images-last");
    let bench = play::fresh(monitor::Machine::BOX_A, &plan::KEY).expect("a box");
    for (name, number) in [("last", u32::MAX), ("before", u32::MAX - 1)] {
        let image: Vec<u8> = bench.image(number).expect("an image").flatten().collect();
        fs::write(folder.0.join(name), image).expect("written");
    }
    let last = "the image overwritten or loaded has the last number, 4294967295";
    for words in [&["--save", "last"][..], &["--load", "last", "--save", "new"]] {
        let said = complaint(&run(&folder, words, b"13;"), 2);
        let file = words.last().expect("a file");
        assert_eq!(said, format!("box: --save: {file}: {last}, and none is left for the next"));
    }
    let out = run(&folder, &["--load", "before", "--save", "before"], b"13;");
    assert_eq!(self::said(&out), key_line("before", u32::MAX));
    // What is no image has no number.
    fs::write(folder.0.join("bad"), [255; BLOCK]).expect("written");
    let said = complaint(&run(&folder, &["--load", "bad", "--save", "new"], b"13;"), 2);
    assert!(said.contains("expected an image of 69 blocks, and block 0 is bad"), "{said}");
    assert_eq!(files(&folder.0), ["bad", "before", "last"]);
}

/// Nothing but an image, or an empty file, is overwritten.
#[test]
fn nothing_else_is_overwritten() {
    let folder = Folder::new("images-over");
    let good = saved(&folder, BUILD);
    fs::write(folder.0.join("notes"), "mine").expect("written");
    fs::write(folder.0.join("cut"), &good[..5 * BLOCK]).expect("written");
    fs::write(folder.0.join("zeros"), vec![0; 2 * BLOCK]).expect("written");
    fs::create_dir(folder.0.join("folder")).expect("made");
    std::os::unix::fs::symlink("a", folder.0.join("link")).expect("a link");
    let over = "expected nothing, an empty file or a saved image, found something else";
    for (name, what) in [
        ("notes", over),
        ("cut", over),
        ("zeros", over),
        ("folder", over),
        ("/dev/null", over),
        ("none/a", "expected a folder to write it in, and none is none"),
    ] {
        let out = run(&folder, &["--save", name], b"13;");
        assert_eq!(complaint(&out, 2), format!("box: --save: {name}: {what}"));
    }
    assert_eq!(fs::read(folder.0.join("notes")).expect("a file"), b"mine");
    assert_eq!(said(&run(&folder, &["--save", "link"], b"13;")), key_line("link", 2));
    assert!(folder.0.join("link").symlink_metadata().expect("a link").is_symlink());
    assert_ne!(fs::read(folder.0.join("a")).expect("an image"), good);
    let out = run(&folder, &["--save", "new"], b"13; x");
    assert_eq!(out.status.code(), Some(2));
    assert_eq!(files(&folder.0), ["a", "cut", "folder", "link", "notes", "zeros"]);
}

/// After answers that are not as expected nothing is saved, and it is said.
#[test]
fn what_is_not_as_expected_is_not_saved() {
    let folder = Folder::new("images-unmet");
    let good = saved(&folder, BUILD);
    for name in ["a", "new"] {
        let out = run(&folder, &["--load", "a", "--save", name, "--json"], b"13 = 1;");
        assert_eq!(out.status.code(), Some(1));
        let unmet = "box: -:1:1: FreePages: expected 1, found 15\n";
        let unsaved = format!("box: {name} is not saved: an answer is not the expected one\n");
        assert_eq!(String::from_utf8_lossy(&out.stderr), format!("{unmet}{unsaved}"));
    }
    assert_eq!(fs::read(folder.0.join("a")).expect("an image"), good);
    assert_eq!(files(&folder.0), ["a"]);
}

/// What killed runs have left is removed: no more than that.
#[test]
fn unfinished_images_are_removed() {
    let folder = Folder::new("images-left");
    let mut ended = std::process::Command::new("true").spawn().expect("it runs");
    let (gone, alive) = (ended.id(), std::process::id());
    ended.wait().expect("it ends");
    let name = |image: &str, process: u32| format!("{image}.{process}.new");
    let write = |name: &str| {
        fs::write(folder.0.join(name), "unfinished").expect("written");
        let owners = fs::Permissions::from_mode(0o600);
        fs::set_permissions(folder.0.join(name), owners).expect("the owner's");
    };
    let mut kept = ["a.new", "a..new", "a.x1.new", "a.+1.new", "ab"].map(String::from).to_vec();
    kept.extend([name("a", alive), name("b", gone), name("a.b", gone), name("", gone)]);
    kept.iter().for_each(|name| write(name));
    for image in ["a", "./a"] {
        write(&name("a", gone));
        said(&run(&folder, &["--save", image], b"13;"));
        assert!(!folder.0.join(name("a", gone)).exists());
    }
    // What others may read is no part of an image, and a link is none.
    let read = name("a", 0);
    write(&read);
    fs::set_permissions(folder.0.join(&read), fs::Permissions::from_mode(0o644)).expect("read");
    kept.push(read);
    std::os::unix::fs::symlink("ab", folder.0.join(name("a", gone))).expect("a link");
    said(&run(&folder, &["--save", "a"], b"13;"));
    kept.extend([name("a", gone), "a".into()]);
    kept.sort();
    assert_eq!(files(&folder.0), kept);
}

/// An image and a state do not overwrite each other, whatever names them.
#[test]
fn an_image_goes_elsewhere_than_a_state() {
    let folder = Folder::new("images-state");
    fs::create_dir(folder.0.join("d")).expect("made");
    std::os::unix::fs::symlink("d", folder.0.join("link")).expect("a link");
    let both = "expected a file outside of the folder of --state, found one in it";
    for (state, save) in
        [("d", "d/memory"), ("d", "link/ledger"), ("link", "./d/memory"), ("x", "x"), ("x", "./x")]
    {
        let out = run(&folder, &["--state", state, "--save", save], b"13;");
        assert_eq!(complaint(&out, 2), format!("box: --save: {save}: {both}"));
    }
    assert_eq!(files(&folder.0), ["d", "link"]);
    assert_eq!(files(&folder.0.join("d")), [""; 0]);
    let out = run(&folder, &["--state", "d", "--save", "memory"], b"13;");
    assert_eq!(said(&out), key_line("memory", 1));
}

/// An image that may not be read is not overwritten, and it is said. Whoever may read
/// everything cannot try it.
#[test]
fn what_may_not_be_read_is_not_overwritten() {
    let folder = Folder::new("images-shut");
    let good = saved(&folder, BUILD);
    let (file, mode) = (folder.0.join("a"), fs::Permissions::from_mode);
    fs::set_permissions(&file, mode(0)).expect("shut");
    if fs::read(&file).is_err() {
        let said = complaint(&run(&folder, &["--save", "a"], b"13;"), 2);
        let expected = "expected nothing, an empty file or a saved image";
        let why = "and it cannot be read: it may not be read";
        assert_eq!(said, format!("box: --save: a: {expected}, {why}"));
    }
    fs::set_permissions(&file, mode(0o600)).expect("open");
    assert_eq!(fs::read(&file).expect("an image"), good);
}

/// An image that cannot be written leaves the one that stands there.
#[test]
fn what_cannot_be_written() {
    let folder = Folder::new("images-unwritten");
    let out = run(&folder, &["--save", "/proc/x"], b"13;");
    assert!(complaint(&out, 1).starts_with("box: /proc/x cannot be written: "));
    let good = saved(&folder, BUILD);
    let place = folder.0.join("a");
    let fault = || std::io::Error::other("no more room");
    assert!(play::write::private(&place, |_| Err(fault())).is_err());
    assert_eq!(fs::read(&place).expect("an image"), good);
    assert_eq!(files(&folder.0), ["a"]);
}
