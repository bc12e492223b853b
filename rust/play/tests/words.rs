//! Words that are bad: one line that says what was expected, status 2, and
//! nothing printed.

mod common;

use common::{play, Folder};
use monitor::layout::{MOST_FRAMES, MOST_PAGES};

fn complaint(folder: &Folder, words: &[&str]) -> String {
    common::complaint(&play(folder, words), 2)
}

#[test]
fn bad_options() {
    let folder = Folder::new("bad-options");
    std::fs::write(folder.0.join("plan"), "1;").expect("written");
    let commas = "numbers up to 4294967295 with commas between";
    let five = format!("--machine: expected F,s,n,m,k, five {commas}, found");
    let options = "expected --machine, --key, --json, --ledger, --state, --save or --load, found";
    let (file, dash) =
        ("--save: expected a file, found", "a name that starts with - is given as ./-..");
    let cases: &[(&[&str], String)] = &[
        (
            &["walk"],
            "expected run, calls, measure, why, picture, bench, help or nothing, found 'walk'"
                .into(),
        ),
        (
            &[""],
            "expected run, calls, measure, why, picture, bench, help or nothing, found ''".into(),
        ),
        (&["run"], "expected a file after run, or - for standard input".into()),
        (&["run", "--json"], "expected a file after run, or - for standard input".into()),
        (&["run", "plan", "more"], "expected one name, found 'more' as well".into()),
        (&["run", "plan", "--jsn"], format!("{options} '--jsn'")),
        (&["run", "-x", "plan"], format!("{options} '-x'")),
        (&["run", "plan", "--machine"], format!("{five} nothing")),
        (&["run", "plan", "--machine", ""], format!("{five} ''")),
        (&["run", "plan", "--machine", "16,6,8,0"], format!("{five} '16,6,8,0'")),
        (&["run", "plan", "--machine", "16,6,8,0,2,1"], format!("{five} '16,6,8,0,2,1'")),
        (&["run", "plan", "--machine", "16,6,+8,0,2"], format!("{five} '16,6,+8,0,2'")),
        (&["run", "plan", "--machine", "16,6,8,0,x"], format!("{five} '16,6,8,0,x'")),
        (
            &["run", "plan", "--machine", "16,6,8,0,4294967296"],
            format!("{five} '16,6,8,0,4294967296'"),
        ),
        (&["run", "plan", "--json", "--ledger"], "expected --json or --ledger, found both".into()),
        (
            &["run", "--ledger", "end", "--json", "plan"],
            "expected --json or --ledger, found both".into(),
        ),
        (&["run", "--json", "plan", "--json"], "--json: expected once, found twice".into()),
        (
            &["run", "--ledger", "plan", "--ledger", "end"],
            "--ledger: expected once, found twice".into(),
        ),
        (&["run", "--ledger", "end"], "expected a file after run, or - for standard input".into()),
        (&["run", "plan", "--state"], "--state: expected a folder, found nothing".into()),
        (&["run", "plan", "--state", ""], "--state: expected a folder, found nothing".into()),
        (
            &["run", "plan", "--state", "a", "--state", "b"],
            "--state: expected once, found twice".into(),
        ),
        (&["run", "plan", "--save"], "--save: expected a file, found nothing".into()),
        (&["run", "plan", "--load", ""], "--load: expected a file, found nothing".into()),
        (&["run", "plan", "--save", "--json"], format!("{file} '--json': {dash}")),
        (&["run", "--save", "-", "plan"], format!("{file} '-': {dash}")),
        (&["run", "plan", "--save", "--key=91"], format!("{file} '--key=..': {dash}")),
        (
            &["run", "plan", "--load", "--save", "a"],
            format!("--load: expected a file, found '--save': {dash}"),
        ),
        (
            &["run", "plan", "--state", "-x"],
            format!("--state: expected a folder, found '-x': {dash}"),
        ),
        (
            &["run", "plan", "--load", "a", "--load", "a"],
            "--load: expected once, found twice".into(),
        ),
        (
            &["run", "plan", "--load", "a", "--key", "1,2,3,4,5,6,7,8"],
            "expected --key or --load, found both: an image has the key in it".into(),
        ),
        (&["measure", "plan", "--load", "a"], "expected --machine or --key, found '--load'".into()),
        (
            &["run", "plan", "--machine", "16,6,8,0,2", "--machine", "16,6,8,0,2"],
            "--machine: expected once, found twice".into(),
        ),
        (
            &["run", "--key", "1,2,3,4,5,6,7,8", "--key", "1,2,3,4,5,6,7,8", "plan"],
            "--key: expected once, found twice".into(),
        ),
        (&["run", "plan", "-", "more"], "expected one name, found '-' as well".into()),
        (
            &["run", "plan", "a\n'b\u{1b}"],
            r"expected one name, found 'a\n\'b\u{1b}' as well".into(),
        ),
        (&["calls", "now"], "expected nothing after calls, found 'now'".into()),
        (&["measure"], "expected a file after measure, or - for standard input".into()),
        (&["measure", "plan", "--json"], "expected --machine or --key, found '--json'".into()),
        (&["why"], "expected a folder after why, as --state writes it".into()),
        (&["why", "plan", "--key", "1"], "expected --machine, found '--key'".into()),
        (&["why", "a", "b"], "expected one name, found 'b' as well".into()),
        (&["picture"], "expected a file to be written after picture, its name in .svg".into()),
        (&["picture", "a.svg", "plan", "c"], "expected two names, found 'c' as well".into()),
        (&["picture", "a.svg", "--ledger"], "expected --machine or --key, found '--ledger'".into()),
    ];
    for (words, expected) in cases {
        assert_eq!(complaint(&folder, words), format!("box: {expected}"));
    }
}

/// What is wrong with a key is said without repeating it.
#[test]
fn bad_keys() {
    let folder = Folder::new("bad-keys");
    std::fs::write(folder.0.join("plan"), "1;").expect("written");
    let eight = "--key: expected 8 numbers up to 4294967295 with commas between,";
    let options = "expected --machine, --key, --json, --ledger, --state, --save or --load,";
    for (words, said) in [
        (&["--key"][..], format!("{eight} found nothing")),
        (&["--key", ""], format!("{eight} found 1")),
        (&["--key", "91,92,93,94,95,96,97"], format!("{eight} found 7")),
        (&["--key", "91,92,93,94,95,96,97,98,99"], format!("{eight} found 9")),
        (&["--key", "91 92 93 94 95 96 97 98"], format!("{eight} found 1")),
        (&["--key", "91,92,93,94,4294967296,96,97,98"], format!("{eight} and the fifth is none")),
        (&["--key", "91,92,93,94,95,96,97,"], format!("{eight} and the eighth is none")),
        (&["--key", "91,+92,93,94,95,96,97,98"], format!("{eight} and the second is none")),
        (&["--key=91,92,93,94,95,96,97,98"], format!("{options} found '--key=..'")),
    ] {
        let said_of_it = complaint(&folder, &[&["run", "plan"], words].concat());
        assert_eq!(said_of_it, format!("box: {said}"));
        let rest = said_of_it.replace("4294967295", "");
        assert!((91..=99).all(|word| !rest.contains(&word.to_string())), "{rest}");
    }
}

#[test]
fn machines_that_do_not_fit() {
    let folder = Folder::new("bad-machines");
    std::fs::write(folder.0.join("plan"), "1;").expect("written");
    let (frames, pages) =
        (format!("F from 1 to {MOST_FRAMES}"), format!("n from 1 to {MOST_PAGES}"));
    let many_frames = format!("{},6,8,0,2", MOST_FRAMES + 1);
    let many_pages = format!("{MOST_FRAMES},6,{},0,2", MOST_PAGES + 1);
    for (numbers, rule) in [
        ("0,6,8,0,2", &frames[..]),
        (&many_frames, &frames),
        ("16,6,0,0,2", &pages),
        (&many_pages, &pages),
        ("16,6,8,0,0", "k of at least 1"),
        ("13,6,8,0,2", "secure frames s to s+n-1 below F"),
        ("16,4294967295,8,0,2", "secure frames s to s+n-1 below F"),
        ("16,6,8,0,17", "monitor frames m to m+k-1 below F"),
        ("16,6,8,4294967295,2", "monitor frames m to m+k-1 below F"),
        ("16,6,8,5,2", "secure and monitor frames that share none"),
        ("16,6,8,13,1", "secure and monitor frames that share none"),
    ] {
        let said = complaint(&folder, &["run", "plan", "--machine", numbers]);
        let found = format!("found '{numbers}'");
        assert_eq!(said, format!("box: --machine: expected {rule}, {found}"), "{numbers}");
    }
}
