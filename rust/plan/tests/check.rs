//! The program that only checks: it complains as the one that plays does, and
//! passes a good plan on.

use plan::calls::calls;
use std::io::Write;
use std::process::{Command, Output, Stdio};

/// In an emulator, which .ci/host names in RUNNER, the program has to be started
/// by that.
fn command(words: &[&str]) -> Command {
    let program = env!("CARGO_BIN_EXE_plan").to_string();
    let runner = std::env::var("RUNNER").unwrap_or_default();
    let start: Vec<String> =
        [runner, program].into_iter().filter(|word| !word.is_empty()).collect();
    let mut command = Command::new(&start[0]);
    command
        .args(&start[1..])
        .args(words)
        .stdin(Stdio::piped())
        .stdout(Stdio::piped())
        .stderr(Stdio::piped());
    command
}

fn check(words: &[&str], input: &[u8]) -> Output {
    let mut running = command(words).spawn().expect("it runs");
    // It may end before it has read all.
    let _ = running.stdin.take().expect("its input").write_all(input);
    running.wait_with_output().expect("it ends")
}

#[test]
fn what_is_good_is_passed_on() {
    let text = b"# all\n13 = 0;";
    for words in [&["run", "-"][..], &["run", "/dev/stdin"], &["measure", "-"]] {
        let out = check(words, text);
        assert!(out.status.success() && out.stderr.is_empty(), "{words:?}");
        assert_eq!(out.stdout, text);
    }
    let out = check(&[], text);
    assert!(out.status.success() && out.stderr.is_empty() && out.stdout.is_empty());
}

/// The table of calls needs no library: this program prints it.
#[test]
fn the_calls() {
    let out = check(&["calls"], b"");
    assert!(out.status.success() && out.stderr.is_empty());
    assert_eq!(out.stdout, calls().into_bytes());
    assert_eq!(check(&["calls", "now"], b"").status.code(), Some(2));
    let full = std::fs::File::options().write(true).open("/dev/full").expect("a device");
    let out = command(&["calls"]).stdout(full).output().expect("it runs");
    let said = "box: the output cannot be written: No space left on device\n";
    assert_eq!((out.status.code(), String::from_utf8_lossy(&out.stderr).as_ref()), (Some(1), said));
}

#[test]
fn what_is_wrong_is_said() {
    let first = "expected run, calls, measure, why, picture, bench, help or nothing, found";
    for (words, said) in [
        (&["walk"][..], format!("{first} 'walk'")),
        (&["run", "-", "--json", "--json"], "--json: expected once, found twice".into()),
        (
            &["run", "-"],
            "-:2:3: expected an argument, '=' or a semicolon, found the end of the file".into(),
        ),
        (
            &["run", "none"],
            "none: expected a plan of calls, and it cannot be read: there is no such file".into(),
        ),
        (
            &["why", "none"],
            "none: expected a folder of a state, as --state writes it, and there is none".into(),
        ),
    ] {
        let out = check(words, b"1;\n13");
        assert_eq!(out.status.code(), Some(2), "{words:?}");
        assert_eq!(String::from_utf8(out.stderr).expect("UTF-8"), format!("box: {said}\n"));
        assert!(out.stdout.is_empty());
    }
}

/// Nothing is made or written by looking.
#[test]
fn nothing_is_written() {
    let folder = std::env::temp_dir().join(format!("plan-{}", std::process::id()));
    let (state, picture) = (folder.join("state"), folder.join("a.svg"));
    let image = folder.join("a.image");
    std::fs::create_dir(&folder).expect("made");
    let name = |path: &std::path::Path| path.to_str().expect("UTF-8").to_string();
    assert!(check(&["run", "-", "--state", &name(&state)], b"13;").status.success());
    assert!(check(&["picture", &name(&picture), "-"], b"13;").status.success());
    assert!(check(&["run", "-", "--save", &name(&image)], b"13;").status.success());
    let files = std::fs::read_dir(&folder).expect("a folder").count();
    std::fs::remove_dir(&folder).expect("an empty folder");
    assert_eq!(files, 0);
}
