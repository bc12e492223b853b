//! The program itself, run on a file of its own.

// Not every test has a use for all.
#![allow(dead_code)]

use std::ffi::OsStr;
use std::io::Write;
use std::path::PathBuf;
use std::process::{Command, Output, Stdio};
use std::sync::atomic::{AtomicUsize, Ordering};

/// How many folders there have been: tests run beside each other.
static FOLDERS: AtomicUsize = AtomicUsize::new(0);

/// A folder that is gone after the test.
pub struct Folder(pub PathBuf);

impl Folder {
    pub fn new(name: &str) -> Folder {
        let number = FOLDERS.fetch_add(1, Ordering::Relaxed);
        let name = format!("play-{}-{number}-{name}", std::process::id());
        let folder = std::env::temp_dir().join(name);
        std::fs::create_dir(&folder).expect("a folder for the test");
        Folder(folder)
    }
}

impl Drop for Folder {
    fn drop(&mut self) {
        let _ = std::fs::remove_dir_all(&self.0);
    }
}

/// The program with these words, in this folder. In an emulator, which
/// .ci/host names in RUNNER, it has to be started by that.
pub fn command<W: AsRef<OsStr>>(folder: &Folder, words: &[W]) -> Command {
    let program = env!("CARGO_BIN_EXE_play");
    let runner = std::env::var("RUNNER").unwrap_or_default();
    let mut command = match runner.as_str() {
        "" => Command::new(program),
        runner => Command::new(runner),
    };
    if !runner.is_empty() {
        command.arg(program);
    }
    command.args(words).current_dir(&folder.0).stdin(Stdio::null());
    command
}

/// What it prints and says.
pub fn play<W: AsRef<OsStr>>(folder: &Folder, words: &[W]) -> Output {
    command(folder, words).output().expect("the program runs")
}

/// The same with a text on standard input.
pub fn play_with(folder: &Folder, words: &[&str], input: &[u8]) -> Output {
    let mut command = command(folder, words);
    command.stdin(Stdio::piped()).stdout(Stdio::piped()).stderr(Stdio::piped());
    let mut running = command.spawn().expect("the program runs");
    let mut pipe = running.stdin.take().expect("its input");
    // It may end before it has read all.
    let _ = pipe.write_all(input);
    drop(pipe);
    running.wait_with_output().expect("it ends")
}

/// The one line of a complaint, with this status and nothing printed.
pub fn complaint(out: &Output, status: i32) -> String {
    let said = String::from_utf8(out.stderr.clone()).expect("UTF-8");
    assert_eq!(out.status.code(), Some(status), "{said}");
    assert!(out.stdout.is_empty(), "{said}");
    assert_eq!(said.matches('\n').count(), 1, "{said}");
    said.trim_end().to_string()
}
