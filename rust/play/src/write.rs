//! Files that are written whole or not at all, and a patient output.

use monitor::Monitor;
use plan::files::beside::beside;
use plan::files::{LEDGER, MEMORY};
use plan::shown::shown;
use plan::stop::Stop;
use std::ffi::OsStr;
use std::fs::{File, OpenOptions};
use std::io::{self, Write};
use std::os::unix::fs::OpenOptionsExt;
use std::path::{Path, PathBuf};

/// Who may read and write a new file: whoever the system lets, or its owner alone.
const ANYBODY: u32 = 0o666;
const OWNER: u32 = 0o600;

/// A file that stands beside its place, whole, and is gone unless it is moved
/// there.
struct Beside {
    place: PathBuf,
    file: PathBuf,
}

impl Beside {
    fn write(place: &Path, bytes: &[u8]) -> Result<Beside, Stop> {
        Beside::written(place, ANYBODY, |out| out.write_all(bytes))
    }

    fn written(
        place: &Path,
        mode: u32,
        write: impl FnOnce(&mut File) -> io::Result<()>,
    ) -> Result<Beside, Stop> {
        let place = place.canonicalize().unwrap_or(place.into());
        let file = beside(&place);
        let opened = OpenOptions::new().write(true).create_new(true).mode(mode).open(&file);
        let mut out = opened.map_err(|fault| unwritten(&place, fault))?;
        let new = Beside { place, file };
        write(&mut out).map_err(|fault| unwritten(&new.place, fault))?;
        Ok(new)
    }

    fn moved(self) -> Result<(), Stop> {
        std::fs::rename(&self.file, &self.place).map_err(|fault| unwritten(&self.place, fault))
    }
}

fn unwritten(path: &Path, fault: io::Error) -> Stop {
    Stop::File(shown(path.as_os_str()), fault)
}

impl Drop for Beside {
    fn drop(&mut self) {
        // One that was moved is there no more.
        let _ = std::fs::remove_file(&self.file);
    }
}

/// Writes a file beside its place, then moves it there.
pub fn whole(path: &Path, bytes: &[u8]) -> Result<(), Stop> {
    Beside::write(path, bytes)?.moved()
}

/// Writes a file for its owner alone. All of it is on the disk before it is moved to
/// its place, so that no unfinished file ever stands there.
pub fn private(path: &Path, write: impl FnOnce(&mut File) -> io::Result<()>) -> Result<(), Stop> {
    let synced = |out: &mut File| write(out).and_then(|()| out.sync_all());
    Beside::written(path, OWNER, synced)?.moved()
}

/// Writes a box's words to a folder, which is made if it is missing. Both files
/// are written before either is moved to its place: what stands there is hardly
/// ever a mixture of two states.
pub fn state(folder: &OsStr, bench: &Monitor) -> Result<(), Stop> {
    let path = Path::new(folder);
    match std::fs::create_dir(path) {
        Err(fault) if fault.kind() != io::ErrorKind::AlreadyExists => {
            return Err(unwritten(path, fault));
        }
        _ => {}
    }
    let memory = Beside::write(&path.join(MEMORY), &bytes(bench.memory().words()))?;
    let ledger = Beside::write(&path.join(LEDGER), &bytes(bench.ledger().words()))?;
    memory.moved()?;
    ledger.moved()
}

/// Words as bytes, the lowest first.
fn bytes(words: &[u32]) -> Vec<u8> {
    words.iter().flat_map(|word| word.to_le_bytes()).collect()
}

/// An output that may go on where its reader has closed the pipe: what else is
/// asked for is still to be done.
pub struct Patient<W> {
    out: W,
    goes_on: bool,
}

impl<W> Patient<W> {
    /// This output; whether it goes on.
    pub fn new(out: W, goes_on: bool) -> Patient<W> {
        Patient { out, goes_on }
    }

    fn done<T>(&self, done: io::Result<T>, otherwise: T) -> io::Result<T> {
        match done {
            Err(fault) if self.goes_on && fault.kind() == io::ErrorKind::BrokenPipe => {
                Ok(otherwise)
            }
            done => done,
        }
    }
}

impl<W: Write> Write for Patient<W> {
    fn write(&mut self, bytes: &[u8]) -> io::Result<usize> {
        let done = self.out.write(bytes);
        self.done(done, bytes.len())
    }

    fn flush(&mut self) -> io::Result<()> {
        let done = self.out.flush();
        self.done(done, ())
    }
}
