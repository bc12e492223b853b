//! Saved images: a box that is restored from one, and a box that is written as one.

use crate::{places, write};
use monitor::layout::BLOCK_BYTES;
use monitor::{BadImage, Ledger, Machine, Monitor, Restore};
use plan::shown::shown;
use plan::stop::{say, Stop};
use plan::Complaint;
use std::ffi::OsStr;
use std::io::{self, IsTerminal, Write};
use std::path::Path;

/// The box that an image restores, or what is wrong with the image. Frames that are
/// not in it are those of a fresh box.
pub fn restored(file: &OsStr, machine: Machine, bytes: &[u8]) -> Result<Monitor, Complaint> {
    let spare = Restore::over(machine, places(machine), Ledger::zeros(machine));
    let mut restore = spare.map_err(|unfit| unfit.to_string())?;
    let progress = Progress::new("loading", machine.image_blocks());
    for (done, block) in (1..).zip(bytes.chunks(BLOCK_BYTES)) {
        // What is bad the end says again.
        if restore.take(block).is_err() {
            break;
        }
        progress.at(done);
    }
    restore.end().map_err(|(bad, _)| {
        let (expected, found) = (machine.image_blocks(), in_words(bad, machine, bytes.len()));
        format!("--load: {}: expected an image of {expected} blocks, and {found}", shown(file))
    })
}

/// What is wrong with an image of so many bytes for this box.
fn in_words(bad: BadImage, machine: Machine, bytes: usize) -> String {
    let total = machine.image_blocks();
    match bad {
        BadImage::NotAccepted => {
            "acceptance says no: it holds no state of this box, or --machine has to name another"
                .into()
        }
        BadImage::Block(place) if place as usize == total => "it goes on after the last".into(),
        BadImage::Block(place) if place as usize == bytes / BLOCK_BYTES => {
            format!("it is too short: {bytes} of {} bytes", total * BLOCK_BYTES)
        }
        BadImage::Block(0) => {
            "block 0 is bad: it is no image, or of a box that --machine has to name".into()
        }
        BadImage::Block(place) => format!("block {place} is bad"),
    }
}

/// Writes the box as an image of this number, readable for its owner alone, and
/// says what the file holds.
pub fn save(file: &OsStr, number: u32, bench: &Monitor) -> Result<(), Stop> {
    let blocks = bench.image(number).map_err(|unfit| unfit.to_string())?;
    let total = blocks.len();
    let progress = Progress::new("saving", total);
    write::private(Path::new(file), |out| {
        (1..)
            .zip(blocks)
            .try_for_each(|(done, block)| out.write_all(&block).inspect(|()| progress.at(done)))
    })?;
    drop(progress);
    let file = shown(file);
    say(&format!("{file} holds the bench's key (image {number}, {total} blocks)"));
    Ok(())
}

/// How far it is, said on a terminal where there are many blocks.
struct Progress {
    doing: &'static str,
    total: usize,
    shown: bool,
}

impl Progress {
    /// Blocks that take no time worth saying.
    const FEW: usize = 256;
    /// It is said after as many.
    const STEP: usize = 64;

    fn new(doing: &'static str, total: usize) -> Progress {
        let shown = total > Progress::FEW && io::stderr().is_terminal();
        Progress { doing, total, shown }
    }

    fn at(&self, done: usize) {
        let Progress { doing, total, shown } = self;
        if *shown && (done % Progress::STEP == 0 || done == *total) {
            let _ = write!(io::stderr(), "\rbox: {doing}: {done} of {total} blocks");
        }
    }
}

impl Drop for Progress {
    fn drop(&mut self) {
        if self.shown {
            let _ = writeln!(io::stderr());
        }
    }
}
