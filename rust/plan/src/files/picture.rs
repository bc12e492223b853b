use super::beside::may_stand;
use super::source::MOST_BYTES;
use super::state::folder_of;
use crate::shown::shown;
use crate::stop::Stop;
use std::ffi::OsStr;
use std::fs::File;
use std::io::{self, Read};
use std::path::Path;

/// What a picture of `./box` starts with, before its sum.
const DRAWN: &str = "<!-- drawn by ./box ";

/// A picture with its mark: a first line with the sum of the rest. What was
/// changed since is not overwritten.
pub fn marked(picture: &str) -> String {
    format!("{DRAWN}{:016x} -->\n{picture}", sum(picture.as_bytes()))
}

/// A sum of bytes (FNV-1a): enough for what was changed by hand.
fn sum(bytes: &[u8]) -> u64 {
    let step = |sum: u64, byte: &u8| (sum ^ u64::from(*byte)).wrapping_mul(0x100_0000_01b3);
    bytes.iter().fold(0xcbf2_9ce4_8422_2325, step)
}

/// Whether a picture may be written to this file: its name says so, its folder
/// is there, and what stands there already is a picture of `./box` or empty.
pub fn may_write(file: &OsStr) -> Result<(), Stop> {
    let complain = |what: String| Stop::Asked(format!("{}: {what}", shown(file)));
    let path = Path::new(file);
    if path.extension() != Some("svg".as_ref()) {
        return Err(complain("expected a name that ends in .svg for the picture".into()));
    }
    match path.symlink_metadata() {
        Err(fault) if fault.kind() == io::ErrorKind::NotFound => {
            folder_of(path).map_err(complain)?;
        }
        Err(fault) => return Err(Stop::File(shown(file), fault)),
        Ok(_) if may_go(path) => {}
        Ok(_) => {
            let expected = "expected nothing, an empty file or a picture as ./box drew it";
            return Err(complain(format!("{expected}, found something else")));
        }
    }
    may_stand(&path.canonicalize().unwrap_or(path.into()))
}

/// Whether a file is empty or a picture as `./box` drew it.
fn may_go(path: &Path) -> bool {
    let read = || {
        let mut text = String::new();
        File::open(path)?.take(MOST_BYTES).read_to_string(&mut text)?;
        Ok::<String, io::Error>(text)
    };
    let file = path.metadata().is_ok_and(|about| about.is_file());
    let own = |text: String| {
        text.is_empty() || text.split_once('\n').is_some_and(|(_, rest)| marked(rest) == text)
    };
    file && read().is_ok_and(own)
}
