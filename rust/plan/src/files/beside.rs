//! Files that are written beside their places and then moved there.

use crate::decimal::value;
use crate::shown::shown;
use crate::stop::Stop;
use std::ffi::OsStr;
use std::fs::{self, OpenOptions};
use std::os::unix::ffi::OsStrExt;
use std::os::unix::fs::MetadataExt;
use std::path::{Path, PathBuf};

/// Beside this place, by a name that is this process's own.
pub fn beside(place: &Path) -> PathBuf {
    let mut name = place.as_os_str().to_owned();
    name.push(format!(".{}.new", std::process::id()));
    name.into()
}

/// Whose process wrote this file beside a place of this name.
fn process_of(place: &OsStr, file: &OsStr) -> Option<u32> {
    let rest = file.as_bytes().strip_prefix(place.as_bytes())?.strip_prefix(b".")?;
    value(rest.strip_suffix(b".new")?)
}

/// Removes what killed runs have left beside this place: plain files of this user's,
/// by names as above, whose process is gone; empty, or for their owner alone, as an
/// image is written. What cannot be removed stays.
pub(super) fn sweep(place: &Path) {
    let (Some(folder), Some(name)) = (place.parent(), place.file_name()) else { return };
    let (Ok(own), Ok(entries)) = (fs::metadata("/proc/self"), folder.read_dir()) else { return };
    for file in entries.flatten() {
        let Some(process) = process_of(name, &file.file_name()) else { continue };
        // This process has written none yet: what bears its number is of an earlier one.
        let gone = process == std::process::id()
            || Path::new(&format!("/proc/{process}")).try_exists().is_ok_and(|there| !there);
        let left = |it: fs::Metadata| {
            let private = it.len() == 0 || it.mode() & 0o077 == 0;
            it.is_file() && it.uid() == own.uid() && private
        };
        // Of a link this is the link itself.
        if gone && file.metadata().is_ok_and(left) {
            let _ = fs::remove_file(file.path());
        }
    }
}

/// A path without links, also where nothing stands there yet.
pub(super) fn resolved(path: &Path) -> PathBuf {
    let new = || {
        let folder = path.parent().filter(|folder| !folder.as_os_str().is_empty());
        let folder = folder.unwrap_or(Path::new(".")).canonicalize();
        Some(folder.ok()?.join(path.file_name()?))
    };
    path.canonicalize().ok().or_else(new).unwrap_or(path.into())
}

/// Whether a file can be written beside this place: it is tried, and nothing
/// is left.
pub fn may_stand(place: &Path) -> Result<(), Stop> {
    let file = beside(place);
    let made = OpenOptions::new().write(true).create_new(true).open(&file);
    let tried = made.and_then(|_| fs::remove_file(&file));
    tried.map_err(|fault| Stop::File(shown(place.as_os_str()), fault))
}
