//! Files of the system, in plain words.

use std::fs::FileType;
use std::io;
use std::os::unix::fs::FileTypeExt;

/// The reason in plain words: what the system says has a number in it.
pub fn reason(fault: &io::Error) -> &'static str {
    match fault.kind() {
        io::ErrorKind::NotFound => "there is no such file",
        io::ErrorKind::NotADirectory => "there is no such folder",
        io::ErrorKind::PermissionDenied => "it may not be read",
        io::ErrorKind::IsADirectory => "it is a folder",
        _ => "the system refuses",
    }
}

/// What stands there instead of something that has an end.
pub fn endless(kind: FileType) -> Option<&'static str> {
    if kind.is_dir() {
        Some("it is a folder")
    } else if kind.is_char_device() || kind.is_block_device() {
        Some("it is a device")
    } else if kind.is_socket() {
        Some("it is a socket")
    } else {
        None
    }
}
