use super::beside::may_stand;
use super::plain::{endless, reason};
use crate::shown::shown;
use crate::stop::Stop;
use crate::Complaint;
use std::ffi::OsStr;
use std::fs::File;
use std::io::{self, Read};
use std::path::Path;
use types::layout::{FRAME_WORDS, HEADER_WORDS, MOST_FRAMES, MOST_PAGES, RECORD_WORDS};

/// The file of a state's memory.
pub const MEMORY: &str = "memory";
/// The file of a state's ledger.
pub const LEDGER: &str = "ledger";

/// Words of memory that the largest box has.
const MOST_MEMORY: usize = MOST_FRAMES as usize * FRAME_WORDS;
/// Words of ledger that the largest box has.
const MOST_LEDGER: usize = HEADER_WORDS + MOST_PAGES as usize * RECORD_WORDS;
/// Bytes in a word, the lowest first.
const WORD: usize = 4;

/// A state, as `--state` writes it and `why` reads it: two files of words in a
/// folder.
#[derive(Default)]
pub struct State {
    /// The words of the memory.
    pub memory: Vec<u32>,
    /// The words of the ledger.
    pub ledger: Vec<u32>,
}

impl State {
    /// The state in a folder. Whether its lengths are a box's is not asked.
    pub fn read(folder: &OsStr) -> Result<State, Complaint> {
        if !Path::new(folder).is_dir() {
            let expected = "expected a folder of a state, as --state writes it, and there is none";
            return Err(format!("{}: {expected}", shown(folder)));
        }
        let words = |file: &str, most: usize| {
            let path = Path::new(folder).join(file);
            words(&path, most).map_err(|what| format!("{}: {what}", shown(path.as_os_str())))
        };
        Ok(State { memory: words(MEMORY, MOST_MEMORY)?, ledger: words(LEDGER, MOST_LEDGER)? })
    }
}

fn words(path: &Path, most: usize) -> Result<Vec<u32>, Complaint> {
    let refused =
        |why: &str| format!("expected the words of a state, and it cannot be read: {why}");
    let unread = |fault: io::Error| refused(reason(&fault));
    let kind = path.metadata().map_err(unread)?.file_type();
    if !kind.is_file() {
        return Err(refused(endless(kind).unwrap_or("it is no plain file")));
    }
    let mut bytes = Vec::new();
    let bounded = File::open(path).map_err(unread)?.take((most * WORD) as u64 + 1);
    { bounded }.read_to_end(&mut bytes).map_err(unread)?;
    if bytes.len() > most * WORD {
        return Err(format!("expected at most {most} words of {WORD} bytes, found more"));
    }
    let words = bytes.chunks_exact(WORD);
    if !words.remainder().is_empty() {
        return Err(format!("expected words of {WORD} bytes, found {} bytes", bytes.len()));
    }
    Ok(words.map(|word| u32::from_le_bytes(word.try_into().expect("a word"))).collect())
}

/// Whether a state may be written to a folder: it is missing and can be made,
/// or it is empty. Nothing that stands there could be told from a file of
/// somebody's own.
pub fn may_write(folder: &OsStr) -> Result<(), Stop> {
    let path = Path::new(folder);
    let complain = |what: String| Stop::Asked(format!("--state: {}: {what}", shown(folder)));
    if path.symlink_metadata().is_err_and(|fault| fault.kind() == io::ErrorKind::NotFound) {
        folder_of(path).map_err(complain)?;
        return may_stand(path);
    }
    if !path.is_dir() {
        return Err(complain("expected a folder, found something else".into()));
    }
    let unread = |fault: io::Error| complain(format!("expected a folder, and {}", reason(&fault)));
    if let Some(entry) = path.read_dir().map_err(unread)?.next() {
        let name = entry.map_err(unread)?.file_name();
        return Err(complain(format!("expected a new or an empty folder, found {}", shown(&name))));
    }
    may_stand(&path.join(MEMORY))
}

/// Whether the folder that a path stands in is there.
pub(super) fn folder_of(path: &Path) -> Result<(), String> {
    let folder = match path.parent() {
        Some(folder) if !folder.as_os_str().is_empty() => folder,
        _ => Path::new("."),
    };
    match folder.is_dir() {
        true => Ok(()),
        false => Err(format!(
            "expected a folder to write it in, and {} is none",
            shown(folder.as_os_str())
        )),
    }
}
