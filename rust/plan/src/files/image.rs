use super::beside::{may_stand, resolved, sweep};
use super::plain::{endless, reason};
use super::state::folder_of;
use crate::options::Run;
use crate::shown::shown;
use crate::stop::Stop;
use crate::Complaint;
use std::ffi::OsStr;
use std::fs::File;
use std::io::{self, Read};
use std::path::Path;
use types::layout::{block, BLOCK_BYTES, MOST_FRAMES, MOST_PAGES};
use types::Machine;

/// Bytes in a word, the lowest first.
const WORD: usize = 4;
/// What is found in place of an image that this version can read.
const OLDER: &str = "found one of an older version";
/// The largest box.
const LARGEST: Machine =
    Machine { frames: MOST_FRAMES, secure: 1, pages: MOST_PAGES, monitor: 0, monitors: 1 };

/// The saved images of a run.
#[derive(Default)]
pub struct Images {
    /// The bytes of the one that is loaded, up to a block more than its box has;
    /// what they are worth is the library's to say.
    pub loaded: Vec<u8>,
    /// The number of the one that is saved: one more than the larger of those of the
    /// images that are overwritten and loaded; 1 where there is neither.
    pub number: u32,
}

impl Images {
    /// Those that are asked for.
    pub(super) fn look(run: &Run) -> Result<Images, Stop> {
        let loaded = match &run.load {
            Some(file) => load(file, run.plan.fresh.machine)?,
            None => Vec::new(),
        };
        let number = match &run.save {
            Some(file) => {
                apart(file, run.state.as_deref())?;
                let before = may_write(file)?.max(number_of(&loaded));
                next(file, before.unwrap_or(0))?
            }
            None => 0,
        };
        Ok(Images { number, loaded })
    }
}

/// The bytes of an image for this box.
fn load(file: &OsStr, machine: Machine) -> Result<Vec<u8>, Complaint> {
    let refused = |why: &str| {
        format!("--load: {}: expected a saved image, and it cannot be read: {why}", shown(file))
    };
    let unread = |fault: io::Error| refused(reason(&fault));
    let kind = Path::new(file).metadata().map_err(unread)?.file_type();
    if !kind.is_file() {
        return Err(refused(endless(kind).unwrap_or("it is no plain file")));
    }
    let bytes = bytes(Path::new(file), machine).map_err(unread)?;
    if is_older(&bytes) {
        let anew = "it cannot be read, and its box's state has to be booted anew";
        return Err(format!("--load: {}: expected a saved image, {OLDER}: {anew}", shown(file)));
    }
    Ok(bytes)
}

/// The bytes of a file, up to a block more than an image of this box has.
fn bytes(path: &Path, machine: Machine) -> io::Result<Vec<u8>> {
    let mut bytes = Vec::new();
    let most = (machine.image_blocks() + 1) * BLOCK_BYTES;
    File::open(path)?.take(most as u64).read_to_end(&mut bytes)?;
    Ok(bytes)
}

/// Whether an image goes elsewhere than a state: to no file of its folder.
fn apart(file: &OsStr, state: Option<&OsStr>) -> Result<(), Stop> {
    let Some(folder) = state else { return Ok(()) };
    match resolved(Path::new(file)).starts_with(resolved(Path::new(folder))) {
        true => Err(Stop::Asked(format!(
            "--save: {}: expected a file outside of the folder of --state, found one in it",
            shown(file)
        ))),
        false => Ok(()),
    }
}

/// Whether an image may be written to this file: its folder is there, and what
/// stands there already is empty or an image, whose number is given. Unfinished ones
/// that killed runs have left beside it hold the key, and are removed.
fn may_write(file: &OsStr) -> Result<Option<u32>, Stop> {
    let complain = |what: String| Stop::Asked(format!("--save: {}: {what}", shown(file)));
    let path = Path::new(file);
    let mut number = None;
    match path.symlink_metadata() {
        Err(fault) if fault.kind() == io::ErrorKind::NotFound => {
            folder_of(path).map_err(complain)?;
        }
        Err(fault) => return Err(Stop::File(shown(file), fault)),
        Ok(_) => {
            let expected = "expected nothing, an empty file or a saved image";
            let stands = stands(path).map_err(|found| complain(format!("{expected}, {found}")))?;
            number = number_of(&stands);
        }
    }
    sweep(&resolved(path));
    may_stand(&path.canonicalize().unwrap_or(path.into()))?;
    Ok(number)
}

/// The bytes of an image or of an empty file; or what is found instead.
fn stands(path: &Path) -> Result<Vec<u8>, String> {
    let other = || Err("found something else".into());
    if !path.metadata().is_ok_and(|about| about.is_file()) {
        return other();
    }
    match bytes(path, LARGEST) {
        Ok(bytes) if bytes.is_empty() || is_image(&bytes) => Ok(bytes),
        Ok(bytes) if is_older(&bytes) => Err(format!("{OLDER}, which is not overwritten")),
        Ok(_) => other(),
        Err(fault) => Err(format!("and it cannot be read: {}", reason(&fault))),
    }
}

/// The number after this one.
fn next(file: &OsStr, before: u32) -> Result<u32, Complaint> {
    let last = || {
        let what = "the image overwritten or loaded has the last number";
        format!("--save: {}: {what}, {before}, and none is left for the next", shown(file))
    };
    before.checked_add(1).ok_or_else(last)
}

/// Whether these are all the blocks of one image, in order, by what their first
/// words say. Whether they are good is not asked: they are to be overwritten.
fn is_image(bytes: &[u8]) -> bool {
    let (blocks, rest) = (bytes.len() / BLOCK_BYTES, bytes.len() % BLOCK_BYTES);
    rest == 0 && total_word(bytes) == Some(block::TOTAL_FROM + blocks as u32)
}

/// Whether an older version wrote these blocks, which said the bare total. They
/// need not be all: what is read is bounded by the box.
fn is_older(bytes: &[u8]) -> bool {
    total_word(bytes).is_some_and(|word| word > 0 && word < block::TOTAL_FROM)
}

/// What the blocks say of their total, where they say one thing, have one number and
/// stand in order.
fn total_word(bytes: &[u8]) -> Option<u32> {
    let first = bytes.get(..BLOCK_BYTES)?;
    let (number, total) = (word(first, block::NUMBER), word(first, block::TOTAL));
    let head =
        |block: &[u8]| [block::NUMBER, block::INDEX, block::TOTAL].map(|place| word(block, place));
    let own = |(index, block)| head(block) == [number, Some(index), total];
    total.filter(|_| (0..).zip(bytes.chunks_exact(BLOCK_BYTES)).all(own))
}

/// The number of an image; what is none has none.
fn number_of(bytes: &[u8]) -> Option<u32> {
    is_image(bytes).then(|| word(bytes, block::NUMBER)).flatten()
}

fn word(bytes: &[u8], place: usize) -> Option<u32> {
    let bytes = bytes.get(place * WORD..(place + 1) * WORD)?;
    Some(u32::from_le_bytes(bytes.try_into().expect("a word")))
}
