//! Plans, read with a bound.

use super::plain::{endless, reason};
use crate::options::Source;
use crate::shown::shown;
use crate::text::Text;
use crate::Complaint;
use std::fs::{File, Metadata};
use std::io::{self, IsTerminal, Read};
use std::os::fd::AsFd;

/// A plan has at most as many bytes.
pub const MOST_BYTES: u64 = 64_000_000;

/// The plan of this name, checked whole. It may have been passed on, and then
/// stands elsewhere than its name says.
pub fn text(named: &Source, from: &Source) -> Result<Text, Complaint> {
    let name = match named {
        Source::Input => "-".into(),
        Source::File(name) => shown(name),
    };
    let bytes = bytes(from).map_err(|what| format!("{name}: expected a plan of {what}"))?;
    Text::new(name, bytes)
}

/// The bytes, or what is wrong with them.
fn bytes(source: &Source) -> Result<Vec<u8>, String> {
    let refused = |why: &str| format!("calls, and it cannot be read: {why}");
    let unread = |fault: io::Error| refused(reason(&fault));
    let (about, terminal) = about(source).map_err(unread)?;
    if let Some(why) = endless(about.file_type()).filter(|_| !terminal) {
        return Err(refused(why));
    }
    let many = format!("at most {MOST_BYTES} bytes, found more");
    if about.len() > MOST_BYTES {
        return Err(many);
    }
    let mut bytes = Vec::new();
    let mut bounded = open(source).map_err(unread)?.take(MOST_BYTES + 1);
    bounded.read_to_end(&mut bytes).map_err(unread)?;
    match bytes.len() as u64 > MOST_BYTES {
        true => Err(many),
        false => Ok(bytes),
    }
}

/// What the system knows of it, before it is opened; and whether it is a
/// terminal, which is a device that ends.
fn about(source: &Source) -> io::Result<(Metadata, bool)> {
    match source {
        Source::Input => {
            let input = io::stdin().as_fd().try_clone_to_owned()?;
            Ok((File::from(input).metadata()?, io::stdin().is_terminal()))
        }
        Source::File(name) => Ok((std::fs::metadata(name)?, false)),
    }
}

fn open(source: &Source) -> io::Result<Box<dyn Read>> {
    Ok(match source {
        Source::Input => Box::new(io::stdin()),
        Source::File(name) => Box::new(File::open(name)?),
    })
}
