use crate::code::{BAD_BLOCK, NOT_ACCEPTED};
use crate::layout::{progress, BLOCK_BYTES, PROGRESS_WORDS};
use core::fmt;

/// A block of a saved image. Those of an image hold the key and every secure page:
/// do not print one, as any list of bytes it shows all of them.
pub type Block = [u8; BLOCK_BYTES];

/// Why an image is refused.
///
/// ```
/// # extern crate types as monitor;
/// use monitor::BadImage;
///
/// let progress = [25, 68, 7, 0];
/// assert_eq!(BadImage::from_answer(25, &progress), Some(BadImage::Block(68)));
/// assert_eq!(BadImage::from_answer(26, &progress), Some(BadImage::NotAccepted));
/// assert_eq!(BadImage::from_answer(0, &progress), None);
/// assert_eq!(BadImage::Block(68).to_string(), "block 68 is bad (25)");
/// assert_eq!(BadImage::NotAccepted.to_string(), "acceptance says no (26)");
/// ```
#[derive(Clone, Copy, Debug, PartialEq, Eq, Hash)]
pub enum BadImage {
    /// 25: the first bad block, by its place from 0: by how many good ones came
    /// before. It is changed, short, out of turn, of another image, missing, one too
    /// many, or of a version before 0.5.0.
    Block(u32),
    /// 26: every block is good, and acceptance says no.
    NotAccepted,
}

impl BadImage {
    /// What 25 means.
    pub const BLOCK_IN_WORDS: &str = "a bad block";
    /// What 26 means.
    pub const ACCEPTANCE_IN_WORDS: &str = "acceptance says no";

    /// The number that the reader answers.
    pub const fn code(self) -> u32 {
        match self {
            BadImage::Block(_) => BAD_BLOCK,
            BadImage::NotAccepted => NOT_ACCEPTED,
        }
    }

    /// What this answer of the reader's refuses, by the progress that it left.
    pub const fn from_answer(code: u32, left: &[u32; PROGRESS_WORDS]) -> Option<BadImage> {
        match code {
            BAD_BLOCK => Some(BadImage::Block(left[progress::CAME])),
            NOT_ACCEPTED => Some(BadImage::NotAccepted),
            _ => None,
        }
    }
}

impl fmt::Display for BadImage {
    fn fmt(&self, out: &mut fmt::Formatter) -> fmt::Result {
        let code = self.code();
        match self {
            BadImage::Block(place) => write!(out, "block {place} is bad ({code})"),
            BadImage::NotAccepted => write!(out, "{} ({code})", BadImage::ACCEPTANCE_IN_WORDS),
        }
    }
}

impl core::error::Error for BadImage {}
