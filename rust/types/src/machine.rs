use crate::layout::{
    FRAME_WORDS, HEADER_WORDS, MOST_FRAMES, MOST_PAGES, PAYLOAD_WORDS, RECORD_WORDS,
};
use crate::rule::Rule;

/// The box's numbers F, s, n, m and k: which frames there are, and whose.
///
/// ```
/// # extern crate types as monitor;
/// use monitor::{Machine, Rule};
///
/// let bench = Machine::BOX_A;
/// assert!(bench.fits());
/// assert!(bench.is_insecure(5) && !bench.is_insecure(6) && !bench.is_insecure(1));
/// assert_eq!(bench.page_in(6), Some(0));
/// // Numbers that do not fit can be said; the services then answer 18.
/// let small = Machine { frames: 13, ..bench };
/// assert!(!small.fits());
/// assert_eq!(small.broken_rule(), Some(Rule::SecureBelow));
/// assert_eq!(Rule::SecureBelow.to_string(), "secure frames s to s+n-1 below F");
/// // A box whose words are set aside when it is built:
/// const BOX: Machine = Machine { frames: 40, secure: 8, pages: 24, monitor: 2, monitors: 1 };
/// const _: () = assert!(BOX.fits());
/// static MEMORY: [u32; BOX.memory_words()] = [0; BOX.memory_words()];
/// ```
#[derive(Clone, Copy, Debug, PartialEq, Eq, Hash)]
pub struct Machine {
    /// F: how many frames there are, 1 to [`MOST_FRAMES`].
    pub frames: u32,
    /// s: the first secure frame.
    pub secure: u32,
    /// n: how many secure frames there are, 1 to [`MOST_PAGES`]; page p is
    /// frame s+p.
    pub pages: u32,
    /// m: the monitor's first frame.
    pub monitor: u32,
    /// k: how many frames the monitor has, at least 1.
    pub monitors: u32,
}

/// Whether this is one of `count` numbers from `first` on. The sum may wrap
/// in 32 bits.
const fn among(first: u32, count: u32, number: u32) -> bool {
    number >= first && number - first < count
}

/// The end of `count` frames from `first` on, not wrapped.
const fn end(first: u32, count: u32) -> u64 {
    first as u64 + count as u64
}

impl Machine {
    /// Box A of the worked shift: 16 frames, the monitor's 0-1, secure 6-13.
    pub const BOX_A: Machine = Machine { frames: 16, secure: 6, pages: 8, monitor: 0, monitors: 2 };

    /// Whether these numbers keep the rules of a box.
    pub const fn fits(&self) -> bool {
        self.broken_rule().is_none()
    }

    /// The first rule of a box that these numbers break.
    pub const fn broken_rule(&self) -> Option<Rule> {
        let (secure, monitor) = (end(self.secure, self.pages), end(self.monitor, self.monitors));
        Some(if self.frames < 1 || self.frames > MOST_FRAMES {
            Rule::Frames
        } else if self.pages < 1 || self.pages > MOST_PAGES {
            Rule::Pages
        } else if self.monitors < 1 {
            Rule::Monitors
        } else if secure > self.frames as u64 {
            Rule::SecureBelow
        } else if monitor > self.frames as u64 {
            Rule::MonitorBelow
        } else if secure > self.monitor as u64 && monitor > self.secure as u64 {
            Rule::Apart
        } else {
            return None;
        })
    }

    /// Whether a frame is below F and neither secure nor the monitor's.
    pub const fn is_insecure(&self, frame: u32) -> bool {
        frame < self.frames
            && !among(self.secure, self.pages, frame)
            && !among(self.monitor, self.monitors, frame)
    }

    /// The secure page that this frame is.
    pub const fn page_in(&self, frame: u32) -> Option<u32> {
        if among(self.secure, self.pages, frame) {
            Some(frame - self.secure)
        } else {
            None
        }
    }

    /// The words of memory that this machine lends.
    pub const fn memory_words(&self) -> usize {
        (self.frames as usize).saturating_mul(FRAME_WORDS)
    }

    /// The words of ledger that this machine lends: the header, and a record a
    /// page.
    pub const fn ledger_words(&self) -> usize {
        (self.pages as usize).saturating_mul(RECORD_WORDS).saturating_add(HEADER_WORDS)
    }

    /// The blocks of an image of this machine: its ledger, then its secure frames; 0
    /// where the numbers do not fit. For a host that sets room aside;
    /// `words::image_blocks` of `monitor` is the library's own word.
    pub const fn image_blocks(&self) -> usize {
        if !self.fits() {
            return 0;
        }
        let secure = (self.pages as usize).saturating_mul(FRAME_WORDS);
        self.ledger_words().saturating_add(secure).div_ceil(PAYLOAD_WORDS)
    }
}
