//! The machine numbers: which frames there are and whose they are.

use crate::demand::demand;
use crate::layout::{FRAME_WORDS, HEADER_WORDS, MOST_FRAMES, MOST_PAGES, RECORD_WORDS};

/// The numbers F, s, n, m and k of the rules.
#[derive(Clone, Copy, Debug, PartialEq, Eq)]
pub struct Machine {
    /// F: all frames.
    pub frames: u32,
    /// s: the first secure frame.
    pub secure: u32,
    /// n: the number of secure pages.
    pub pages: u32,
    /// m: the first monitor frame.
    pub monitor: u32,
    /// k: the number of monitor frames.
    pub monitors: u32,
}

/// Frames `first` to `first + count - 1`, in 64 bits because a caller may
/// hand us numbers whose sum would wrap in 32.
fn range(first: u32, count: u32) -> std::ops::Range<u64> {
    u64::from(first)..u64::from(first) + u64::from(count)
}

impl Machine {
    /// Whether the numbers keep the rules of the box.
    pub fn fits(&self) -> bool {
        self.fitting().is_ok()
    }

    /// The first rule of the box that the numbers break, in words.
    pub fn fitting(&self) -> Result<(), String> {
        let Machine { frames, pages, monitors, .. } = *self;
        let from_1 = |number: &str, found: u32, most: u32| {
            demand((1..=most).contains(&found), || {
                format!("expected {number} from 1 to {most}, found {found}")
            })
        };
        from_1("F", frames, MOST_FRAMES)?;
        from_1("n", pages, MOST_PAGES)?;
        demand(monitors >= 1, || format!("expected k of at least 1, found {monitors}"))?;
        let secure = range(self.secure, pages);
        let monitor = range(self.monitor, monitors);
        let within = |sum: &str, end: u64| {
            demand(end <= u64::from(frames), || {
                format!("expected {sum} of at most F, {frames}, found {end}")
            })
        };
        within("s+n", secure.end)?;
        within("m+k", monitor.end)?;
        let shared = secure.start.max(monitor.start);
        demand(secure.end <= monitor.start || monitor.end <= secure.start, || {
            format!("expected secure and monitor frames apart, found frame {shared} in both")
        })
    }

    /// Neither secure nor the monitor's own, and below F.
    pub fn is_insecure(&self, frame: u32) -> bool {
        let frame64 = u64::from(frame);
        frame < self.frames
            && !range(self.secure, self.pages).contains(&frame64)
            && !range(self.monitor, self.monitors).contains(&frame64)
    }

    /// The secure page in this frame, if it is a secure frame.
    pub fn page_in(&self, frame: u32) -> Option<usize> {
        let page = frame.checked_sub(self.secure)?;
        (page < self.pages).then_some(page as usize)
    }

    /// The frame of secure page `page`.
    pub fn frame_of(&self, page: usize) -> usize {
        self.secure as usize + page
    }

    /// n, as a length.
    pub fn page_count(&self) -> usize {
        self.pages as usize
    }

    /// How many words of memory this machine lends.
    pub fn memory_words(&self) -> usize {
        self.frames as usize * FRAME_WORDS
    }

    /// How many words of ledger this machine lends.
    pub fn ledger_words(&self) -> usize {
        HEADER_WORDS + RECORD_WORDS * self.page_count()
    }

    /// Where the words of secure page `page` stand in the memory.
    pub fn words_of(&self, page: usize) -> std::ops::Range<usize> {
        let start = self.frame_of(page) * FRAME_WORDS;
        start..start + FRAME_WORDS
    }
}
