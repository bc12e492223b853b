use crate::layout::{MOST_FRAMES, MOST_PAGES};
use core::fmt;

/// A rule that a box's numbers F, s, n, m and k keep.
#[derive(Clone, Copy, Debug, PartialEq, Eq, Hash)]
pub enum Rule {
    /// F is 1 to [`MOST_FRAMES`].
    Frames,
    /// n is 1 to [`MOST_PAGES`].
    Pages,
    /// k is at least 1.
    Monitors,
    /// s+n is at most F.
    SecureBelow,
    /// m+k is at most F.
    MonitorBelow,
    /// No frame is both secure and the monitor's.
    Apart,
}

/// What is expected of the numbers.
impl fmt::Display for Rule {
    fn fmt(&self, out: &mut fmt::Formatter) -> fmt::Result {
        match self {
            Rule::Frames => write!(out, "F from 1 to {MOST_FRAMES}"),
            Rule::Pages => write!(out, "n from 1 to {MOST_PAGES}"),
            Rule::Monitors => out.write_str("k of at least 1"),
            Rule::SecureBelow => out.write_str("secure frames s to s+n-1 below F"),
            Rule::MonitorBelow => out.write_str("monitor frames m to m+k-1 below F"),
            Rule::Apart => out.write_str("secure and monitor frames that share none"),
        }
    }
}
