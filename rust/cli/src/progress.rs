//! A line on the terminal that tells how far a long run is.

use std::io::{self, IsTerminal, Write};
use std::time::{Duration, Instant};

/// Looks at the clock once in so many texts.
const STRIDE: usize = 256;
const PAUSE: Duration = Duration::from_millis(500);
const CLEAR: &str = "\r\x1b[K";

/// Counts texts; shown on standard error where that is a terminal and the results go elsewhere.
pub struct Progress {
    is_shown: bool,
    is_standing: bool,
    count: usize,
    last: Instant,
}

impl Progress {
    pub fn new() -> Self {
        Progress {
            is_shown: io::stderr().is_terminal() && !io::stdout().is_terminal(),
            is_standing: false,
            count: 0,
            last: Instant::now(),
        }
    }

    /// Counts a text.
    pub fn step(&mut self) {
        self.count += 1;
        if self.is_shown && self.count.is_multiple_of(STRIDE) && self.last.elapsed() >= PAUSE {
            self.last = Instant::now();
            self.is_standing = true;
            let _ = write!(io::stderr(), "{CLEAR}{} texts", self.count);
        }
    }

    /// Takes the line away, before a message or at the end.
    pub fn clear(&mut self) {
        if self.is_standing {
            self.is_standing = false;
            let _ = write!(io::stderr(), "{CLEAR}");
        }
    }
}
