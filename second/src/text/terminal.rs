//! What is said on standard error: lines, and on a terminal how much was read.

use std::io::{self, Write};
use std::os::raw::c_int;

pub const STANDARD_INPUT: c_int = 0;
pub const STANDARD_OUTPUT: c_int = 1;
pub const STANDARD_ERROR: c_int = 2;

/// A megabyte, as it is counted.
const MEGABYTE: u64 = 1_000_000;

extern "C" {
    fn isatty(descriptor: c_int) -> c_int;
}

/// Whether a descriptor is a terminal. Rust's own way needs version 1.70.
pub fn is_terminal(descriptor: c_int) -> bool {
    // It looks at a number, and at no memory of ours.
    unsafe { isatty(descriptor) == 1 }
}

/// Says one line. Whatever would break it or steer a terminal is shown as
/// `?`, and where nothing can be said, nothing is.
pub fn say(line: &str) {
    let line = line.replace(|c: char| c.is_control(), "?");
    let _ = writeln!(io::stderr(), "trace: {}", line);
}

/// How much was read, shown in one place on one line.
pub struct Progress {
    watched: bool,
    read: u64,
    /// The megabytes that are shown now; none are if it is 0.
    shown: u64,
}

impl Progress {
    /// Progress is for a person who waits, so the terminal must not be the
    /// one that the output goes to.
    pub fn new() -> Progress {
        Progress {
            watched: is_terminal(STANDARD_ERROR) && !is_terminal(STANDARD_OUTPUT),
            read: 0,
            shown: 0,
        }
    }

    pub fn add(&mut self, bytes: usize) {
        self.read += bytes as u64;
        let megabytes = self.read / MEGABYTE;
        if self.watched && megabytes > self.shown {
            let _ = write!(io::stderr(), "\rtrace: {} MB read", megabytes);
            self.shown = megabytes;
        }
    }

    /// Leaves the line empty again.
    pub fn clear(&mut self) {
        if self.shown > 0 {
            let _ = write!(io::stderr(), "\r{:24}\r", "");
            self.shown = 0;
        }
    }
}
