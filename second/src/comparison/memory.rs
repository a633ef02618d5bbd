//! How much memory a program is held to: what it needs for nothing, and a fixed
//! amount more.

use std::io;
use std::time::Duration;

/// With too little memory a program may hang, as an emulator does, where it
/// should say so. An empty trace takes no time, so it need not be waited for.
pub const BRIEF: Duration = Duration::from_secs(2);

/// How many bytes the longest traces have.
pub const LONGEST: u64 = 10_000_000;

/// A trace may take so many KiB more than an empty one. The longest is longer
/// than that, so that a program which holds all of it is found out.
pub const MORE_MEMORY: u64 = 8 * 1024;

/// What a program needs may vary from run to run, under an emulator by some
/// MiB: memory is enough if it is so as often as this.
const TRIES: usize = 8;

/// The least memory in KiB, to a quarter MiB, that is enough, if any is.
pub fn least_memory(is_enough: impl Fn(u64) -> io::Result<bool>) -> io::Result<Option<u64>> {
    let takes = |memory: u64| -> io::Result<bool> {
        for _ in 0..TRIES {
            if !is_enough(memory)? {
                return Ok(false);
            }
        }
        Ok(true)
    };
    let mut enough = 1_024;
    while !takes(enough)? {
        enough *= 2;
        if enough > 1 << 32 {
            return Ok(None);
        }
    }
    let mut short = 0;
    while enough - short > 256 {
        let middle = (enough + short) / 2;
        if takes(middle)? {
            enough = middle;
        } else {
            short = middle;
        }
    }
    Ok(Some(enough))
}
