//! An input and an output whose errors begin with their names.

use std::ffi::OsStr;
use std::fs::File;
use std::io::{self, Read, Write};
use std::os::unix::io::AsFd;

use crate::text::terminal::Progress;

/// A file or standard input, with how much of it was read.
pub struct Input {
    pub name: String,
    from: File,
    pub progress: Progress,
}

impl Input {
    pub fn open(file: &OsStr) -> io::Result<Input> {
        let name = file.to_string_lossy().into_owned();
        let from = File::open(file).map_err(|fault| named(&name, fault))?;
        Ok(Input::new(name, from))
    }

    /// Standard input without Rust's own handle, which takes one that cannot
    /// be read for one that has ended.
    pub fn standard() -> io::Result<Input> {
        let name = "standard input".to_string();
        let from = io::stdin().as_fd().try_clone_to_owned();
        let from = from.map_err(|fault| named(&name, fault))?;
        Ok(Input::new(name, File::from(from)))
    }

    fn new(name: String, from: File) -> Input {
        Input {
            name,
            from,
            progress: Progress::new(),
        }
    }
}

impl Read for Input {
    fn read(&mut self, buffer: &mut [u8]) -> io::Result<usize> {
        let read = self.from.read(buffer);
        let count = read.map_err(|fault| named(&self.name, fault))?;
        self.progress.add(count);
        Ok(count)
    }
}

/// Standard output without Rust's own handle, which takes one that cannot be
/// written for one that takes everything.
pub struct Output {
    to: File,
}

impl Output {
    pub fn standard() -> io::Result<Output> {
        let to = io::stdout().as_fd().try_clone_to_owned();
        let to = to.map_err(|fault| named(OUTPUT, fault))?;
        Ok(Output { to: File::from(to) })
    }
}

const OUTPUT: &str = "standard output";

impl Write for Output {
    fn write(&mut self, bytes: &[u8]) -> io::Result<usize> {
        self.to.write(bytes).map_err(|fault| named(OUTPUT, fault))
    }

    fn flush(&mut self) -> io::Result<()> {
        self.to.flush().map_err(|fault| named(OUTPUT, fault))
    }
}

/// The same fault, its name before it and the system's number not behind it.
pub fn named(name: &str, fault: io::Error) -> io::Error {
    let said = fault.to_string();
    let said = said.split(" (os error").next().unwrap_or("");
    io::Error::new(fault.kind(), format!("{}: {}", name, said))
}
