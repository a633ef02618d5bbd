//! The trace that a text stands for.

use std::fmt;
use std::io::{self, BufRead, Read, Write};

use crate::text::line::add_line;

/// The most bytes of a line. No record takes 150; the rest is room for
/// comments and for raw bytes.
const LONGEST_LINE: usize = 1 << 16;

/// So many bytes of a trace are written at once, and held before.
const PIECE: usize = 1 << 16;

/// Why a text is no trace.
pub enum Fault {
    Io(io::Error),
    Line { line: u64, reason: String },
}

impl From<io::Error> for Fault {
    fn from(fault: io::Error) -> Fault {
        Fault::Io(fault)
    }
}

impl fmt::Display for Fault {
    fn fmt(&self, f: &mut fmt::Formatter<'_>) -> fmt::Result {
        match self {
            Fault::Io(fault) => fault.fmt(f),
            Fault::Line { line, reason } => write!(f, "line {}: {}", line, reason),
        }
    }
}

/// Writes the trace that a text stands for: records, `raw` bytes, comments
/// from `#` on and blank lines. Nothing of the piece with a bad line is
/// written, so that a short text with one stands for no trace.
pub fn assemble(mut input: impl BufRead, out: &mut impl Write) -> Result<(), Fault> {
    let mut piece = Vec::with_capacity(2 * PIECE);
    let mut held = Vec::new();
    for line in 1.. {
        if read_line(&mut input, &mut held)? == 0 {
            break;
        }
        add(&held, &mut piece).map_err(|reason| Fault::Line { line, reason })?;
        if piece.len() >= PIECE {
            out.write_all(&piece)?;
            piece.clear();
        }
    }
    out.write_all(&piece)?;
    out.flush()?;
    Ok(())
}

/// The trace of a text that is held as a whole.
pub fn assemble_whole(text: &[u8]) -> Result<Vec<u8>, Fault> {
    let mut trace = Vec::new();
    assemble(text, &mut trace)?;
    Ok(trace)
}

/// Reads the next line with its newline, but no more of it than tells that it
/// is too long. The answer is how many bytes were read.
fn read_line(input: &mut impl BufRead, held: &mut Vec<u8>) -> io::Result<usize> {
    held.clear();
    let most = LONGEST_LINE as u64 + 1;
    input.take(most).read_until(b'\n', held)
}

/// Adds the bytes of a line that was read.
fn add(line: &[u8], trace: &mut Vec<u8>) -> Result<(), String> {
    if line.len() > LONGEST_LINE && !line.ends_with(b"\n") {
        return Err(format!(
            "too long: a line has at most {} bytes",
            LONGEST_LINE
        ));
    }
    match std::str::from_utf8(line) {
        Ok(text) => add_line(text, trace),
        Err(_) => Err("this is no text".to_string()),
    }
}
