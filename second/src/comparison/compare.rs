//! Compares two outputs of one trace and finds the record behind the first
//! line that differs.

use std::io::{self, BufRead, Read, Write};

use crate::engine::rules::Rules;
use crate::trace::record::Record;
use crate::trace::replay::Replay;
use crate::trace::stream::Stream;

/// The first line that differs; an output that has ended has no such line.
pub struct Difference {
    pub line: u64,
    pub ours: Option<Vec<u8>>,
    pub theirs: Option<Vec<u8>>,
}

/// The next line with its newline, none at the end.
fn next_line(input: &mut impl BufRead) -> io::Result<Option<Vec<u8>>> {
    let mut line = Vec::new();
    input.read_until(b'\n', &mut line)?;
    Ok(if line.is_empty() { None } else { Some(line) })
}

pub fn first_difference(
    ours: &mut impl BufRead,
    theirs: &mut impl BufRead,
) -> io::Result<Option<Difference>> {
    let mut line = 0;
    loop {
        line += 1;
        let our_line = next_line(ours)?;
        let their_line = next_line(theirs)?;
        if our_line != their_line {
            return Ok(Some(Difference {
                line,
                ours: our_line,
                theirs: their_line,
            }));
        }
        if our_line.is_none() {
            return Ok(None);
        }
    }
}

/// A record of a trace, or the damaged tail if there is none to read.
pub struct Found {
    pub record: Option<Record>,
    pub index: u64,
    pub place: u64,
    /// Whether it prints the line looked for; if not, it is the last record
    /// that prints a line before it.
    pub prints_it: bool,
}

/// Finds the record that prints the given line in this program's replay.
pub fn record_behind(trace: impl Read, line: u64) -> io::Result<Option<Found>> {
    let mut stream = Stream::new(trace);
    let mut replay = Replay::new(Rules::TRUE);
    let mut printed = 0;
    let mut last = None;
    let mut index = 0;
    while !replay.stopped() {
        let place = stream.place();
        let next = match stream.next()? {
            None => break,
            Some(next) => next,
        };
        index += 1;
        let outcome = replay.take(next);
        let lines = replay.line_count(outcome);
        printed += lines;
        if lines > 0 {
            let prints_it = printed >= line;
            last = Some(Found {
                record: next.ok(),
                index,
                place,
                prints_it,
            });
            if prints_it {
                break;
            }
        }
    }
    Ok(last)
}

/// A line as it is told.
pub fn show(line: &Option<Vec<u8>>) -> String {
    match line {
        None => "(no such line)".to_string(),
        Some(bytes) => match bytes.strip_suffix(b"\n") {
            Some(text) => String::from_utf8_lossy(text).into_owned(),
            None => format!("{} (without a newline)", String::from_utf8_lossy(bytes)),
        },
    }
}

/// Prints a difference between two outputs, which have names, and the record
/// behind it.
pub fn report(
    difference: &Difference,
    found: &Option<Found>,
    names: (&str, &str),
    out: &mut impl Write,
) -> io::Result<()> {
    writeln!(out, "line {}", difference.line)?;
    writeln!(out, "{}: {}", names.0, show(&difference.ours))?;
    writeln!(out, "{}: {}", names.1, show(&difference.theirs))?;
    match found {
        None => writeln!(out, "no record of the trace prints a line")?,
        Some(found) => {
            if !found.prints_it {
                writeln!(out, "no record prints this line; the last line comes from")?;
            }
            write!(out, "record {} at byte {}: ", found.index, found.place)?;
            match found.record {
                Some(record) => writeln!(out, "{}", record)?,
                None => writeln!(out, "no whole record")?,
            }
        }
    }
    out.flush()
}
