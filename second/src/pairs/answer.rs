//! What is answered of two traces, and the words for it.

use std::fmt;
use std::io::{self, Write};

use crate::engine::refusal::Refusal;
use crate::trace::record::decode;

/// One of the two traces.
#[derive(Clone, Copy, Debug, PartialEq, Eq)]
pub enum Side {
    First,
    Second,
}

impl Side {
    pub const BOTH: [Side; 2] = [Side::First, Side::Second];

    pub fn other(self) -> Side {
        match self {
            Side::First => Side::Second,
            Side::Second => Side::First,
        }
    }

    /// Its item of two.
    pub fn of<T>(self, both: &[T; 2]) -> &T {
        &both[self as usize]
    }
}

impl fmt::Display for Side {
    fn fmt(&self, f: &mut fmt::Formatter<'_>) -> fmt::Result {
        f.write_str(match self {
            Side::First => "first",
            Side::Second => "second",
        })
    }
}

/// How alike two traces are as wholes, whatever number was asked.
#[derive(Clone, Copy, Debug, PartialEq, Eq)]
pub enum Likeness {
    Equal,
    /// One is a proper prefix of the other.
    Prefix,
    Different,
}

impl fmt::Display for Likeness {
    fn fmt(&self, f: &mut fmt::Formatter<'_>) -> fmt::Result {
        f.write_str(match self {
            Likeness::Equal => "equal",
            Likeness::Prefix => "prefix",
            Likeness::Different => "different",
        })
    }
}

/// How far the records of one trace go.
#[derive(Clone, Copy, Debug, Default, PartialEq, Eq)]
pub struct Survey {
    /// Whole records before its end or its error.
    pub records: u64,
    /// Their bytes, and so the place where the record with the error begins.
    pub bytes: u64,
    pub error: Option<Refusal>,
    /// The place of the last whole record. Only mutants look at it, and at the
    /// bytes that a cut record has.
    pub last: u64,
    pub cut: u64,
}

/// An error in one of two traces, at the place where its record begins.
#[derive(Clone, Copy, Debug, PartialEq, Eq)]
pub struct TraceError {
    pub side: Side,
    pub number: u8,
    pub place: u64,
}

impl TraceError {
    /// The error of a trace that was surveyed, if it has one.
    pub fn of(side: Side, surveys: &[Survey; 2]) -> Option<TraceError> {
        let survey = side.of(surveys);
        survey.error.map(|refusal| TraceError {
            side,
            number: refusal.number(),
            place: survey.bytes,
        })
    }
}

impl fmt::Display for TraceError {
    fn fmt(&self, f: &mut fmt::Formatter<'_>) -> fmt::Result {
        write!(f, "error {} {} {}", self.side, self.number, self.place)
    }
}

/// Which trace ends first, if one does, and after how many records.
#[derive(Clone, Copy, Debug, PartialEq, Eq)]
pub struct Ends {
    pub first: Option<Side>,
    pub after: u64,
}

impl fmt::Display for Ends {
    fn fmt(&self, f: &mut fmt::Formatter<'_>) -> fmt::Result {
        match self.first {
            Some(side) => write!(f, "ends {} {}", side, self.after),
            None => write!(f, "ends neither {}", self.after),
        }
    }
}

/// What a comparison came to, and so the status that it ends with.
#[derive(Clone, Copy, Debug, PartialEq, Eq)]
pub enum Verdict {
    Equal,
    Unequal,
    Error,
}

impl From<Likeness> for Verdict {
    fn from(likeness: Likeness) -> Verdict {
        match likeness {
            Likeness::Equal => Verdict::Equal,
            Likeness::Prefix | Likeness::Different => Verdict::Unequal,
        }
    }
}

/// Writes a record as a list of its trace does. A mutant may take bytes for a
/// record that are none; these are written raw.
pub fn write_record(record: &[u8], out: &mut impl Write) -> io::Result<()> {
    match decode(record, 0) {
        Ok(Some((record, _))) => write!(out, "{}", record),
        _ => {
            write!(out, "raw ")?;
            record
                .iter()
                .try_for_each(|byte| write!(out, "{:02x}", byte))
        }
    }
}
