//! The comparison of two traces of any length, in two passes over each: one
//! finds the errors, the other writes the lines. Nothing of a trace is held
//! beyond a window.

use std::io::{self, Read, Take, Write};

use crate::pairs::answer::{write_record, Ends, Likeness, Side, Survey, TraceError, Verdict};
use crate::pairs::changes::{length_of, strict, Change, Lie};
use crate::pairs::lies;
use crate::trace::record::START;
use crate::trace::stream::Stream;

/// Compares the two traces that `open` gives anew for each pass.
pub fn pair<R: Read>(
    open: impl Fn(Side) -> io::Result<R>,
    out: &mut impl Write,
    lie: Lie,
) -> io::Result<Verdict> {
    let first = survey(open(Side::First)?, lie)?;
    let second = survey(open(Side::Second)?, lie)?;
    let surveys = [first, second];
    let error = TraceError::of(Side::First, &surveys).or(TraceError::of(Side::Second, &surveys));
    if let Some(error) = lies::error(error, &surveys, None, lie) {
        writeln!(out, "{}", error)?;
        out.flush()?;
        return Ok(Verdict::Error);
    }
    let mut lines = Lines {
        traces: [
            Trace::new(Side::First, open(Side::First)?, &surveys, lie),
            Trace::new(Side::Second, open(Side::Second)?, &surveys, lie),
        ],
        surveys,
        lie,
    };
    let likeness = lines.write(out)?;
    out.flush()?;
    Ok(likeness.into())
}

/// The first pass over a trace.
fn survey(trace: impl Read, lie: Lie) -> io::Result<Survey> {
    let mut stream = Stream::new(trace);
    let mut survey = Survey::default();
    let mut started = false;
    loop {
        survey.bytes = stream.place();
        match stream.next_bytes(|kind| length_of(kind, lie))? {
            None => return Ok(survey),
            Some(Err(refusal)) => {
                survey.error = Some(refusal);
                survey.cut = stream.held();
                return Ok(survey);
            }
            Some(Ok(record)) => {
                survey.error = strict(record, started, lie);
                if survey.error.is_some() {
                    return Ok(survey);
                }
                started = started || record[0] == START;
                survey.last = survey.bytes;
                survey.records += 1;
            }
        }
    }
}

/// A trace in its second pass, which goes no further than the first did.
struct Trace<R> {
    side: Side,
    stream: Stream<Take<R>>,
    bytes: u64,
    lie: Lie,
}

impl<R: Read> Trace<R> {
    fn new(side: Side, trace: R, surveys: &[Survey; 2], lie: Lie) -> Trace<R> {
        let bytes = side.of(surveys).bytes;
        Trace {
            side,
            stream: Stream::new(trace.take(bytes)),
            bytes,
            lie,
        }
    }

    fn place(&self) -> u64 {
        self.stream.place()
    }

    /// The next record. One that the first pass found whole is there again, or
    /// someone wrote to the trace meanwhile.
    fn next(&mut self) -> io::Result<Option<&[u8]>> {
        let is_at_end = self.stream.place() == self.bytes;
        let lie = self.lie;
        match self.stream.next_bytes(|kind| length_of(kind, lie))? {
            Some(Ok(record)) => Ok(Some(record)),
            None if is_at_end => Ok(None),
            None | Some(Err(_)) => {
                let said = "trace changed while it was read: compare a copy of it";
                let said = format!("the {} {}", self.side, said);
                Err(io::Error::new(io::ErrorKind::Other, said))
            }
        }
    }
}

/// The second pass.
struct Lines<R> {
    traces: [Trace<R>; 2],
    surveys: [Survey; 2],
    lie: Lie,
}

/// What the second pass found: where a trace has ended, or both.
struct Found {
    ends: Ends,
    differences: u64,
    /// The place of each trace's next record, or its end.
    places: [u64; 2],
}

impl<R: Read> Lines<R> {
    /// Writes all lines of traces without errors.
    fn write(&mut self, out: &mut impl Write) -> io::Result<Likeness> {
        let found = self.write_differences(out)?;
        let truth = match (found.differences, found.ends.first) {
            (0, None) => Likeness::Equal,
            (0, Some(_)) => Likeness::Prefix,
            _ => Likeness::Different,
        };
        let likeness = lies::likeness(truth, found.ends, &self.surveys, self.lie);
        let ends = lies::ends(found.ends, &self.surveys, self.lie);
        writeln!(out, "{}", ends)?;
        let (side, bytes) = self.rest(likeness, &found);
        writeln!(out, "rest {} {}", side, bytes)?;
        writeln!(out, "{}", likeness)?;
        Ok(likeness)
    }

    /// Goes through the records that both traces have.
    fn write_differences(&mut self, out: &mut impl Write) -> io::Result<Found> {
        let lie = self.lie;
        let [first, second] = &mut self.traces;
        let mut number = 0;
        let mut differences = 0;
        loop {
            let places = [first.place(), second.place()];
            let ended = match (first.next()?, second.next()?) {
                (Some(one), Some(other)) => {
                    if lies::differ(one, other, lie) {
                        if differences == 0 || lie != Some(Change::FirstOnly) {
                            write_difference(out, number, places, [one, other], lie)?;
                        }
                        differences += 1;
                    }
                    number += 1;
                    continue;
                }
                (None, None) => None,
                (one, other) => {
                    if lie == Some(Change::BehindEndDiffers) {
                        let records = [one.unwrap_or(&[]), other.unwrap_or(&[])];
                        write_difference(out, number, places, records, lie)?;
                    }
                    Some(if one.is_none() {
                        Side::First
                    } else {
                        Side::Second
                    })
                }
            };
            return Ok(Found {
                ends: Ends {
                    first: ended,
                    after: number,
                },
                differences,
                places,
            });
        }
    }

    /// The side and the bytes of the rest.
    fn rest(&self, likeness: Likeness, found: &Found) -> (Side, u64) {
        let [one, other] = &self.surveys;
        match (found.ends.first, likeness) {
            (Some(ended), _) if lies::has_rest(likeness, self.lie) => {
                let side = ended.other();
                let bytes = side.of(&self.surveys).bytes - side.of(&found.places);
                let more = one.records.max(other.records) - one.records.min(other.records);
                match self.lie {
                    Some(Change::RestNamedFirst) => (Side::First, bytes),
                    Some(Change::RestInRecords) => (side, more),
                    _ => (side, bytes),
                }
            }
            (Some(ended), Likeness::Prefix) => (ended, 0),
            (_, Likeness::Equal) if self.lie == Some(Change::RestOfEqual) => {
                (Side::First, one.bytes)
            }
            _ if self.lie == Some(Change::EmptyRestSecond) => (Side::Second, 0),
            _ => (Side::First, 0),
        }
    }
}

/// One line for a record in which the traces differ. A record that is not
/// there, of which only a mutant speaks, has no text.
fn write_difference(
    out: &mut impl Write,
    number: u64,
    places: [u64; 2],
    records: [&[u8]; 2],
    lie: Lie,
) -> io::Result<()> {
    let [first_place, second_place] = lies::places(places, lie);
    let [one, other] = lies::sides(records, lie);
    let number = lies::number(number, lie);
    write!(out, "differs {} {} {} ", number, first_place, second_place)?;
    write_record(one, out)?;
    write!(out, " | ")?;
    write_record(other, out)?;
    writeln!(out)
}
