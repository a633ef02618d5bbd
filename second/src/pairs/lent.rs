//! The comparison of two traces that are held in memory, asked with a record
//! number. It knows the traces as bytes and as lists of records, and looks its
//! answer up in them: what is equal and what a prefix it asks of the bytes.

use std::io::{self, Write};

use crate::engine::refusal::Refusal;
use crate::pairs::answer::{write_record, Ends, Likeness, Side, Survey, TraceError, Verdict};
use crate::pairs::changes::{length_of, strict, Change, Lie};
use crate::pairs::lies;
use crate::trace::record::START;

/// A trace as its whole records, and what ends them.
struct Held<'a> {
    records: Vec<&'a [u8]>,
    /// The bytes of these records.
    whole: &'a [u8],
    survey: Survey,
}

impl<'a> Held<'a> {
    fn new(trace: &'a [u8], lie: Lie) -> Held<'a> {
        let mut records: Vec<&[u8]> = Vec::new();
        let mut left = trace;
        let mut error = None;
        let mut started = false;
        while error.is_none() && !left.is_empty() {
            match first_record(left, started, lie) {
                Err(refusal) => error = Some(refusal),
                Ok(record) => {
                    started = started || record[0] == START;
                    left = &left[record.len()..];
                    records.push(record);
                }
            }
        }
        let whole = &trace[..trace.len() - left.len()];
        let last = records.last().map_or(0, |record| record.len());
        Held {
            survey: Survey {
                records: records.len() as u64,
                bytes: whole.len() as u64,
                error,
                last: (whole.len() - last) as u64,
                cut: left.len() as u64,
            },
            records,
            whole,
        }
    }
}

/// The record at the front of bytes that are not empty.
fn first_record(bytes: &[u8], started: bool, lie: Lie) -> Result<&[u8], Refusal> {
    let length = length_of(bytes[0], lie)?;
    let record = bytes.get(..length).ok_or(Refusal::CutRecord)?;
    match strict(record, started, lie) {
        None => Ok(record),
        Some(refusal) => Err(refusal),
    }
}

/// Answers for two lent traces, from a record number on.
pub fn lent(traces: [&[u8]; 2], from: u64, out: &mut impl Write, lie: Lie) -> io::Result<Verdict> {
    let question = Question {
        first: Held::new(traces[0], lie),
        second: Held::new(traces[1], lie),
        from,
        lie,
    };
    let verdict = question.answer(out)?;
    out.flush()?;
    Ok(verdict)
}

/// Two lent traces and the record number asked.
struct Question<'a> {
    first: Held<'a>,
    second: Held<'a>,
    from: u64,
    lie: Lie,
}

impl Question<'_> {
    fn answer(&self, out: &mut impl Write) -> io::Result<Verdict> {
        let surveys = [self.first.survey, self.second.survey];
        if let Some(error) = lies::error(self.error(), &surveys, self.difference(0), self.lie) {
            writeln!(out, "{}", error)?;
            writeln!(out, "rest 0")?;
            return Ok(Verdict::Error);
        }
        self.write_difference(out)?;
        let ends = self.ends();
        let told = lies::ends(ends, &surveys, self.lie);
        writeln!(out, "{}", self.counted_from_asked(told))?;
        let likeness = lies::likeness(self.likeness(), ends, &surveys, self.lie);
        writeln!(out, "{}", likeness)?;
        self.write_rest(self.rest(likeness), out)?;
        Ok(likeness.into())
    }

    fn error(&self) -> Option<TraceError> {
        let surveys = [self.first.survey, self.second.survey];
        match (self.first.survey.error, self.second.survey.error) {
            (Some(_), _) => TraceError::of(Side::First, &surveys),
            (None, Some(_)) => TraceError::of(Side::Second, &surveys),
            (None, None) => None,
        }
    }

    /// How many records both have.
    fn common(&self) -> usize {
        self.first.records.len().min(self.second.records.len())
    }

    /// The first record from a number on that both have and that differs.
    fn difference(&self, from: u64) -> Option<u64> {
        let differs = |number: &usize| {
            let (one, other) = (self.first.records[*number], self.second.records[*number]);
            lies::differ(one, other, self.lie)
        };
        let from = from.min(self.common() as u64) as usize;
        let mut numbers = from..self.common();
        let found = match self.lie {
            Some(Change::LastFound) => numbers.rev().find(differs),
            _ => numbers.find(differs),
        };
        found.map(|number| number as u64)
    }

    fn write_difference(&self, out: &mut impl Write) -> io::Result<()> {
        let kind = |held: &Held, number: u64| {
            let record = held.records.get(number as usize);
            record.map_or(0, |record| record[0])
        };
        let mut found = self.difference(lies::asked(self.from, self.lie));
        if self.lie == Some(Change::BehindEndDiffers) && self.ends().first.is_some() {
            found = found.or(Some(self.ends().after));
        }
        match found {
            None => writeln!(out, "difference none"),
            Some(number) => {
                let kinds = [kind(&self.first, number), kind(&self.second, number)];
                let [one, other] = lies::sides(kinds, self.lie);
                let number = lies::number(number, self.lie);
                writeln!(out, "difference {} {} {}", number, one, other)
            }
        }
    }

    fn ends(&self) -> Ends {
        let (one, other) = (self.first.records.len(), self.second.records.len());
        let (first, after) = match one.cmp(&other) {
            std::cmp::Ordering::Less => (Some(Side::First), one),
            std::cmp::Ordering::Equal => (None, one),
            std::cmp::Ordering::Greater => (Some(Side::Second), other),
        };
        Ends {
            first,
            after: after as u64,
        }
    }

    /// The count that a mutant begins at the number asked.
    fn counted_from_asked(&self, ends: Ends) -> Ends {
        let gone = if self.lie == Some(Change::CountFromAsked) {
            self.from
        } else {
            0
        };
        Ends {
            first: ends.first,
            after: ends.after.saturating_sub(gone),
        }
    }

    /// Of the bytes, and of no record.
    fn likeness(&self) -> Likeness {
        let (one, other) = (self.first.whole, self.second.whole);
        let quiet = self.difference(self.from).is_none();
        match self.lie {
            Some(Change::EqualFromAsked) if quiet && self.ends().first.is_none() => Likeness::Equal,
            Some(Change::PrefixFromAsked) if quiet && self.ends().first.is_some() => {
                Likeness::Prefix
            }
            _ if one == other => Likeness::Equal,
            _ if one.starts_with(other) || other.starts_with(one) => Likeness::Prefix,
            _ => Likeness::Different,
        }
    }

    /// The remaining records of the longer trace, as bytes.
    fn rest(&self, likeness: Likeness) -> &[u8] {
        let (longer, shorter) = match self.ends().first {
            Some(Side::First) => (&self.second, &self.first),
            _ => (&self.first, &self.second),
        };
        if likeness == Likeness::Equal && self.lie == Some(Change::RestOfEqual) {
            return self.first.whole;
        }
        if !lies::has_rest(likeness, self.lie) {
            return &[];
        }
        let record = |number: usize| longer.records.get(number).map_or(0, |record| record.len());
        let common = self.common();
        let begins = |number: usize| (0..number).map(record).sum::<usize>();
        let from = match self.lie {
            Some(Change::RestOneShort) => begins(common + 1),
            Some(Change::RestOneMore) => begins(common.saturating_sub(1)),
            Some(Change::RestFromAsked) => {
                let most = longer.records.len() as u64;
                begins(common.max(self.from.min(most) as usize))
            }
            Some(_) => begins(common),
            None => shorter.whole.len(),
        };
        &longer.whole[from..]
    }

    fn write_rest(&self, rest: &[u8], out: &mut impl Write) -> io::Result<()> {
        let records = Held::new(rest, self.lie.filter(|lie| *lie != Change::PhaseCounts)).records;
        let length = match self.lie {
            Some(Change::RestInRecords) => records.len(),
            _ => rest.len(),
        };
        writeln!(out, "rest {}", length)?;
        for record in records {
            write_record(record, out)?;
            writeln!(out)?;
        }
        Ok(())
    }
}
