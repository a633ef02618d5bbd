//! Traces read record by record, from memory or from an input of any length.

use std::io::{self, Read};

use crate::engine::refusal::Refusal;
use crate::trace::record::{decode, Record, LONGEST};

/// A trace in memory and the place in it, kept together.
pub struct Reader<'a> {
    pub trace: &'a [u8],
    pub place: usize,
}

impl<'a> Reader<'a> {
    pub fn new(trace: &'a [u8]) -> Reader<'a> {
        Reader { trace, place: 0 }
    }

    /// The next record, none at the end. A refusal leaves the place.
    pub fn next(&mut self) -> Result<Option<Record>, Refusal> {
        match decode(self.trace, self.place)? {
            None => Ok(None),
            Some((record, behind)) => {
                self.place = behind;
                Ok(Some(record))
            }
        }
    }
}

/// A trace read piece by piece, so that its length does not matter.
pub struct Stream<R> {
    input: R,
    window: Vec<u8>,
    /// The bytes not yet read are `window[first..last]`.
    first: usize,
    last: usize,
    ended: bool,
    place: u64,
}

const WINDOW: usize = 1 << 16;

impl<R: Read> Stream<R> {
    pub fn new(input: R) -> Stream<R> {
        Stream {
            input,
            window: vec![0; WINDOW],
            first: 0,
            last: 0,
            ended: false,
            place: 0,
        }
    }

    /// How many bytes of the trace lie before the next record.
    pub fn place(&self) -> u64 {
        self.place
    }

    /// The next record or its refusal 16 or 17; none at the end.
    pub fn next(&mut self) -> io::Result<Option<Result<Record, Refusal>>> {
        if self.last - self.first < LONGEST {
            self.fill()?;
        }
        match decode(&self.window[..self.last], self.first) {
            Ok(None) => Ok(None),
            Ok(Some((record, behind))) => {
                self.place += (behind - self.first) as u64;
                self.first = behind;
                Ok(Some(Ok(record)))
            }
            Err(refusal) => Ok(Some(Err(refusal))),
        }
    }

    /// The bytes of the next record, whose length is the one that its kind is
    /// said to have, or its refusal 16 or 17; none at the end.
    pub fn next_bytes(
        &mut self,
        length: impl Fn(u8) -> Result<usize, Refusal>,
    ) -> io::Result<Option<Result<&[u8], Refusal>>> {
        if self.last - self.first < LONGEST {
            self.fill()?;
        }
        let first = self.first;
        let length = match self.next_kind().map(length) {
            None => return Ok(None),
            Some(Err(refusal)) => return Ok(Some(Err(refusal))),
            Some(Ok(length)) => length,
        };
        if self.last - first < length {
            return Ok(Some(Err(Refusal::CutRecord)));
        }
        self.place += length as u64;
        self.first += length;
        Ok(Some(Ok(&self.window[first..self.first])))
    }

    /// How many bytes were read and not yet handed out.
    pub fn held(&self) -> u64 {
        (self.last - self.first) as u64
    }

    /// The kind byte at the place. After a refusal that is the byte refused.
    pub fn next_kind(&self) -> Option<u8> {
        self.window[self.first..self.last].first().copied()
    }

    /// Moves what is left to the front and reads until a longest record is
    /// there or the trace has ended.
    fn fill(&mut self) -> io::Result<()> {
        self.window.copy_within(self.first..self.last, 0);
        self.last -= self.first;
        self.first = 0;
        while !self.ended && self.last < LONGEST {
            match self.input.read(&mut self.window[self.last..]) {
                Ok(0) => self.ended = true,
                Ok(count) => self.last += count,
                Err(fault) if fault.kind() == io::ErrorKind::Interrupted => {}
                Err(fault) => return Err(fault),
            }
        }
        Ok(())
    }

    /// Hands all bytes not yet read to `take`, piece by piece.
    pub fn drain(&mut self, mut take: impl FnMut(&[u8]) -> io::Result<()>) -> io::Result<()> {
        while self.first < self.last {
            take(&self.window[self.first..self.last])?;
            self.place += (self.last - self.first) as u64;
            self.first = self.last;
            self.fill()?;
        }
        Ok(())
    }
}
