//! The census of pairs: what a set of pairs and of numbers asked reaches. It
//! reads the traces by itself, and asks no comparison.

use crate::engine::clock::MAX_VRATE;
use crate::engine::refusal::Refusal;
use crate::trace::record::{Record, BIO, START};
use crate::trace::stream::Reader;

named_list! {
    /// What is special of a pair, or of a number that it is asked with.
    Event {
        Equal = "pair-equal",
        EmptyBoth = "pair-empty-both",
        EmptyFirst = "pair-empty-first",
        EmptySecond = "pair-empty-second",
        EmptyAgainstError = "pair-empty-against-an-error",
        PrefixFirst = "pair-prefix-first",
        PrefixSecond = "pair-prefix-second",
        RestOfOne = "pair-rest-of-one-record",
        RestOfMore = "pair-rest-of-more-records",
        EndsFirst = "pair-ends-first",
        EndsSecond = "pair-ends-second",
        EndsNeither = "pair-ends-neither",
        FewerBytesMoreRecords = "pair-fewer-bytes-more-records",
        SameBytesOtherCount = "pair-same-bytes-other-count",
        ErrorFirst16 = "pair-error-first-16",
        ErrorFirst17 = "pair-error-first-17",
        ErrorSecond16 = "pair-error-second-16",
        ErrorSecond17 = "pair-error-second-17",
        ErrorsBoth = "pair-errors-both",
        ErrorsAtOnePlace = "pair-errors-at-one-place",
        ErrorFirstEarlier = "pair-error-first-earlier",
        ErrorSecondEarlier = "pair-error-second-earlier",
        ErrorsBoth16And17 = "pair-errors-both-16-and-17",
        ErrorAtRecord0 = "pair-error-at-record-0",
        ErrorInLastByte = "pair-error-in-the-last-byte",
        ErrorBehindDifference = "pair-error-behind-difference",
        ErrorBehindEnd = "pair-error-behind-end",
        ErrorRightBehindEnd = "pair-error-right-behind-end",
        ErrorBehindWindow = "pair-error-behind-65536",
        Kind0 = "pair-kind-0",
        Kind9 = "pair-kind-9",
        Kind255 = "pair-kind-255",
        CutNode = "pair-cut-node",
        CutModel = "pair-cut-model",
        CutStart = "pair-cut-start",
        CutBio = "pair-cut-bio",
        CutTick = "pair-cut-tick",
        CutVrate = "pair-cut-vrate",
        CutWeight = "pair-cut-weight",
        DifferenceKind = "pair-difference-kind",
        DifferenceKindAlone = "pair-difference-kind-alone",
        DifferenceBody = "pair-difference-body",
        DifferenceNode = "pair-difference-of-nodes",
        DifferenceModel = "pair-difference-of-models",
        DifferenceStart = "pair-difference-of-starts",
        DifferenceBio = "pair-difference-of-bios",
        DifferenceTick = "pair-difference-of-ticks",
        DifferenceVrate = "pair-difference-of-vrates",
        DifferenceWeight = "pair-difference-of-weights",
        DifferenceFirstByte = "pair-difference-in-the-first-byte-of-a-body",
        DifferenceLastByte = "pair-difference-in-the-last-byte-of-a-body",
        DifferenceAtRecord0 = "pair-difference-at-record-0",
        DifferenceAtLast = "pair-difference-at-the-last-common-record",
        DifferenceAlone = "pair-difference-alone",
        DifferencesMany = "pair-differences-more-than-1000",
        PlacesUnlike = "pair-places-unlike",
        AcrossWindowFirst = "pair-difference-across-65536-first",
        AcrossWindowSecond = "pair-difference-across-65536-second",
        BehindWindows = "pair-difference-behind-131072",
        OfWindow = "pair-of-65536-bytes",
        OutOfPhase = "pair-out-of-phase",
        OutOfRange = "pair-field-out-of-range",
        Asked0 = "pair-asked-0",
        AskedDifference = "pair-asked-the-difference",
        AskedBehindDifference = "pair-asked-behind-the-difference",
        AskedBetween = "pair-asked-between-differences",
        AskedCount = "pair-asked-the-count",
        AskedBeyondCount = "pair-asked-beyond-the-count",
        AskedMost = "pair-asked-2^64-1",
        AskedOfEqual = "pair-asked-of-equal",
        AskedOfPrefix = "pair-asked-of-a-prefix",
        AskedOfError = "pair-asked-of-an-error",
    }
}

/// What a reader may hold of a trace at once.
const WINDOW: usize = 1 << 16;

/// A trace as it is read: where its records begin, and its error.
struct Read<'a> {
    trace: &'a [u8],
    records: Vec<(usize, Record)>,
    /// The place behind the whole records.
    behind: usize,
    error: Option<Refusal>,
}

impl<'a> Read<'a> {
    fn new(trace: &'a [u8]) -> Read<'a> {
        let mut reader = Reader::new(trace);
        let mut records = Vec::new();
        loop {
            let place = reader.place;
            let error = match reader.next() {
                Ok(Some(record)) => {
                    records.push((place, record));
                    continue;
                }
                Ok(None) => None,
                Err(refusal) => Some(refusal),
            };
            return Read {
                trace,
                records,
                behind: place,
                error,
            };
        }
    }

    /// The bytes of a record.
    fn bytes(&self, number: usize) -> &[u8] {
        let next = self.records.get(number + 1);
        &self.trace[self.records[number].0..next.map_or(self.behind, |next| next.0)]
    }

    fn crosses_window(&self, number: usize) -> bool {
        let place = self.records[number].0;
        let last = place + self.bytes(number).len() - 1;
        place / WINDOW != last / WINDOW
    }
}

pub struct Census {
    counts: Vec<u64>,
}

impl Census {
    pub fn new() -> Census {
        Census {
            counts: vec![0; Event::ALL.len()],
        }
    }

    /// Each event by its name, and how often it was reached.
    pub fn counts(&self) -> impl Iterator<Item = (&'static str, u64)> + '_ {
        let names = Event::ALL.iter().map(|event| event.name());
        names.zip(self.counts.iter().copied())
    }

    fn hit_if(&mut self, event: Event, reached: bool) {
        self.counts[event as usize] += u64::from(reached);
    }

    /// Counts a pair and the numbers that it is asked with.
    pub fn add(&mut self, traces: [&[u8]; 2], asked: &[u64]) {
        let [one, other] = [Read::new(traces[0]), Read::new(traces[1])];
        let common = one.records.len().min(other.records.len());
        let differences: Vec<usize> = (0..common)
            .filter(|number| one.records[*number].1 != other.records[*number].1)
            .collect();
        self.count_errors(&one, &other, &differences);
        for read in [&one, &other] {
            self.count_error(read);
            self.count_fields(read);
        }
        let sound = one.error.is_none() && other.error.is_none();
        if sound {
            self.count_likeness(&one, &other, &differences);
            for number in &differences {
                self.count_difference(&one, &other, *number, common);
            }
        }
        for number in asked {
            self.count_asked(*number, &differences, common, sound);
        }
        self.hit_if(Event::AskedOfError, !sound && !asked.is_empty());
        let equal = sound && traces[0] == traces[1];
        self.hit_if(Event::AskedOfEqual, equal && !asked.is_empty());
        let prefix = sound && differences.is_empty() && !equal;
        self.hit_if(Event::AskedOfPrefix, prefix && !asked.is_empty());
    }

    fn count_errors(&mut self, one: &Read, other: &Read, differences: &[usize]) {
        let (first, second) = (one.error, other.error);
        self.hit_if(Event::ErrorFirst16, first == Some(Refusal::UnknownKind));
        self.hit_if(Event::ErrorFirst17, first == Some(Refusal::CutRecord));
        let alone = first.is_none();
        self.hit_if(
            Event::ErrorSecond16,
            alone && second == Some(Refusal::UnknownKind),
        );
        self.hit_if(
            Event::ErrorSecond17,
            alone && second == Some(Refusal::CutRecord),
        );
        if first.is_some() && second.is_some() {
            self.hit_if(Event::ErrorsBoth, true);
            self.hit_if(Event::ErrorsAtOnePlace, one.behind == other.behind);
            self.hit_if(Event::ErrorFirstEarlier, one.behind < other.behind);
            self.hit_if(Event::ErrorSecondEarlier, other.behind < one.behind);
            self.hit_if(Event::ErrorsBoth16And17, first != second);
        } else if first.is_some() || second.is_some() {
            let (bad, sound) = if alone { (other, one) } else { (one, other) };
            let (ended, at) = (sound.records.len(), bad.records.len());
            self.hit_if(Event::ErrorBehindEnd, ended < at);
            self.hit_if(Event::ErrorRightBehindEnd, ended == at);
            self.hit_if(Event::EmptyAgainstError, sound.trace.is_empty());
            self.hit_if(Event::ErrorBehindDifference, !differences.is_empty());
        }
    }

    /// The error of one trace by itself.
    fn count_error(&mut self, read: &Read) {
        let refusal = match read.error {
            None => return,
            Some(refusal) => refusal,
        };
        let kind = read.trace[read.behind];
        self.hit_if(Event::ErrorAtRecord0, read.behind == 0);
        self.hit_if(Event::ErrorInLastByte, read.behind + 1 == read.trace.len());
        self.hit_if(Event::ErrorBehindWindow, read.behind > WINDOW);
        let event = match (refusal, kind) {
            (Refusal::UnknownKind, 0) => Event::Kind0,
            (Refusal::UnknownKind, 9) => Event::Kind9,
            (Refusal::UnknownKind, 255) => Event::Kind255,
            (Refusal::CutRecord, 1) => Event::CutNode,
            (Refusal::CutRecord, 2) => Event::CutModel,
            (Refusal::CutRecord, 3) => Event::CutStart,
            (Refusal::CutRecord, 4) => Event::CutBio,
            (Refusal::CutRecord, 5) => Event::CutTick,
            (Refusal::CutRecord, 7) => Event::CutVrate,
            (Refusal::CutRecord, 8) => Event::CutWeight,
            _ => return,
        };
        self.hit_if(event, true);
    }

    /// What a replay refuses and a comparison does not.
    fn count_fields(&mut self, read: &Read) {
        let kinds = || read.records.iter().map(|(_, record)| record.kind());
        let start = kinds().position(|kind| kind == START);
        let run = kinds().position(|kind| kind >= BIO);
        let early = run.is_some() && (start.is_none() || run < start);
        self.hit_if(Event::OutOfPhase, read.error.is_none() && early);
        let bad_vrate = |(_, record): &(usize, Record)| match record {
            Record::Vrate { vrate } => *vrate == 0 || *vrate > MAX_VRATE,
            _ => false,
        };
        let out_of_range = read.records.iter().any(bad_vrate);
        self.hit_if(Event::OutOfRange, read.error.is_none() && out_of_range);
    }

    /// What two traces without errors are as wholes.
    fn count_likeness(&mut self, one: &Read, other: &Read, differences: &[usize]) {
        let (first, second) = (one.records.len(), other.records.len());
        let (bytes, others) = (one.trace.len(), other.trace.len());
        self.hit_if(Event::Equal, one.trace == other.trace);
        self.hit_if(Event::EmptyBoth, bytes == 0 && others == 0);
        self.hit_if(Event::EmptyFirst, bytes == 0 && others > 0);
        self.hit_if(Event::EmptySecond, bytes > 0 && others == 0);
        self.hit_if(Event::OfWindow, bytes == WINDOW && others == WINDOW);
        if differences.is_empty() {
            self.hit_if(Event::PrefixFirst, first < second);
            self.hit_if(Event::PrefixSecond, first > second);
            let rest = first.max(second) - first.min(second);
            self.hit_if(Event::RestOfOne, rest == 1);
            self.hit_if(Event::RestOfMore, rest > 1);
        } else {
            self.hit_if(Event::EndsFirst, first < second);
            self.hit_if(Event::EndsSecond, first > second);
            self.hit_if(Event::EndsNeither, first == second);
            self.hit_if(
                Event::SameBytesOtherCount,
                bytes == others && first != second,
            );
            let crossed = (bytes < others && first > second) || (bytes > others && first < second);
            self.hit_if(Event::FewerBytesMoreRecords, crossed);
            self.hit_if(Event::DifferenceAlone, differences.len() == 1);
            self.hit_if(Event::DifferencesMany, differences.len() > 1_000);
        }
    }

    fn count_difference(&mut self, one: &Read, other: &Read, number: usize, common: usize) {
        let (first, second) = (one.bytes(number), other.bytes(number));
        let kinds = first[0] != second[0];
        self.hit_if(Event::DifferenceKind, kinds);
        self.hit_if(
            Event::DifferenceKindAlone,
            kinds && first[1..] == second[1..],
        );
        self.hit_if(Event::DifferenceAtRecord0, number == 0);
        self.hit_if(Event::DifferenceAtLast, number + 1 == common);
        let places = (one.records[number].0, other.records[number].0);
        self.hit_if(Event::PlacesUnlike, places.0 != places.1);
        self.hit_if(Event::AcrossWindowFirst, one.crosses_window(number));
        self.hit_if(Event::AcrossWindowSecond, other.crosses_window(number));
        self.hit_if(Event::BehindWindows, places.0.min(places.1) > 2 * WINDOW);
        if kinds {
            return;
        }
        self.hit_if(Event::DifferenceBody, true);
        let last = first.len() - 1;
        let first_alone = first[2.min(last)..] == second[2.min(last)..];
        self.hit_if(Event::DifferenceFirstByte, first_alone && last > 1);
        let last_alone = first[..last] == second[..last];
        self.hit_if(Event::DifferenceLastByte, last_alone && last > 1);
        let event = match one.records[number].1 {
            Record::Node { .. } => Event::DifferenceNode,
            Record::Model(_) => Event::DifferenceModel,
            Record::Start { .. } => Event::DifferenceStart,
            Record::Bio(_) => Event::DifferenceBio,
            Record::Tick { .. } => Event::DifferenceTick,
            Record::Vrate { .. } => Event::DifferenceVrate,
            Record::Weight { .. } => Event::DifferenceWeight,
            Record::Plan => return,
        };
        self.hit_if(event, true);
    }

    fn count_asked(&mut self, asked: u64, differences: &[usize], common: usize, sound: bool) {
        if !sound {
            return;
        }
        self.hit_if(Event::Asked0, asked == 0);
        self.hit_if(Event::AskedCount, asked == common as u64);
        self.hit_if(Event::AskedBeyondCount, asked > common as u64);
        self.hit_if(Event::AskedMost, asked == u64::MAX);
        let numbers = || differences.iter().map(|number| *number as u64);
        let before = numbers().any(|number| number < asked);
        let behind = numbers().any(|number| number > asked);
        let at = numbers().any(|number| number == asked);
        self.hit_if(Event::AskedDifference, at);
        self.hit_if(Event::AskedBehindDifference, before && !at && !behind);
        self.hit_if(Event::AskedBetween, before && !at && behind);
    }
}
