//! The census: which events, answers and refusals a set of traces reaches.

use std::io::{self, Read, Write};
use std::sync::Mutex;

use crate::engine::controller::Answer;
use crate::engine::refusal::{Refusal, LAST_NUMBER};
use crate::engine::rules::Rules;
use crate::engine::tree::MAX_WEIGHT;
use crate::observation::events::Event;
use crate::observation::flushes::Flushes;
use crate::observation::observe::observe;
use crate::observation::questions;
use crate::observation::shares::PassEvents;
use crate::trace::record::{Record, START, WEIGHT};
use crate::trace::replay::{Outcome, Phase, Replay};
use crate::trace::stream::Stream;

/// Refusals no replay can be made to give in reasonable time, or at all: 11
/// needs hundreds of millions of ticks, the replay lends enough room for 13,
/// and 28 is the writer's. The self test calls for them directly.
const EXEMPT: [Refusal; 3] = [
    Refusal::VirtualTimeLimit,
    Refusal::ReleaseBufferShort,
    Refusal::RecordBufferShort,
];

const LETTERS: [&str; 6] = ["I", "W", "D", "r", "P", "R"];

pub struct Census {
    traces: u64,
    records: u64,
    events: Vec<u64>,
    letters: [u64; LETTERS.len()],
    /// By their numbers.
    refusals: Vec<u64>,
}

impl Census {
    pub fn new() -> Census {
        Census {
            traces: 0,
            records: 0,
            events: vec![0; Event::ALL.len()],
            letters: [0; LETTERS.len()],
            refusals: vec![0; usize::from(LAST_NUMBER) + 1],
        }
    }

    /// Adds what another census counted.
    pub fn merge(&mut self, other: &Census) {
        self.traces += other.traces;
        self.records += other.records;
        add_each(&mut self.events, &other.events);
        add_each(&mut self.letters, &other.letters);
        add_each(&mut self.refusals, &other.refusals);
    }

    pub fn traces(&self) -> u64 {
        self.traces
    }

    pub fn records(&self) -> u64 {
        self.records
    }

    /// Lines printed by all replays.
    pub fn lines(&self) -> u64 {
        self.letters.iter().sum()
    }

    fn hit(&mut self, event: Event) {
        self.events[event as usize] += 1;
    }

    /// Replays one trace and counts what it reaches.
    pub fn add(&mut self, trace: impl Read) -> io::Result<()> {
        let mut stream = Stream::new(trace);
        let mut replay = Replay::new(Rules::TRUE);
        let mut flushes = Flushes::new();
        let mut passes = PassEvents::new();
        let mut records = 0;
        let mut refused = false;
        while !replay.stopped() {
            let next = match stream.next()? {
                None => break,
                Some(next) => next,
            };
            records += 1;
            let before = replay.phase.clone();
            let outcome = replay.take(next);
            refused = refused || matches!(outcome, Outcome::Refused(_));
            self.count_lines(outcome, replay.line_count(outcome));
            if let Outcome::Refused(Refusal::UnknownKind) = outcome {
                self.hit(Event::UnknownKind);
            }
            if let Outcome::Refused(Refusal::CutRecord) = outcome {
                self.count_cut(stream.next_kind(), replay.controller().is_some());
            }
            if let Ok(record) = next {
                let after = &replay.phase;
                let hit = &mut |event| self.hit(event);
                observe(&before, &record, outcome, after, hit);
                flushes.observe(&before, &record, outcome, after, hit);
                passes.observe(&before, &record, outcome, after, hit);
                questions::observe(&before, &record, hit);
                if let (Record::Node { .. }, true, Phase::Setup { tree, .. }) =
                    (record, replay.stopped(), &before)
                {
                    self.count_behind(&mut stream, tree.count() + 1)?;
                }
            }
        }
        self.traces += 1;
        self.records += records;
        self.count_whole(records, refused, replay.controller().is_some());
        Ok(())
    }

    fn count_lines(&mut self, outcome: Outcome, lines: u64) {
        let letter = match outcome {
            Outcome::Quiet => return,
            Outcome::Answered(Answer::Issued, _) => 0,
            Outcome::Answered(Answer::Waits, _) => 1,
            Outcome::Answered(Answer::OnDebt, _) => 2,
            Outcome::Released(_) => 3,
            Outcome::Planned => 4,
            Outcome::Refused(_) => 5,
        };
        self.letters[letter] += lines;
        if let Outcome::Refused(refusal) = outcome {
            self.refusals[usize::from(refusal.number())] += 1;
        }
    }

    fn count_cut(&mut self, kind: Option<u8>, started: bool) {
        self.hit(Event::CutRecord);
        if kind == Some(WEIGHT) {
            self.hit(Event::CutWeight);
        }
        let for_setup = kind.map_or(false, |kind| kind <= START);
        if for_setup == started {
            self.hit(Event::CutRecordOutOfPhase);
        }
    }

    /// Counts the nodes from a number on, behind a bad one. No replay reaches
    /// them.
    fn count_behind(&mut self, stream: &mut Stream<impl Read>, first: usize) -> io::Result<()> {
        let mut number = first;
        while let Some(Ok(record)) = stream.next()? {
            if let Record::Node { parent, weight } = record {
                self.hit(Event::NodeBehindBad);
                let good_weight = (1..=MAX_WEIGHT).contains(&weight);
                if usize::from(parent) >= number || !good_weight {
                    self.hit(Event::BadNodeBehindBad);
                }
                number += 1;
            }
        }
        Ok(())
    }

    fn count_whole(&mut self, records: u64, refused: bool, started: bool) {
        if records == 0 {
            self.hit(Event::EmptyTrace);
        } else if !refused {
            self.hit(if started {
                Event::TraceWithoutRefusal
            } else {
                Event::TraceEndsInSetup
            });
        }
    }

    /// Prints a line for each count.
    pub fn print(&self, out: &mut impl Write) -> io::Result<()> {
        writeln!(out, "traces {}", self.traces)?;
        writeln!(out, "records {}", self.records)?;
        for (name, count) in LETTERS.iter().zip(&self.letters) {
            writeln!(out, "{} {}", name, count)?;
        }
        for number in Refusal::numbers() {
            let count = self.refusals[usize::from(number)];
            writeln!(out, "refusal-{} {}", number, count)?;
        }
        for (event, count) in Event::ALL.iter().zip(&self.events) {
            writeln!(out, "{} {}", event.name(), count)?;
        }
        out.flush()
    }

    /// All that is asked for by name, and how often it was reached.
    pub fn asked(&self) -> Vec<(String, u64)> {
        let letters = LETTERS.iter().map(|name| name.to_string());
        let exempt = EXEMPT.map(Refusal::number);
        let refusals = Refusal::numbers().filter(|number| !exempt.contains(number));
        let events = Event::ALL.iter().map(|event| event.name().to_string());
        letters
            .zip(self.letters.iter().copied())
            .chain(refusals.map(|number| {
                let count = self.refusals[usize::from(number)];
                (format!("refusal-{}", number), count)
            }))
            .chain(events.zip(self.events.iter().copied()))
            .collect()
    }
}

fn add_each(sums: &mut [u64], counts: &[u64]) {
    for (sum, count) in sums.iter_mut().zip(counts) {
        *sum += count;
    }
}

/// Adds a trace to the census.
pub fn count_trace(trace: &[u8], census: &Mutex<Census>) -> io::Result<()> {
    let mut one = Census::new();
    one.add(trace)?;
    census.lock().unwrap().merge(&one);
    Ok(())
}
