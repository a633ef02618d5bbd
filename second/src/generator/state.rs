//! The generator's state: what is written so far, played on this program's own
//! controller, so that the next record can be aimed.

use std::io::{self, Write};

use crate::engine::controller::Controller;
use crate::engine::rules::{Mutant, Rules};
use crate::generator::random::Random;
use crate::generator::style::Style;
use crate::trace::record::{encode, Record, LONGEST};
use crate::trace::replay::{Outcome, Replay};

/// A move adds the records it needs for its aim.
pub type Move = fn(&mut Generator);

pub struct Generator {
    pub random: Random,
    replay: Replay,
    written: Vec<u8>,
    /// Records that may still be added.
    pub left: u64,
    /// Whether records that would be refused are left out.
    only_accepted: bool,
}

impl Generator {
    pub fn new(seed: u64, style: Style) -> Generator {
        let mut random = Random::new(seed);
        // Styles draw from different numbers even for the same seed.
        let stir = random.number() ^ style as u64;
        // `long` is measured, and so stays as it was when flushes were refused.
        let rules = match style {
            Style::Long => Rules::with(Mutant::FlushRefused),
            _ => Rules::TRUE,
        };
        Generator {
            random: Random::new(stir),
            replay: Replay::new(rules),
            written: Vec::new(),
            left: 0,
            only_accepted: style == Style::Valid,
        }
    }

    /// The controller of a started trace. Moves are made only on those.
    pub fn controller(&self) -> &Controller {
        self.replay
            .controller()
            .expect("a move is made after the start")
    }

    /// Adds a record and plays it, as long as records are left.
    pub fn put(&mut self, record: Record) {
        if self.left == 0 || self.replay.stopped() {
            return;
        }
        if self.only_accepted {
            let outcome = self.replay.clone().take(Ok(record));
            if matches!(outcome, Outcome::Refused(_)) {
                // Still one less, or a refused move could be tried for ever.
                self.left -= 1;
                return;
            }
        }
        self.left -= 1;
        self.write(&record);
        self.replay.take(Ok(record));
    }

    /// Adds a record without playing it.
    fn write(&mut self, record: &Record) {
        let mut buffer = [0; LONGEST];
        if let Ok(length) = encode(record, &mut buffer) {
            self.written.extend_from_slice(&buffer[..length]);
        }
    }

    pub fn set_up(&mut self, records: &[Record]) {
        for record in records {
            self.write(record);
            if !self.replay.stopped() {
                self.replay.take(Ok(*record));
            }
        }
    }

    /// Whether a refusal ended the trace.
    pub fn stopped(&self) -> bool {
        self.replay.stopped()
    }

    pub fn runs(&self) -> bool {
        self.replay.controller().is_some() && !self.replay.stopped()
    }

    /// Adds records that no replay may reach any more.
    pub fn add_stray(&mut self) {
        for _ in 0..self.random.between(1, 3) {
            let record = match self.random.below(3) {
                0 => Record::Plan,
                1 => Record::Vrate { vrate: 0 },
                _ => Record::Tick { time: 0 },
            };
            self.write(&record);
        }
    }

    pub fn hand_on(&mut self, out: &mut impl Write) -> io::Result<()> {
        out.write_all(&self.written)?;
        self.written.clear();
        Ok(())
    }
}
