//! A replay that asks before each bio what it would be answered, and holds that
//! against what its submission right behind it is answered.

use std::fmt;
use std::io::{self, Read, Write};

use crate::engine::rules::Rules;
use crate::trace::record::Record;
use crate::trace::replay::{Outcome, Replay};
use crate::trace::stream::Stream;

/// A bio of a trace whose question and submission are answered differently.
pub struct Unlike {
    record: Record,
    index: u64,
    place: u64,
    /// The lines of the two answers.
    asked: String,
    given: String,
}

impl fmt::Display for Unlike {
    fn fmt(&self, out: &mut fmt::Formatter) -> fmt::Result {
        write!(
            out,
            "record {} at byte {}: {}: the question answers '{}', and its submission '{}'",
            self.index, self.place, self.record, self.asked, self.given
        )
    }
}

/// Replays a trace and prints what is asked of each bio that reaches a
/// submission, as a replay prints it. It ends at the first bio that is then
/// answered otherwise, and answers it. Any output is taken by one way of printing,
/// so that a replay, whose time counts, keeps its own inlined.
pub fn asks(input: impl Read, mut out: &mut dyn Write, rules: Rules) -> io::Result<Option<Unlike>> {
    let mut stream = Stream::new(input);
    let mut replay = Replay::new(rules);
    let (mut index, mut place) = (0, 0);
    while let (false, Some(Ok(record))) = (replay.stopped(), stream.next()?) {
        index += 1;
        let asked = question(&replay, &record);
        let given = replay.take(Ok(record));
        if let Some(asked) = asked {
            replay.print(asked, &mut out)?;
            if asked != given {
                out.flush()?;
                return Ok(Some(Unlike {
                    record,
                    index,
                    place,
                    asked: line(&replay, asked),
                    given: line(&replay, given),
                }));
            }
        }
        place = stream.place();
    }
    out.flush()?;
    Ok(None)
}

/// What is asked before a record; none where it is no bio or comes before start.
/// The replay is only lent, so no question can change its state.
fn question(replay: &Replay, record: &Record) -> Option<Outcome> {
    match (replay.controller(), record) {
        (Some(controller), Record::Bio(bio)) => Some(match controller.ask(bio) {
            Ok(answer) => Outcome::Answered(answer, bio.id),
            Err(refusal) => Outcome::Refused(refusal),
        }),
        _ => None,
    }
}

/// The line of an answer, without its newline.
fn line(replay: &Replay, outcome: Outcome) -> String {
    let mut printed = Vec::new();
    // Writing to memory does not fail.
    let _ = replay.print(outcome, &mut printed);
    String::from_utf8_lossy(&printed).trim_end().to_string()
}
