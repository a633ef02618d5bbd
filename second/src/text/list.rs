//! A trace listed as text.

use std::fmt;
use std::io::{self, Read, Write};

use crate::engine::refusal::{Fault, Refusal};
use crate::engine::rules::Rules;
use crate::trace::record::Record;
use crate::trace::replay::{Outcome, Replay};
use crate::trace::stream::Stream;

impl fmt::Display for Record {
    fn fmt(&self, f: &mut fmt::Formatter<'_>) -> fmt::Result {
        match self {
            Record::Node { parent, weight } => write!(f, "node {} {}", parent, weight),
            Record::Model(r) => write!(
                f,
                "model {} {} {} {} {} {}",
                r.rbps, r.rseqiops, r.rrandiops, r.wbps, r.wseqiops, r.wrandiops
            ),
            Record::Start { time } => write!(f, "start {}", time),
            Record::Bio(b) => write!(
                f,
                "bio {} {} {} {} {}",
                b.node, b.flags, b.id, b.sector, b.bytes
            ),
            Record::Tick { time } => write!(f, "tick {}", time),
            Record::Plan => write!(f, "plan"),
            Record::Vrate { vrate } => write!(f, "vrate {}", vrate),
            Record::Weight { node, weight } => write!(f, "weight {} {}", node, weight),
        }
    }
}

/// So many bytes of a damaged tail are listed on a line.
const RAW_BYTES: usize = 32;

/// Lists a trace. Where no record can be read any more, the bytes left are
/// listed raw, so that nothing of a damaged trace is lost.
pub fn list(input: impl Read, out: &mut impl Write) -> io::Result<()> {
    let mut stream = Stream::new(input);
    let mut setup = Some(Replay::new(Rules::TRUE));
    while let Some(next) = stream.next()? {
        match next {
            Ok(record) => {
                let bad_node = bad_node(&mut setup, &record);
                let comment = bad_node.map_or(String::new(), comment);
                writeln!(out, "{}{}", record, comment)?
            }
            Err(refusal) => {
                list_raw(&mut stream, refusal, out)?;
                break;
            }
        }
    }
    out.flush()
}

/// The refusal that a replay prints for a bad node. What the setup is depends
/// on its records alone, so they are replayed, up to its end or a refusal.
fn bad_node(setup: &mut Option<Replay>, record: &Record) -> Option<Refusal> {
    let replay = setup.as_mut()?;
    let outcome = replay.take(Ok(*record));
    if replay.stopped() || replay.controller().is_some() {
        *setup = None;
    }
    match (record, outcome) {
        (Record::Node { .. }, Outcome::Refused(refusal)) => Some(refusal),
        _ => None,
    }
}

/// What is said behind the first record or byte that is refused.
fn comment(refusal: Refusal) -> String {
    let reason = match refusal {
        Refusal::UnknownKind => "unknown kind byte",
        Refusal::Tree(Fault::Count, _) => "there are at most 64 nodes, the root counted",
        Refusal::Tree(Fault::Parent, _) => "the parent's number is not smaller",
        Refusal::Tree(Fault::Weight, _) => "the weight is not 1 to 10,000",
        Refusal::Tree(..) => "the node lies more than 8 levels below the root",
        _ => "the trace ends inside a record",
    };
    let node = refusal.node();
    let node = node.map_or(String::new(), |node| format!(" {}", node));
    format!(" # refusal {}{}: {}", refusal.number(), node, reason)
}

/// Lists all bytes left, the refusal as a comment on the first line.
fn list_raw(
    stream: &mut Stream<impl Read>,
    refusal: Refusal,
    out: &mut impl Write,
) -> io::Result<()> {
    let mut comment = comment(refusal);
    let mut listed = 0;
    stream.drain(|bytes| {
        for byte in bytes {
            if listed % RAW_BYTES == 0 {
                write!(out, "raw ")?;
            }
            write!(out, "{:02x}", byte)?;
            listed += 1;
            if listed % RAW_BYTES == 0 {
                writeln!(out, "{}", comment)?;
                comment.clear();
            }
        }
        Ok(())
    })?;
    if listed % RAW_BYTES != 0 {
        writeln!(out, "{}", comment)?;
    }
    Ok(())
}
