//! Trace records: their layout, read and written.

use crate::engine::cost::{Bio, Rates};
use crate::engine::refusal::Refusal;

/// The longest record is a model: its kind and six numbers of 8 bytes.
pub const LONGEST: usize = 49;

pub const NODE: u8 = 1;
pub const MODEL: u8 = 2;
pub const START: u8 = 3;
pub const BIO: u8 = 4;
pub const TICK: u8 = 5;
pub const PLAN: u8 = 6;
pub const VRATE: u8 = 7;
pub const WEIGHT: u8 = 8;
/// The highest kind; those above it are unknown, and so is 0.
pub const LAST: u8 = WEIGHT;

#[derive(Clone, Copy, Debug, PartialEq, Eq)]
pub enum Record {
    Node { parent: u8, weight: u16 },
    Model(Rates),
    Start { time: u64 },
    Bio(Bio),
    Tick { time: u64 },
    Plan,
    Vrate { vrate: u16 },
    Weight { node: u8, weight: u16 },
}

/// The length of a record with this kind byte, the byte counted; refusal 16.
pub fn record_length(kind: u8) -> Result<usize, Refusal> {
    match kind {
        NODE | WEIGHT => Ok(4),
        MODEL => Ok(LONGEST),
        START | TICK => Ok(9),
        BIO => Ok(19),
        PLAN => Ok(1),
        VRATE => Ok(3),
        _ => Err(Refusal::UnknownKind),
    }
}

/// The little-endian number of `width` bytes at `place`.
fn number(bytes: &[u8], place: usize, width: usize) -> u64 {
    let mut whole = [0; 8];
    whole[..width].copy_from_slice(&bytes[place..place + width]);
    u64::from_le_bytes(whole)
}

/// Reads the record at `place` and the place behind it. At the end there is
/// none; refusals 16 and 17.
pub fn decode(trace: &[u8], place: usize) -> Result<Option<(Record, usize)>, Refusal> {
    if place > trace.len() {
        return Err(Refusal::CutRecord);
    }
    let rest = &trace[place..];
    if rest.is_empty() {
        return Ok(None);
    }
    let length = record_length(rest[0])?;
    if rest.len() < length {
        return Err(Refusal::CutRecord);
    }
    Ok(Some((decode_whole(&rest[..length]), place + length)))
}

/// Reads a record whose kind is known and whose bytes are all there.
fn decode_whole(bytes: &[u8]) -> Record {
    match bytes[0] {
        NODE => Record::Node {
            parent: bytes[1],
            weight: number(bytes, 2, 2) as u16,
        },
        MODEL => Record::Model(Rates {
            rbps: number(bytes, 1, 8),
            rseqiops: number(bytes, 9, 8),
            rrandiops: number(bytes, 17, 8),
            wbps: number(bytes, 25, 8),
            wseqiops: number(bytes, 33, 8),
            wrandiops: number(bytes, 41, 8),
        }),
        START => Record::Start {
            time: number(bytes, 1, 8),
        },
        BIO => Record::Bio(Bio {
            node: bytes[1],
            flags: bytes[2],
            id: number(bytes, 3, 4) as u32,
            sector: number(bytes, 7, 8),
            bytes: number(bytes, 15, 4) as u32,
        }),
        TICK => Record::Tick {
            time: number(bytes, 1, 8),
        },
        PLAN => Record::Plan,
        VRATE => Record::Vrate {
            vrate: number(bytes, 1, 2) as u16,
        },
        _ => Record::Weight {
            node: bytes[1],
            weight: number(bytes, 2, 2) as u16,
        },
    }
}

impl Record {
    pub fn kind(&self) -> u8 {
        match self {
            Record::Node { .. } => NODE,
            Record::Model(_) => MODEL,
            Record::Start { .. } => START,
            Record::Bio(_) => BIO,
            Record::Tick { .. } => TICK,
            Record::Plan => PLAN,
            Record::Vrate { .. } => VRATE,
            Record::Weight { .. } => WEIGHT,
        }
    }
}

/// Writes the record to the front of `buffer`, leaves the bytes behind it and
/// answers its length; refusal 28.
pub fn encode(record: &Record, buffer: &mut [u8]) -> Result<usize, Refusal> {
    let length = record_length(record.kind())?;
    if buffer.len() < length {
        return Err(Refusal::RecordBufferShort);
    }
    buffer[0] = record.kind();
    let mut put = |place: usize, bytes: &[u8]| {
        buffer[place..place + bytes.len()].copy_from_slice(bytes);
    };
    match *record {
        // Both have a node's number and a weight.
        Record::Node {
            parent: node,
            weight,
        }
        | Record::Weight { node, weight } => {
            put(1, &[node]);
            put(2, &weight.to_le_bytes());
        }
        Record::Model(rates) => {
            put(1, &rates.rbps.to_le_bytes());
            put(9, &rates.rseqiops.to_le_bytes());
            put(17, &rates.rrandiops.to_le_bytes());
            put(25, &rates.wbps.to_le_bytes());
            put(33, &rates.wseqiops.to_le_bytes());
            put(41, &rates.wrandiops.to_le_bytes());
        }
        Record::Start { time } | Record::Tick { time } => put(1, &time.to_le_bytes()),
        Record::Bio(bio) => {
            put(1, &[bio.node, bio.flags]);
            put(3, &bio.id.to_le_bytes());
            put(7, &bio.sector.to_le_bytes());
            put(15, &bio.bytes.to_le_bytes());
        }
        Record::Plan => {}
        Record::Vrate { vrate } => put(1, &vrate.to_le_bytes()),
    }
    Ok(length)
}
