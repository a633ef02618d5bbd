//! What makes one trace of a pair unlike the other: a change to some of its
//! records, which are bytes here, whatever they say.

use crate::generator::damage::damage;
use crate::generator::random::Random;
use crate::trace::record::{record_length, LAST, NODE, START, TICK, WEIGHT};

/// A trace in parts: its whole records, and behind them what is none.
pub type Parts = Vec<Vec<u8>>;

/// Kind bytes that are unknown: the two next to the known ones, and the last.
pub const UNKNOWN: [u8; 3] = [0, LAST + 1, 255];

pub type Twist = fn(&mut Parts, &mut Random);

/// The twists by name. None of them does anything to an empty trace but those
/// that add to it.
pub const TWISTS: &[(&str, Twist)] = &[
    ("cut behind a record", cut_behind),
    ("a byte changed", change_byte),
    ("a body changed", change_body),
    ("a kind of the same length", change_kind),
    ("a record inserted", insert),
    ("a record removed", remove),
    ("two records swapped", swap),
    ("cut inside a record", cut_inside),
    ("an unknown kind", unknown_kind),
    ("damaged", damage_any),
];

/// The parts of a trace.
pub fn parts(trace: &[u8]) -> Parts {
    let mut parts = Vec::new();
    let mut left = trace;
    while let Some(kind) = left.first() {
        let length = record_length(*kind).unwrap_or(left.len());
        let (part, behind) = left.split_at(length.min(left.len()));
        parts.push(part.to_vec());
        left = behind;
    }
    parts
}

/// A record of a kind with any body. Small numbers are as usual as large ones.
pub fn record_of(kind: u8, random: &mut Random) -> Vec<u8> {
    let length = record_length(kind).unwrap_or(1);
    let mut record = vec![0; length];
    let small = random.once_in(2);
    for (place, byte) in record.iter_mut().enumerate() {
        *byte = match place {
            0 => kind,
            _ if small && !random.once_in(8) => 0,
            _ => random.number() as u8,
        };
    }
    record
}

pub fn any_record(random: &mut Random) -> Vec<u8> {
    let kind = random.between(1, u64::from(LAST)) as u8;
    record_of(kind, random)
}

/// The other kind of record that has the same length, if there is one.
pub fn kind_like(kind: u8) -> Option<u8> {
    match kind {
        NODE => Some(WEIGHT),
        WEIGHT => Some(NODE),
        START => Some(TICK),
        TICK => Some(START),
        _ => None,
    }
}

fn any_place(length: usize, random: &mut Random) -> Option<usize> {
    if length == 0 {
        return None;
    }
    Some(random.below(length as u64) as usize)
}

fn cut_behind(parts: &mut Parts, random: &mut Random) {
    if let Some(place) = any_place(parts.len(), random) {
        parts.truncate(place);
    }
}

fn change_byte(parts: &mut Parts, random: &mut Random) {
    if let Some(part) = any_place(parts.len(), random) {
        let part = &mut parts[part];
        let place = random.below(part.len() as u64) as usize;
        part[place] ^= 1 << random.below(8);
    }
}

/// The kind stays. A record without a body stays as a whole.
fn change_body(parts: &mut Parts, random: &mut Random) {
    if let Some(part) = any_place(parts.len(), random) {
        change_body_of(&mut parts[part], random);
    }
}

pub fn change_body_of(part: &mut [u8], random: &mut Random) {
    let last = part.len() as u64 - 1;
    if last > 0 {
        let place = random.pick(&[1, last, (1 + last) / 2]);
        part[place as usize] ^= 1 << random.below(8);
    }
}

fn change_kind(parts: &mut Parts, random: &mut Random) {
    let like: Vec<usize> = (0..parts.len())
        .filter(|part| kind_like(parts[*part][0]).is_some())
        .collect();
    if let Some(place) = any_place(like.len(), random) {
        let part = &mut parts[like[place]];
        part[0] = kind_like(part[0]).unwrap_or(part[0]);
    }
}

/// At the front, at the end or between.
fn insert(parts: &mut Parts, random: &mut Random) {
    let last = parts.len() as u64;
    let any = random.between(0, last);
    let place = random.pick(&[0, last, any]);
    parts.insert(place as usize, any_record(random));
}

fn remove(parts: &mut Parts, random: &mut Random) {
    if let Some(any) = any_place(parts.len(), random) {
        let place = random.pick(&[0, parts.len() - 1, any]);
        parts.remove(place);
    }
}

fn swap(parts: &mut Parts, random: &mut Random) {
    let count = parts.len();
    if let (Some(one), Some(other)) = (any_place(count, random), any_place(count, random)) {
        parts.swap(one, other);
    }
}

/// Cuts the trace inside a record that has a body, if it has any.
fn cut_inside(parts: &mut Parts, random: &mut Random) {
    let long: Vec<usize> = (0..parts.len())
        .filter(|part| parts[*part].len() > 1)
        .collect();
    if let Some(place) = any_place(long.len(), random) {
        parts.truncate(long[place] + 1);
        let part = &mut parts[long[place]];
        part.truncate(random.between(1, part.len() as u64 - 1) as usize);
    }
}

fn unknown_kind(parts: &mut Parts, random: &mut Random) {
    if let Some(part) = any_place(parts.len(), random) {
        parts[part][0] = random.pick(&UNKNOWN);
    }
}

fn damage_any(trace: &mut Parts, random: &mut Random) {
    let mut bytes = trace.concat();
    if !bytes.is_empty() {
        damage(&mut bytes, random);
    }
    *trace = parts(&bytes);
}
