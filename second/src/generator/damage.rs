//! Damage done to the bytes of a generated trace.

use crate::engine::cost::Bio;
use crate::generator::random::Random;
use crate::generator::setup::BENCH;
use crate::trace::record::{decode, encode, record_length, Record, LAST, LONGEST, START};

/// Damages a trace that was good up to its last record.
pub fn damage(trace: &mut Vec<u8>, random: &mut Random) {
    let place = random.below(trace.len() as u64) as usize;
    match random.below(9) {
        0 => cut_record(trace, random, START + 1, LAST),
        1 => add_unknown_kind(trace, random),
        2 => add_setup_record(trace, random),
        3 => cut_record(trace, random, 1, START),
        4 => trace[place] = random.number() as u8,
        5 => trace.truncate(place),
        6 => trace.insert(place, random.number() as u8),
        7 => replace_by_noise(trace, random),
        _ => cut_run_record_in_setup(trace, random),
    }
}

/// Puts random bytes everywhere, behind a good setup, at a few places or in
/// one run of a trace that was good.
pub fn noise(trace: &mut [u8], random: &mut Random) {
    let length = trace.len() as u64;
    let (first, last) = match random.below(4) {
        0 => (0, length),
        1 => (setup_length(trace) as u64, length),
        2 => return scatter(trace, random),
        _ => {
            let first = random.below(length + 1);
            (first, random.between(first, length))
        }
    };
    // Half of the bytes are kinds, so that noise is not refused at once.
    for byte in &mut trace[first as usize..last as usize] {
        *byte = match random.below(2) {
            0 => random.between(u64::from(START) + 1, u64::from(LAST)) as u8,
            _ => random.number() as u8,
        };
    }
}

/// Changes a few bytes of a trace, if it has any.
pub fn scatter(trace: &mut [u8], random: &mut Random) {
    let length = trace.len() as u64;
    for _ in 0..random.between(1, 5).min(length) {
        let place = random.below(length) as usize;
        trace[place] = random.number() as u8;
    }
}

/// Puts one byte value, most likely a kind, everywhere behind the setup.
pub fn repeat_behind_setup(trace: &mut [u8], random: &mut Random) {
    let byte = random.below(u64::from(LAST) + 2) as u8;
    let first = setup_length(trace);
    trace[first..].iter_mut().for_each(|place| *place = byte);
}

/// How many bytes lie before the first record behind the start.
fn setup_length(trace: &[u8]) -> usize {
    let mut place = 0;
    while let Ok(Some((record, behind))) = decode(trace, place) {
        place = behind;
        if record.kind() == START {
            break;
        }
    }
    place
}

/// Adds the beginning of a record with a kind from `least` to `most`.
fn cut_record(trace: &mut Vec<u8>, random: &mut Random, least: u8, most: u8) {
    let kind = random.between(u64::from(least), u64::from(most)) as u8;
    let length = record_length(kind).unwrap_or(1) as u64;
    trace.push(kind);
    for _ in 1..random.between(1, (length - 1).max(1)) {
        trace.push(random.number() as u8);
    }
}

fn add_unknown_kind(trace: &mut Vec<u8>, random: &mut Random) {
    let any = random.between(u64::from(LAST) + 1, 255) as u8;
    trace.push(random.pick(&[0, LAST + 1, 255, any]));
    for _ in 0..random.below(40) {
        trace.push(random.number() as u8);
    }
}

/// Adds a setup record behind the start, and a plan no replay may reach.
fn add_setup_record(trace: &mut Vec<u8>, random: &mut Random) {
    let node = Record::Node {
        parent: 0,
        weight: 100,
    };
    let bad_node = Record::Node {
        parent: 255,
        weight: 0,
    };
    let start = Record::Start { time: 0 };
    let record = random.pick(&[node, bad_node, start, Record::Model(BENCH)]);
    add(trace, &record);
    add(trace, &Record::Plan);
}

fn add(trace: &mut Vec<u8>, record: &Record) {
    let mut buffer = [0; LONGEST];
    if let Ok(length) = encode(record, &mut buffer) {
        trace.extend_from_slice(&buffer[..length]);
    }
}

fn replace_by_noise(trace: &mut Vec<u8>, random: &mut Random) {
    let length = random.below(60);
    *trace = (0..length)
        .map(|_| random.below(u64::from(LAST) + 2) as u8)
        .collect();
}

fn cut_run_record_in_setup(trace: &mut Vec<u8>, random: &mut Random) {
    trace.clear();
    add(trace, &Record::Model(BENCH));
    let setup = trace.len();
    let bio = Record::Bio(Bio {
        node: 0,
        flags: 0,
        id: 0,
        sector: 0,
        bytes: 512,
    });
    let weight = Record::Weight {
        node: 0,
        weight: 100,
    };
    add(trace, &random.pick(&[bio, weight]));
    let kept = random.between(1, (trace.len() - setup) as u64 - 1);
    trace.truncate(setup + kept as usize);
}
