//! Generated pairs of traces to compare, the same for a seed: one small trace
//! against itself with everything done to it in turn, traces of all styles that
//! are twisted here and there, long ones that differ where a window of 65,536
//! bytes ends, and a few that are laid out to reach what the others reach by
//! chance alone.

use std::io;

use crate::engine::clock::MAX_VRATE;
use crate::generator::generate::generate;
use crate::generator::random::Random;
use crate::generator::style::Style;
use crate::generator::twists::{any_record, change_body_of, kind_like, parts, record_of};
use crate::generator::twists::{Parts, TWISTS, UNKNOWN};
use crate::trace::record::{BIO, LAST, MODEL, NODE, PLAN, START, TICK, VRATE, WEIGHT};

/// Two traces, and what was done to make them.
pub struct TracePair {
    pub name: String,
    pub first: Vec<u8>,
    pub second: Vec<u8>,
}

impl TracePair {
    fn new(name: String, first: Vec<u8>, second: Vec<u8>) -> TracePair {
        TracePair {
            name,
            first,
            second,
        }
    }

    pub fn traces(&self) -> [&[u8]; 2] {
        [&self.first, &self.second]
    }
}

/// So many pairs are twisted at random.
const TWISTED: u64 = 1_300;

/// What a reader may hold of a trace at once.
const WINDOW: usize = 1 << 16;

/// All generated pairs from a seed on.
pub fn pairs(seed: u64) -> io::Result<Vec<TracePair>> {
    let mut random = Random::new(seed);
    let mut all = Vec::new();
    let small = small(&mut random);
    small_pairs(&small, &mut all);
    changed_bytes(&small, &mut random, &mut all);
    changed_records(&small, &mut random, &mut all);
    two_errors(&small, &mut random, &mut all);
    for step in 0..TWISTED {
        all.push(twisted(seed.wrapping_add(step))?);
    }
    long_pairs(&mut random, &mut all);
    laid_out(&small, &mut random, &mut all);
    Ok(all)
}

/// A few records of each kind, with numbers in range or not.
fn small(random: &mut Random) -> Parts {
    let kinds = [
        NODE, NODE, MODEL, START, BIO, TICK, VRATE, WEIGHT, PLAN, BIO, TICK, PLAN,
    ];
    kinds.iter().map(|kind| record_of(*kind, random)).collect()
}

/// A trace against itself, against each of its prefixes, and cut at each byte,
/// on either side; and against itself with one byte more.
fn small_pairs(small: &Parts, all: &mut Vec<TracePair>) {
    let trace = small.concat();
    all.push(TracePair::new("empty both".into(), vec![], vec![]));
    all.push(TracePair::new("equal".into(), trace.clone(), trace.clone()));
    for place in 0..trace.len() {
        let name = format!("cut at byte {}", place);
        both_ways(&name, &trace, &trace[..place], all);
    }
    let mut place = 0;
    for part in small {
        place += part.len();
        let name = format!("both cut, at bytes {} and {}", place, place - 1);
        both_ways(&name, &trace[..place], &trace[..place - 1], all);
    }
    for byte in 0..=LAST + 1 {
        let mut longer = trace.clone();
        longer.push(byte);
        both_ways(&format!("a byte {} more", byte), &trace, &longer, all);
    }
}

/// A pair, and the same with its sides swapped.
fn both_ways(name: &str, one: &[u8], other: &[u8], all: &mut Vec<TracePair>) {
    let swapped = format!("{}, swapped", name);
    all.push(TracePair::new(name.into(), one.to_vec(), other.to_vec()));
    all.push(TracePair::new(swapped, other.to_vec(), one.to_vec()));
}

/// Each byte changed: by one bit, to a byte that may be a kind, and to any.
fn changed_bytes(small: &Parts, random: &mut Random, all: &mut Vec<TracePair>) {
    let trace = small.concat();
    for place in 0..trace.len() {
        let bit = trace[place] ^ 1 << random.below(8);
        let kind = random.below(u64::from(LAST) + 2) as u8;
        for byte in [bit, kind, random.number() as u8] {
            let mut changed = trace.clone();
            changed[place] = byte;
            let name = format!("byte {} made {}", place, byte);
            let (first, second) = in_any_order(trace.clone(), changed, random);
            all.push(TracePair::new(name, first, second));
        }
    }
}

fn in_any_order<T>(one: T, other: T, random: &mut Random) -> (T, T) {
    if random.once_in(2) {
        (one, other)
    } else {
        (other, one)
    }
}

/// Each record in turn with another body or kind, removed, doubled, swapped
/// with the last one, replaced, with another one before it, or with an unknown
/// kind.
fn changed_records(small: &Parts, random: &mut Random, all: &mut Vec<TracePair>) {
    let trace = small.concat();
    for place in 0..small.len() {
        let mut change = |name: &str, change: &dyn Fn(&mut Parts, &mut Random)| {
            let mut changed = small.clone();
            change(&mut changed, random);
            let name = format!("record {} {}", place, name);
            both_ways(&name, &trace, &changed.concat(), all);
        };
        change("with another body", &|parts, random| {
            change_body_of(&mut parts[place], random)
        });
        change("of another kind", &|parts, _| {
            let kind = parts[place][0];
            parts[place][0] = kind_like(kind).unwrap_or(kind);
        });
        change("removed", &|parts, _| drop(parts.remove(place)));
        change("doubled", &|parts, _| {
            parts.insert(place, parts[place].clone())
        });
        change("swapped with the last", &|parts, _| {
            let last = parts.len() - 1;
            parts.swap(place, last)
        });
        change("replaced", &|parts, random| {
            parts[place] = any_record(random)
        });
        // As many bytes, and more records.
        change("as plans", &|parts, _| {
            let length = parts[place].len();
            parts.splice(place..=place, vec![vec![PLAN]; length]);
        });
        change("behind another", &|parts, random| {
            parts.insert(place, any_record(random))
        });
        for kind in UNKNOWN {
            change(&format!("made {}", kind), &|parts, _| {
                parts[place][0] = kind
            });
        }
    }
}

/// Errors on both sides, at the same record or at others; and an error on one
/// side behind a difference, or behind the other's end.
fn two_errors(small: &Parts, random: &mut Random, all: &mut Vec<TracePair>) {
    let spoiled = |place: usize, kind: Option<u8>| {
        let mut parts = small.clone();
        match kind {
            Some(kind) => parts[place][0] = kind,
            None => {
                parts.truncate(place + 1);
                parts[place].pop();
            }
        }
        parts
    };
    // Records with a body, so that each of them can be cut.
    for (one, other) in [(1, 4), (4, 4), (9, 2), (0, 10)] {
        for kinds in [(None, None), (Some(0), None), (Some(9), Some(255))] {
            let (first, second) = (spoiled(one, kinds.0), spoiled(other, kinds.1));
            let name = format!("errors at records {} and {}", one, other);
            both_ways(&name, &first.concat(), &second.concat(), all);
        }
    }
    for place in [2, 5, 9, 10] {
        for kind in [None, Some(0), Some(255)] {
            let error = spoiled(place, kind).concat();
            let mut other = small.clone();
            change_body_of(&mut other[1], random);
            let name = format!("an error at record {} behind a difference", place);
            both_ways(&name, &error, &other.concat(), all);
            for count in [0, 1, place - 1, place] {
                let name = format!("an error at record {} behind an end at {}", place, count);
                both_ways(&name, &error, &small[..count].concat(), all);
            }
        }
    }
}

/// A trace of any style, on both sides the same but for a few twists.
fn twisted(seed: u64) -> io::Result<TracePair> {
    let mut random = Random::new(seed);
    // Seeds in a row would make the same traces as others, one later.
    let mut random = Random::new(random.number() ^ 0x7477_6973);
    let style = random.pick(Style::ALL);
    let records = match style {
        Style::Noise => random.between(1, 200),
        _ => random.between(1, 30),
    };
    let mut base = Vec::new();
    generate(random.number(), records, style, &mut base)?;
    let mut traces = [parts(&base), parts(&base)];
    let mut name = format!("twisted {}: {}", seed, style.name());
    for _ in 0..random.pick(&[0, 1, 1, 1, 2, 2, 3]) {
        let (said, twist) = random.pick(TWISTS);
        let side = random.below(2) as usize;
        twist(&mut traces[side], &mut random);
        let side = ["first", "second"][side];
        name.push_str(&format!(", {} in the {}", said, side));
    }
    Ok(TracePair::new(name, traces[0].concat(), traces[1].concat()))
}

/// Records of so many bytes in all, filled up by plans.
fn long(bytes: usize, random: &mut Random) -> Parts {
    let mut parts = Vec::new();
    let mut length = 0;
    while length < bytes {
        let record = any_record(random);
        if length + record.len() <= bytes {
            length += record.len();
            parts.push(record);
        } else {
            length += 1;
            parts.push(vec![PLAN]);
        }
    }
    parts
}

/// The number of the record that has the byte at a place.
fn record_at(parts: &Parts, place: usize) -> usize {
    let mut behind = 0;
    let holds = |part: &Vec<u8>| {
        behind += part.len();
        behind > place
    };
    parts.iter().position(holds).unwrap_or(parts.len() - 1)
}

/// Long traces: with differences at and around each end of a window, cut
/// there, with an unknown kind there; the sides of one length, shifted against
/// each other by a first record of another length, or by one more.
fn long_pairs(random: &mut Random, all: &mut Vec<TracePair>) {
    for bytes in [WINDOW, 2 * WINDOW, 2 * WINDOW + 777, 3 * WINDOW - 1] {
        let trace = long(bytes, random);
        let plain = trace.concat();
        let name = |what: &str| format!("long, {} bytes, {}", bytes, what);
        all.push(TracePair::new(name("equal"), plain.clone(), plain.clone()));
        for kind in [PLAN, VRATE, WEIGHT, MODEL] {
            let mut other = at_windows(&trace, random);
            other[0] = record_of(kind, random);
            both_ways(&name("shifted at record 0"), &plain, &other.concat(), all);
        }
        let mut other = trace.clone();
        other.insert(0, record_of(TICK, random));
        both_ways(&name("a record inserted"), &plain, &other.concat(), all);
        for place in (WINDOW..=bytes).step_by(WINDOW) {
            let at = record_at(&trace, place - 1);
            let prefix = trace[..at].concat();
            both_ways(&name("a prefix of a window"), &plain, &prefix, all);
            both_ways(&name("cut at a window"), &plain, &plain[..place], all);
            let mut unknown = plain.clone();
            unknown[prefix.len()] = 0;
            both_ways(&name("unknown at a window"), &plain, &unknown, all);
        }
    }
}

/// The records at the ends of the windows, and those beside them, with other
/// bodies.
fn at_windows(trace: &Parts, random: &mut Random) -> Parts {
    let mut other = trace.clone();
    let bytes: usize = trace.iter().map(Vec::len).sum();
    for end in (WINDOW..bytes).step_by(WINDOW) {
        for place in [end - 60, end - 1, end, end + 40] {
            let at = record_at(trace, place.min(bytes - 1));
            change_body_of(&mut other[at], random);
        }
    }
    other
}

/// What no other pair is sure to be: fewer bytes in more records, once behind
/// more than 1,000 differences; a vrate out of range; and differences across
/// the ends of windows.
fn laid_out(small: &Parts, random: &mut Random, all: &mut Vec<TracePair>) {
    for (count, kind) in [(1, PLAN), (2, VRATE), (4, TICK), (1_001, NODE)] {
        let mut behind = |kind: u8, count: usize| {
            let mut parts = small.clone();
            parts.extend((0..count).map(|_| record_of(kind, random)));
            parts.concat()
        };
        let (few, more) = (behind(MODEL, count), behind(kind, count + 1));
        let name = format!("{} models, and one more of kind {}", count, kind);
        both_ways(&name, &few, &more, all);
    }
    let [none, most] = [0, MAX_VRATE + 1].map(|vrate| {
        let [low, high] = vrate.to_le_bytes();
        vec![VRATE, low, high]
    });
    both_ways("vrates out of range", &none, &most, all);
    let tick = record_of(TICK, random);
    let mut trace = vec![PLAN; tick.len() / 2];
    for _ in 0..3 {
        trace.resize(trace.len() + WINDOW - tick.len(), PLAN);
        trace.extend(&tick);
    }
    let mut other = trace.clone();
    for end in 1..=3 {
        other[end * WINDOW] ^= 1;
    }
    both_ways("ticks across windows", &trace, &other, all);
}
