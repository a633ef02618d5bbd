//! One line of text and the bytes that it stands for.

use std::str::SplitWhitespace;

use crate::engine::cost::{Bio, Rates};
use crate::trace::record::{encode, Record, LONGEST};

/// So many characters of a bad word are said.
const SAID: usize = 40;

/// The most numbers of a record: those of a model.
const MOST_NUMBERS: usize = 6;

/// Adds the bytes that one line stands for.
pub fn add_line(line: &str, trace: &mut Vec<u8>) -> Result<(), String> {
    let plain = line.split('#').next().unwrap_or("");
    let mut words = plain.split_whitespace();
    match words.next() {
        None => Ok(()),
        Some("raw") => add_raw(words, trace),
        Some(name) => {
            let record = parse_record(name, words)?;
            let mut buffer = [0; LONGEST];
            let length = encode(&record, &mut buffer)
                .map_err(|refusal| format!("the writer refuses it, {}", refusal.number()))?;
            trace.extend_from_slice(&buffer[..length]);
            Ok(())
        }
    }
}

/// What is said of a word: all of it, or the beginning of a long one.
fn shortened(word: &str) -> String {
    match word.char_indices().nth(SAID) {
        None => word.to_string(),
        Some((place, _)) => format!("{}..", &word[..place]),
    }
}

fn add_raw(words: SplitWhitespace, trace: &mut Vec<u8>) -> Result<(), String> {
    if words.clone().next().is_none() {
        return Err("too few words: raw takes pairs of hex digits".to_string());
    }
    for word in words {
        if let Some(other) = word.chars().find(|digit| !digit.is_ascii_hexdigit()) {
            return Err(format!("'{}' is no hex digit", other));
        }
        if word.len() % 2 != 0 {
            return Err(format!(
                "raw takes pairs of hex digits, and '{}' is odd",
                shortened(word)
            ));
        }
        let value = |digit: u8| char::from(digit).to_digit(16).unwrap_or(0) as u8;
        let pairs = word.as_bytes().chunks(2);
        trace.extend(pairs.map(|pair| value(pair[0]) << 4 | value(pair[1])));
    }
    Ok(())
}

/// A number of a record: its name, and the most its place can hold.
type Field = (&'static str, u64);

const BYTE: u64 = u8::MAX as u64;
const BYTES_2: u64 = u16::MAX as u64;
const BYTES_4: u64 = u32::MAX as u64;
const BYTES_8: u64 = u64::MAX;

/// The numbers behind a record's name, in the record's order.
fn fields(name: &str) -> Option<&'static [Field]> {
    match name {
        "node" => Some(&[("parent", BYTE), ("weight", BYTES_2)]),
        "model" => Some(&[
            ("rbps", BYTES_8),
            ("rseqiops", BYTES_8),
            ("rrandiops", BYTES_8),
            ("wbps", BYTES_8),
            ("wseqiops", BYTES_8),
            ("wrandiops", BYTES_8),
        ]),
        "start" | "tick" => Some(&[("time", BYTES_8)]),
        "bio" => Some(&[
            ("node", BYTE),
            ("flags", BYTE),
            ("id", BYTES_4),
            ("sector", BYTES_8),
            ("bytes", BYTES_4),
        ]),
        "plan" => Some(&[]),
        "vrate" => Some(&[("vrate", BYTES_2)]),
        "weight" => Some(&[("node", BYTE), ("weight", BYTES_2)]),
        _ => None,
    }
}

/// Says what a record takes and what it was given.
fn wrong_count(name: &str, fields: &[Field], given: usize) -> String {
    let names: Vec<&str> = fields.iter().map(|(name, _)| *name).collect();
    let takes = match names.len() {
        0 => format!("{} takes none", name),
        count => format!("{} takes {} ({})", name, count, names.join(" ")),
    };
    let fault = if given < fields.len() { "few" } else { "many" };
    format!("too {} numbers: {}, here are {}", fault, takes, given)
}

/// A number as listed: digits only, and no wider than its place.
fn parse_number(word: &str, (name, most): Field) -> Result<u64, String> {
    if !word.bytes().all(|byte| byte.is_ascii_digit()) {
        return Err(format!("{}: '{}' is not a number", name, shortened(word)));
    }
    match word.parse::<u64>() {
        Ok(value) if value <= most => Ok(value),
        _ => {
            let word = shortened(word);
            Err(format!("{}: {} is too large, at most {}", name, word, most))
        }
    }
}

fn parse_record(name: &str, words: SplitWhitespace) -> Result<Record, String> {
    let fields = fields(name).ok_or_else(|| {
        let known = "node, model, start, bio, tick, plan, vrate, weight or raw";
        format!(
            "unknown word '{}': a line begins with {}",
            shortened(name),
            known
        )
    })?;
    let given = words.clone().count();
    if given != fields.len() {
        return Err(wrong_count(name, fields, given));
    }
    let mut numbers = [0; MOST_NUMBERS];
    for ((word, field), number) in words.zip(fields).zip(&mut numbers) {
        *number = parse_number(word, *field)?;
    }
    // Each number was held to the width it is now cut to.
    Ok(match (name, &numbers[..given]) {
        ("node", &[parent, weight]) => Record::Node {
            parent: parent as u8,
            weight: weight as u16,
        },
        ("model", &[rbps, rseqiops, rrandiops, wbps, wseqiops, wrandiops]) => {
            Record::Model(Rates {
                rbps,
                rseqiops,
                rrandiops,
                wbps,
                wseqiops,
                wrandiops,
            })
        }
        ("start", &[time]) => Record::Start { time },
        ("bio", &[node, flags, id, sector, bytes]) => Record::Bio(Bio {
            node: node as u8,
            flags: flags as u8,
            id: id as u32,
            sector,
            bytes: bytes as u32,
        }),
        ("tick", &[time]) => Record::Tick { time },
        ("vrate", &[vrate]) => Record::Vrate {
            vrate: vrate as u16,
        },
        ("weight", &[node, weight]) => Record::Weight {
            node: node as u8,
            weight: weight as u16,
        },
        _ => Record::Plan,
    })
}
