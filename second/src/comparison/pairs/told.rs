//! What the lines of a comparison of two traces say of other comparisons: of
//! the same traces the other way round, and of the same traces in memory.

use crate::trace::record::{BIO, MODEL, NODE, PLAN, START, TICK, VRATE, WEIGHT};

/// A line that tells of a difference: its record's number, both places, and
/// both records.
struct Differs<'a> {
    number: &'a str,
    places: [&'a str; 2],
    records: [&'a str; 2],
}

impl<'a> Differs<'a> {
    fn read(line: &'a str) -> Option<Differs<'a>> {
        let mut words = line.strip_prefix("differs ")?.splitn(4, ' ');
        let number = words.next()?;
        let places = [words.next()?, words.next()?];
        let (one, other) = words.next()?.split_once(" | ")?;
        Some(Differs {
            number,
            places,
            records: [one, other],
        })
    }

    fn number(&self) -> u64 {
        self.number.parse().unwrap_or(0)
    }
}

/// The numbers of the records that differ.
pub fn differences(lines: &str) -> Vec<u64> {
    let read = lines.lines().filter_map(Differs::read);
    read.map(|differs| differs.number()).collect()
}

/// The count behind `ends`; 0 of a trace with an error.
pub fn count(lines: &str) -> u64 {
    let ends = lines.lines().find(|line| line.starts_with("ends "));
    let count = ends.and_then(|line| line.rsplit(' ').next());
    count.and_then(|count| count.parse().ok()).unwrap_or(0)
}

pub fn is_error(lines: &str) -> bool {
    lines.starts_with("error ")
}

fn other_side(word: &str) -> &str {
    match word {
        "first" => "second",
        "second" => "first",
        neither => neither,
    }
}

/// The lines with the sides swapped. An empty rest stays the first's.
pub fn mirrored(lines: &str) -> String {
    let mut mirrored = String::new();
    for line in lines.lines() {
        let words: Vec<&str> = line.split(' ').collect();
        let swapped = match (Differs::read(line), words.as_slice()) {
            (Some(differs), _) => format!(
                "differs {} {} {} {} | {}",
                differs.number,
                differs.places[1],
                differs.places[0],
                differs.records[1],
                differs.records[0]
            ),
            (None, ["rest", _, "0"]) => line.to_string(),
            (None, [word @ ("ends" | "rest" | "error"), side, rest @ ..]) => {
                format!("{} {} {}", word, other_side(side), rest.join(" "))
            }
            _ => line.to_string(),
        };
        mirrored.push_str(&swapped);
        mirrored.push('\n');
    }
    mirrored
}

/// The kind byte of a record by its name.
fn kind(record: &str) -> u8 {
    match record.split(' ').next() {
        Some("node") => NODE,
        Some("model") => MODEL,
        Some("start") => START,
        Some("bio") => BIO,
        Some("tick") => TICK,
        Some("plan") => PLAN,
        Some("vrate") => VRATE,
        Some("weight") => WEIGHT,
        _ => 0,
    }
}

/// The lines that a comparison in memory must begin with, asked from a record
/// number on: all but the records of its rest.
pub fn asked_from(lines: &str, from: u64) -> String {
    if is_error(lines) {
        return format!("{}rest 0\n", lines);
    }
    let mut differing = lines.lines().filter_map(Differs::read);
    let difference = match differing.find(|differs| differs.number() >= from) {
        None => "none".to_string(),
        Some(differs) => {
            let [one, other] = differs.records;
            format!("{} {} {}", differs.number, kind(one), kind(other))
        }
    };
    let mut last = lines.lines().rev();
    let likeness = last.next().unwrap_or("");
    let rest = last.next().and_then(|line| line.rsplit(' ').next());
    let ends = last.next().unwrap_or("");
    format!(
        "difference {}\n{}\n{}\nrest {}\n",
        difference,
        ends,
        likeness,
        rest.unwrap_or("")
    )
}
