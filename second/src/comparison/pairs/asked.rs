//! What is asked of a pair of traces and due: its lines, and those in memory
//! from some record numbers on.

use std::io;

use crate::comparison::pairs::stored::StoredPair;
use crate::comparison::pairs::told;
use crate::generator::pairs::TracePair;
use crate::generator::random::Random;
use crate::pairs::answer::Side;
use crate::pairs::changes::Lie;
use crate::pairs::lent::lent;
use crate::pairs::passes::pair;

/// Traces up to this length are lent to a program as a whole.
const MOST_LENT: usize = 1 << 16;

/// A pair with the lines that are due, also from some record numbers on.
pub struct Due<'a> {
    pub name: String,
    pub traces: [&'a [u8]; 2],
    pub lines: String,
    pub lent: Vec<(u64, String)>,
}

impl<'a> Due<'a> {
    /// A stored pair, whose lines were worked out by hand.
    pub fn stored(pair: &'a StoredPair) -> Due<'a> {
        Due {
            name: format!("pair {}", pair.name),
            traces: pair.traces(),
            lines: pair.lines.clone(),
            lent: pair.lent.clone(),
        }
    }

    /// A generated pair, by its number, with what this program says of it.
    pub fn made(pair: &'a TracePair, number: usize) -> io::Result<Due<'a>> {
        let traces = pair.traces();
        let lines = pair_lines(traces, None)?;
        let mut lent = Vec::new();
        for from in numbers(traces, &lines, number as u64) {
            lent.push((from, lent_lines(traces, from, None)?));
        }
        Ok(Due {
            name: pair.name.clone(),
            traces,
            lines,
            lent,
        })
    }
}

/// The lines of a pair by the streaming way.
pub fn pair_lines(traces: [&[u8]; 2], lie: Lie) -> io::Result<String> {
    let mut lines = Vec::new();
    pair(|side: Side| Ok(*side.of(&traces)), &mut lines, lie)?;
    Ok(String::from_utf8_lossy(&lines).into_owned())
}

/// The lines of a pair by the way in memory.
pub fn lent_lines(traces: [&[u8]; 2], from: u64, lie: Lie) -> io::Result<String> {
    let mut lines = Vec::new();
    lent(traces, from, &mut lines, lie)?;
    Ok(String::from_utf8_lossy(&lines).into_owned())
}

/// The record numbers to ask a pair with, by what its lines say: 0, the first
/// difference and the one behind it, the count of the shorter, and now and then
/// any other. None if the traces are too long to be lent.
fn numbers(traces: [&[u8]; 2], lines: &str, seed: u64) -> Vec<u64> {
    if traces.iter().any(|trace| trace.len() > MOST_LENT) {
        return Vec::new();
    }
    let mut random = Random::new(seed);
    let mut numbers = vec![0];
    let count = told::count(lines);
    let differences = told::differences(lines);
    if let (Some(first), Some(last)) = (differences.first(), differences.last()) {
        numbers.extend([*first, first + 1]);
        if random.once_in(3) {
            numbers.push(last + 1);
        }
    }
    if !told::is_error(lines) {
        numbers.push(count);
    }
    if random.once_in(3) {
        numbers.push(random.below(count + 2));
    }
    if random.once_in(8) {
        numbers.push(random.pick(&[u64::MAX, u64::MAX, 1 << 63, 1 << 32]));
    }
    numbers.sort_unstable();
    numbers.dedup();
    numbers
}
