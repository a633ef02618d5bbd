//! The comparison of two traces: the example of its lines, and its laws over
//! generated pairs, held against the bytes and the records themselves.

use std::cell::Cell;
use std::io::{self, Read};

use crate::comparison::pairs::asked::{lent_lines, pair_lines};
use crate::comparison::pairs::told;
use crate::generator::pairs::pairs;
use crate::generator::random::Random;
use crate::pairs::answer::{Side, Verdict};
use crate::pairs::lent::lent;
use crate::pairs::passes::pair;
use crate::selftest::Checks;
use crate::text::assemble::assemble_whole;
use crate::trace::record::{decode, Record};

/// One generated pair in so many is looked at.
const STEP: usize = 4;

const WHOLE_CASE: &str = "node 0 100\nnode 0 300\n\
    model 409600000 50000 10000 204800000 25000 5000\nstart 0\n\
    bio 1 0 7 0 4096\ntick 100000\ntick 400000\nplan\n";

fn trace(text: &str) -> Vec<u8> {
    assemble_whole(text.as_bytes()).unwrap_or_default()
}

/// The whole case against itself with another id and without its plan, which
/// is the example of the lines; and what comes of such a pair.
pub fn examples(checks: &mut Checks) -> io::Result<()> {
    let whole = trace(WHOLE_CASE);
    let other = trace(&WHOLE_CASE.replace(" 7 ", " 8 ").replace("plan\n", ""));
    let lines = "differs 4 66 66 bio 1 0 7 0 4096 | bio 1 0 8 0 4096\n\
        ends second 7\nrest first 0\ndifferent\n";
    checks.equal("pair lines", &*pair_lines([&whole, &other], None)?, lines);
    let tail = "ends second 7\ndifferent\nrest 0\n";
    for (from, difference) in [
        (0, "4 4 4"),
        (4, "4 4 4"),
        (5, "none"),
        (7, "none"),
        (8, "none"),
        (u64::MAX, "none"),
    ] {
        let due = format!("difference {}\n{}", difference, tail);
        let lines = lent_lines([&whole, &other], from, None)?;
        checks.equal(&format!("lent lines from {}", from), lines, due);
    }
    let cut = &whole[..60];
    let error = "error first 17 57\n";
    checks.equal("cut pair", &*pair_lines([cut, &other], None)?, error);
    let error = "error first 17 57\nrest 0\n";
    checks.equal("cut lent", &*lent_lines([cut, &other], 9, None)?, error);
    for (name, traces, verdict) in [
        ("equal", [&whole[..], &whole[..]], Verdict::Equal),
        ("unequal", [&whole, &other], Verdict::Unequal),
        ("prefix", [&whole[..57], &whole], Verdict::Unequal),
        ("error", [&whole, cut], Verdict::Error),
    ] {
        let paired = pair(|side| Ok(*side.of(&traces)), &mut io::sink(), None)?;
        let asked = lent(traces, 5, &mut io::sink(), None)?;
        checks.equal(
            &format!("verdict of {}", name),
            (paired, asked),
            (verdict, verdict),
        );
    }
    Ok(())
}

/// The whole records of a trace with their places, and whether it has no error.
fn records(trace: &[u8]) -> (Vec<(u64, Record)>, bool) {
    let mut records = Vec::new();
    let mut place = 0;
    loop {
        match decode(trace, place) {
            Ok(Some((record, behind))) => {
                records.push((place as u64, record));
                place = behind;
            }
            end => return (records, end == Ok(None)),
        }
    }
}

/// A trace that is read in small pieces.
struct Pieces<'a> {
    left: &'a [u8],
    random: Random,
}

impl<'a> Pieces<'a> {
    fn new(trace: &'a [u8]) -> Pieces<'a> {
        Pieces {
            left: trace,
            random: Random::new(trace.len() as u64),
        }
    }
}

impl Read for Pieces<'_> {
    fn read(&mut self, buffer: &mut [u8]) -> io::Result<usize> {
        let most = self.random.between(1, 70) as usize;
        let most = most.min(buffer.len());
        self.left.read(&mut buffer[..most])
    }
}

/// The laws, each over one generated pair in a few.
pub fn laws(checks: &mut Checks) -> io::Result<()> {
    for (number, made) in pairs(7)?.iter().enumerate().step_by(STEP) {
        let traces = made.traces();
        let lines = pair_lines(traces, None)?;
        check_lines(checks, &made.name, traces, &lines);
        let count = told::count(&lines);
        let asked = Random::new(number as u64).below(count + 2);
        for from in [0, asked] {
            check_asked(checks, &made.name, traces, from)?;
        }
        let mut in_pieces = Vec::new();
        let open = |side: Side| Ok(Pieces::new(*side.of(&traces)));
        pair(open, &mut in_pieces, None)?;
        checks.equal(
            &format!("{}, in pieces", made.name),
            in_pieces == lines.as_bytes(),
            true,
        );
    }
    Ok(())
}

/// The lines of a pair against its bytes and its records.
fn check_lines(checks: &mut Checks, name: &str, traces: [&[u8]; 2], lines: &str) {
    let [first, second] = traces;
    let ((ones, sound), (others, other_sound)) = (records(first), records(second));
    let mut law = |law: &str, held: bool, due: bool| {
        checks.equal(&format!("{}, {}", name, law), held, due);
    };
    let sound = sound && other_sound;
    let is_prefix = first.starts_with(second) || second.starts_with(first);
    law("error", told::is_error(lines), !sound);
    law(
        "equal",
        lines.ends_with("\nequal\n"),
        sound && first == second,
    );
    law(
        "prefix",
        lines.ends_with("\nprefix\n"),
        sound && is_prefix && first != second,
    );
    let mut due = String::new();
    for (number, (one, other)) in ones.iter().zip(&others).enumerate() {
        if sound && one.1 != other.1 {
            due.push_str(&format!(
                "differs {} {} {} {} | {}\n",
                number, one.0, other.0, one.1, other.1
            ));
        }
    }
    let told: String = lines
        .split_inclusive('\n')
        .filter(|line| line.starts_with("differs "))
        .collect();
    law("differences", told == due, true);
}

/// The answer from a record number on against the bytes and the records.
fn check_asked(checks: &mut Checks, name: &str, traces: [&[u8]; 2], from: u64) -> io::Result<()> {
    let [first, second] = traces;
    let lines = lent_lines(traces, from, None)?;
    let ((ones, sound), (others, other_sound)) = (records(first), records(second));
    if !sound || !other_sound {
        let due = (true, true);
        let got = (told::is_error(&lines), lines.ends_with("\nrest 0\n"));
        checks.equal(&format!("{}, error from {}", name, from), got, due);
        return Ok(());
    }
    let found = lines.split_whitespace().nth(1).unwrap_or("");
    let found = found.parse::<u64>().ok();
    let same = |number: u64| ones[number as usize].1 == others[number as usize].1;
    let common = ones.len().min(others.len()) as u64;
    let until = found.unwrap_or(common);
    let before = (from.min(until)..until).all(same);
    let at = found.map_or(true, |number| number >= from && !same(number));
    checks.equal(
        &format!("{}, the first from {}", name, from),
        (before, at),
        (true, true),
    );
    let rest: String = lines.split_inclusive('\n').skip(4).collect();
    let (longer, shorter) = if first.len() > second.len() {
        (first, second)
    } else {
        (second, first)
    };
    let whole = if longer.starts_with(shorter) {
        [shorter, &trace(&rest)].concat() == longer
    } else {
        rest.is_empty()
    };
    checks.equal(&format!("{}, the rest from {}", name, from), whole, true);
    Ok(())
}

/// A trace that is another one in the second pass is noticed.
pub fn changed_meanwhile(checks: &mut Checks) {
    let whole = trace(WHOLE_CASE);
    let mut unknown = whole.clone();
    unknown[85] = 0;
    for (name, later) in [("cut", &whole[..50]), ("unknown", &unknown)] {
        let opened = Cell::new(0);
        let open = |_| {
            opened.set(opened.get() + 1);
            Ok(if opened.get() <= 2 { &whole[..] } else { later })
        };
        let failed = pair(open, &mut io::sink(), None).is_err();
        checks.equal(&format!("{} meanwhile", name), failed, true);
    }
}
