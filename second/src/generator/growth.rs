//! Traces for measuring how the time of a record grows with the active leaves
//! and with the tree's levels: records of one kind, the same for each leaf.

use std::io::{self, Write};

use crate::engine::clock::MAX_ELAPSED;
use crate::engine::cost::{Bio, Rates, MAX_BPS, MAX_BYTES, MAX_IOPS};
use crate::generator::setup::{same_rates, BENCH};
use crate::generator::shape::Shape;
use crate::trace::record::{encode, Record, LONGEST};

named_list! {
    /// What the measured records are.
    Kind {
        Bios = "bios",
        Ticks = "ticks",
        Plans = "plans",
        Between = "between",
        Activations = "activations",
        Rests = "rests",
    }
}

impl Kind {
    pub fn named(name: &str) -> Option<Kind> {
        Kind::ALL.iter().copied().find(|kind| kind.name() == name)
    }
}

/// Long enough for the first bio of each leaf to be released, whatever the
/// tree, and short enough for every round to end before the clock does.
const REST: u64 = 100_000;

/// Writes a trace of `rounds` rounds behind its setup. All leaves of the shape
/// are active, but where activations are measured.
pub fn growth(kind: Kind, shape: Shape, rounds: u64, out: &mut impl Write) -> io::Result<()> {
    match kind {
        Kind::Bios | Kind::Ticks => set_up_rich(shape, out)?,
        Kind::Plans | Kind::Between => set_up_waiting(shape, out)?,
        Kind::Activations | Kind::Rests => put_all(&shape.setup(fastest()), out)?,
    }
    for round in 0..rounds {
        match kind {
            Kind::Bios => put(&Record::Bio(small_bio(shape.in_turn(round), round)), out)?,
            Kind::Ticks => put(&tick(MAX_ELAPSED + 100 * (round + 1)), out)?,
            // A plan right behind a plan is refused.
            Kind::Plans => {
                put(&tick(round + 1), out)?;
                put(&Record::Plan, out)?;
            }
            Kind::Between => put(&tick(round + 1), out)?,
            Kind::Activations => {
                put_small_bios(shape, out)?;
                put_rest(round, out)?;
            }
            Kind::Rests => put_rest(round, out)?,
        }
    }
    out.flush()
}

/// Each leaf has had a bio released and saved as much as it may. On the
/// fastest device that lasts for some ten million bios.
fn set_up_rich(shape: Shape, out: &mut impl Write) -> io::Result<()> {
    put_all(&shape.setup(fastest()), out)?;
    put_small_bios(shape, out)?;
    put(&tick(MAX_ELAPSED), out)
}

/// Each leaf has a dear bio waiting, which keeps it active, and which no
/// million of the shortest ticks releases.
fn set_up_waiting(shape: Shape, out: &mut impl Write) -> io::Result<()> {
    put_all(&shape.setup(BENCH), out)?;
    for leaf in shape.numbers() {
        let mut bio = small_bio(leaf, leaf);
        bio.bytes = MAX_BYTES;
        put(&Record::Bio(bio), out)?;
    }
    Ok(())
}

/// The first plan finds each leaf with a released bio and keeps it active,
/// the second one finds it with none.
fn put_rest(round: u64, out: &mut impl Write) -> io::Result<()> {
    for half in 1..=2 {
        put(&tick(REST * (2 * round + half)), out)?;
        put(&Record::Plan, out)?;
    }
    Ok(())
}

fn put_small_bios(shape: Shape, out: &mut impl Write) -> io::Result<()> {
    for leaf in shape.numbers() {
        put(&Record::Bio(small_bio(leaf, leaf)), out)?;
    }
    Ok(())
}

fn fastest() -> Rates {
    same_rates(MAX_BPS, MAX_IOPS)
}

fn small_bio(leaf: u64, id: u64) -> Bio {
    Bio {
        node: leaf as u8,
        flags: 0,
        id: id as u32,
        sector: id,
        bytes: 4_096,
    }
}

fn tick(time: u64) -> Record {
    Record::Tick { time }
}

fn put_all(records: &[Record], out: &mut impl Write) -> io::Result<()> {
    for record in records {
        put(record, out)?;
    }
    Ok(())
}

fn put(record: &Record, out: &mut impl Write) -> io::Result<()> {
    let mut buffer = [0; LONGEST];
    match encode(record, &mut buffer) {
        Ok(length) => out.write_all(&buffer[..length]),
        Err(_) => Ok(()),
    }
}
