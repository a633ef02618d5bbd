//! Generated traces: the same for a seed, and aimed by playing each record
//! on this program's own controller before the next one is chosen.

use std::io::{self, Write};

use crate::generator::damage::{damage, noise};
use crate::generator::faults::{bad_setup, bad_tree};
use crate::generator::moves::asks::{ask_early, ASK_MOVES};
use crate::generator::moves::clock::CLOCK_MOVES;
use crate::generator::moves::debt::climb_to_debt_limit;
use crate::generator::moves::flush::FLUSH_MOVES;
use crate::generator::moves::load::{DEEP_MOVES, FEW_MOVES, FULL_MOVES, IDLE_MOVES};
use crate::generator::moves::shares::SHARE_MOVES;
use crate::generator::moves::usual::{EDGE_MOVES, USUAL_MOVES};
use crate::generator::moves::weight::WEIGHT_MOVES;
use crate::generator::random::Random;
use crate::generator::setup::{asked_setup, dearest_setup, deep_setup};
use crate::generator::setup::{few_setup, good_setup, wide_setup};
use crate::generator::state::{Generator, Move};
use crate::generator::style::Style;
use crate::generator::woven::woven_setup;
use crate::trace::record::Record;

fn choose_setup(random: &mut Random, style: Style, climb: bool) -> Vec<Record> {
    match style {
        Style::Deep => deep_setup(random),
        Style::Few => few_setup(),
        Style::Idle | Style::Full => wide_setup(random),
        Style::Trees => bad_tree(random),
        Style::Shares => woven_setup(random),
        Style::Asks => asked_setup(random, climb),
        Style::Edges if climb => dearest_setup(random),
        Style::Edges if random.once_in(4) => bad_setup(random),
        Style::Short if random.once_in(2) => bad_setup(random),
        _ => good_setup(random),
    }
}

/// The moves of one step.
fn moves_of(style: Style, random: &mut Random) -> &'static [(u64, Move)] {
    let edges_once_in = match style {
        Style::Deep => return DEEP_MOVES,
        Style::Few => return FEW_MOVES,
        Style::Idle => return IDLE_MOVES,
        Style::Full => return FULL_MOVES,
        Style::Clock if !random.once_in(4) => return CLOCK_MOVES,
        Style::Flushes if !random.once_in(4) => return FLUSH_MOVES,
        Style::Shares if !random.once_in(8) => return SHARE_MOVES,
        Style::Asks if !random.once_in(4) => return ASK_MOVES,
        Style::Short | Style::Trees => 5,
        Style::Long | Style::Valid | Style::Weights => 16,
        Style::Clock | Style::Flushes | Style::Shares | Style::Asks => 16,
        Style::Damaged | Style::Noise => 10,
        Style::Edges => 2,
    };
    // `long` is measured, and so stays as it is.
    let measured = style == Style::Long;
    if !measured && random.once_in(8) {
        WEIGHT_MOVES
    } else if !measured && random.once_in(8) {
        FLUSH_MOVES
    } else if random.once_in(edges_once_in) {
        EDGE_MOVES
    } else {
        USUAL_MOVES
    }
}

fn step(generator: &mut Generator, style: Style) {
    let moves = moves_of(style, &mut generator.random);
    let total = moves.iter().map(|(weight, _)| weight).sum();
    let mut chosen = generator.random.below(total);
    for (weight, make) in moves {
        if chosen < *weight {
            make(generator);
            return;
        }
        chosen -= weight;
    }
}

fn generate_whole(seed: u64, records: u64, style: Style, out: &mut impl Write) -> io::Result<()> {
    let mut generator = Generator::new(seed, style);
    let climb = match style {
        Style::Edges => generator.random.once_in(6),
        Style::Asks => generator.random.once_in(4),
        _ => false,
    };
    let setup = choose_setup(&mut generator.random, style, climb);
    generator.set_up(&setup);
    generator.left = records;
    if climb {
        climb_to_debt_limit(&mut generator);
    }
    if style == Style::Asks && generator.runs() {
        ask_early(&mut generator);
    }
    while generator.runs() && generator.left > 0 {
        step(&mut generator, style);
        generator.hand_on(out)?;
    }
    if generator.stopped() {
        generator.add_stray();
    }
    generator.hand_on(out)
}

/// Writes the trace of a seed.
pub fn generate(seed: u64, records: u64, style: Style, out: &mut impl Write) -> io::Result<()> {
    match style {
        Style::Damaged => {
            let mut trace = Vec::new();
            generate_whole(seed, records, style, &mut trace)?;
            damage(&mut trace, &mut Random::new(!seed));
            out.write_all(&trace)?;
        }
        Style::Noise => {
            // A record takes at least a byte, so there are enough of them.
            let mut trace = Vec::new();
            generate_whole(seed, records, style, &mut trace)?;
            trace.truncate(records as usize);
            noise(&mut trace, &mut Random::new(!seed));
            out.write_all(&trace)?;
        }
        _ => generate_whole(seed, records, style, out)?,
    }
    out.flush()
}
