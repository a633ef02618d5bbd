//! What the traces for measuring do: nothing but what their kind says, on the
//! trees that their shape says.

use std::io;

use super::Checks;
use crate::engine::controller::{Answer, Controller};
use crate::engine::numbers::members;
use crate::engine::rules::Rules;
use crate::generator::growth::{growth, Kind};
use crate::generator::shape::Shape;
use crate::trace::replay::{replay, Outcome, Replay};
use crate::trace::stream::Reader;

/// Leaves and levels.
const SHAPES: &[(u64, u64)] = &[
    (1, 1),
    (63, 1),
    (2, 2),
    (62, 2),
    (5, 3),
    (28, 4),
    (1, 8),
    (9, 8),
    (56, 8),
];

pub fn traces(checks: &mut Checks) -> io::Result<()> {
    for &(leaves, levels) in SHAPES {
        let name = format!("{} leaves on {} levels", leaves, levels);
        match Shape::new(leaves, levels) {
            Ok(shape) => {
                tree(checks, &name, shape)?;
                for kind in Kind::ALL {
                    lines(checks, &name, *kind, shape)?;
                }
                activations(checks, &name, shape)?;
            }
            Err(said) => checks.equal(&name, said, String::new()),
        }
    }
    for (leaves, levels, wanted) in [
        (0, 1, "there are 1 to 63 leaves"),
        (64, 1, "there are 1 to 63 leaves"),
        (0, 8, "there are 1 to 56 leaves on 8 levels"),
        (57, 8, "there are 1 to 56 leaves on 8 levels"),
        (1, 0, "there are 1 to 8 levels"),
        (1, 9, "there are 1 to 8 levels"),
    ] {
        let said = Shape::new(leaves, levels).map(|_| ());
        checks.equal(wanted, said, Err(wanted.to_string()));
    }
    Ok(())
}

fn trace_of(kind: Kind, shape: Shape, rounds: u64) -> io::Result<Vec<u8>> {
    let mut trace = Vec::new();
    growth(kind, shape, rounds, &mut trace)?;
    Ok(trace)
}

/// What each record of a trace leads to, and the controller behind it.
fn played(trace: &[u8], mut see: impl FnMut(Outcome, &Controller)) {
    let mut reader = Reader::new(trace);
    let mut replay = Replay::new(Rules::TRUE);
    while let (false, Ok(Some(record))) = (replay.stopped(), reader.next()) {
        let outcome = replay.take(Ok(record));
        if let Some(controller) = replay.controller() {
            see(outcome, controller);
        }
    }
}

/// There are so many leaves, all behind the chain, and each at its level: the
/// deepest one first, then a level less each time, and again.
fn tree(checks: &mut Checks, name: &str, shape: Shape) -> io::Result<()> {
    let mut found = None;
    played(&trace_of(Kind::Rests, shape, 0)?, |_, controller| {
        let tree = &controller.tree;
        let levels: Vec<u8> = members(tree.leaves())
            .map(|leaf| tree.level(leaf))
            .collect();
        found = Some((tree.count() as u64, levels));
    });
    let levels = (0..shape.leaves).map(|k| (shape.levels - k % shape.levels) as u8);
    let wanted = (shape.leaves + shape.levels, levels.collect());
    checks.equal(name, found, Some(wanted));
    Ok(())
}

/// A trace prints what its records are said to do, and no more: a line for
/// each bio, none for a tick, one for each leaf at a plan; and three for each
/// leaf that is activated, since its bio waits, is released and planned once.
fn lines(checks: &mut Checks, name: &str, kind: Kind, shape: Shape) -> io::Result<()> {
    const ROUNDS: u64 = 200;
    let lines_of = |rounds: u64| -> io::Result<String> {
        let mut lines = Vec::new();
        replay(
            trace_of(kind, shape, rounds)?.as_slice(),
            &mut lines,
            Rules::TRUE,
        )?;
        Ok(String::from_utf8_lossy(&lines).into_owned())
    };
    let all = lines_of(ROUNDS)?;
    let behind = all.strip_prefix(&lines_of(0)?).unwrap_or("R");
    let of_leaves = ROUNDS * shape.leaves;
    let due: &[(&str, u64)] = match kind {
        Kind::Bios => &[("I", ROUNDS)],
        Kind::Plans => &[("P", of_leaves)],
        Kind::Activations => &[("W", of_leaves), ("r", of_leaves), ("P", of_leaves)],
        Kind::Ticks | Kind::Between | Kind::Rests => &[],
    };
    for (letter, count) in due {
        let fitting = behind.lines().filter(|line| line.starts_with(letter));
        let name = format!("{} {} on {}", letter, kind.name(), name);
        checks.equal(&name, fitting.count() as u64, *count);
    }
    let all_due = due.iter().map(|(_, count)| count).sum();
    let name = format!("{} on {}", kind.name(), name);
    checks.equal(&name, behind.lines().count() as u64, all_due);
    Ok(())
}

/// Every bio activates its leaf, a round's first plan finds all leaves active
/// and its second one leaves none. So each round begins as the first one did.
fn activations(checks: &mut Checks, name: &str, shape: Shape) -> io::Result<()> {
    const ROUNDS: u64 = 20;
    let (mut activated, mut all_met, mut none_left) = (0, 0, 0);
    let mut before = 0;
    let trace = trace_of(Kind::Activations, shape, ROUNDS)?;
    played(&trace, |outcome, controller| {
        let newly = controller.active & !before;
        match outcome {
            Outcome::Answered(Answer::Waits, id) => activated += u64::from(newly == 1 << id),
            Outcome::Planned if controller.active == 0 => none_left += 1,
            Outcome::Planned => all_met += u64::from(before == controller.tree.leaves()),
            _ => {}
        }
        before = controller.active;
    });
    let found = (activated, all_met, none_left, before);
    checks.equal(name, found, (ROUNDS * shape.leaves, ROUNDS, ROUNDS, 0));
    Ok(())
}
