//! Moves that keep a load of one kind going: many leaves or few, with bios
//! that are issued at once, or with full queues. Good for measuring.

use crate::engine::cost::{FORCED, WRITE};
use crate::engine::leaf::{relative_cost, QUEUE_ROOM};
use crate::engine::numbers::{members, Relative};
use crate::engine::rules::Rules;
use crate::generator::moves::donation::{end_donation, make_donation};
use crate::generator::state::{Generator, Move};
use crate::trace::record::Record;

/// Two leaves that spend what they have; hardly a bio waits.
pub const FEW_MOVES: &[(u64, Move)] = &[(12, spend), (4, short_tick), (1, plan), (1, change_vrate)];

/// Many active leaves and empty queues; mostly the time goes on.
pub const IDLE_MOVES: &[(u64, Move)] = &[
    (200, short_tick),
    (30, spend),
    (4, wake_all),
    (4, change_vrate),
    (1, plan),
];

/// Many active leaves and nearly full queues; each tick releases a bio or a
/// few, and others take their places.
pub const FULL_MOVES: &[(u64, Move)] = &[
    (100, release_next),
    (40, refill_all),
    (8, overfill),
    (4, owe_a_little),
    (1, plan),
];

/// Many leaves at all levels: some busy, some idle, and donations between
/// them that come and go.
pub const DEEP_MOVES: &[(u64, Move)] = &[
    (30, spend),
    (20, refill_one),
    (60, release_next),
    (12, short_tick),
    (1, plan),
    (3, make_donation),
    (3, end_donation),
    (12, wake_all),
    (3, owe_a_little),
];

/// Some bios of one leaf, right behind each other, that are all issued.
fn spend(g: &mut Generator) {
    g.make_room();
    let leaves = g.controller().tree.leaves();
    let number = g.pick_of(leaves).unwrap_or(1);
    if !g.is_active(number) {
        let bio = g.cheap_bio(number, 0);
        g.submit(bio);
    }
    if !g.is_active(number) {
        return;
    }
    g.clear_leaf(number);
    let bytes = g.random.pick(&[512, 4_096, 4_096, 16_384, 65_536]);
    let flags = g.random.pick(&[0, 0, WRITE, FORCED]);
    let count = g.random.between(1, 8);
    for behind in 0..count {
        let mut bio = g.cheap_bio(number, flags);
        bio.bytes = bytes;
        let wanted = g.relative(number, &bio);
        if behind == 0 {
            g.grow_budget(number, Relative(wanted.0 * count), 0);
        }
        g.submit(bio);
    }
}

/// A bio for each leaf that sleeps, and the time that they take.
fn wake_all(g: &mut Generator) {
    let asleep = g.controller().tree.leaves() & !g.controller().active;
    for number in members(asleep) {
        let bio = g.cheap_bio(number, 0);
        g.submit(bio);
    }
    for number in members(asleep) {
        if g.is_active(number) {
            g.clear_leaf(number);
        }
    }
}

fn short_tick(g: &mut Generator) {
    g.make_room();
    let elapsed = g.random.spread(0, 1_000_000);
    g.tick(elapsed);
}

/// A tick just long enough for the next bio that waits anywhere.
pub fn release_next(g: &mut Generator) {
    g.make_room();
    let controller = g.controller();
    let missing = members(controller.active)
        .map(|number| &controller.leaves[number])
        .filter(|leaf| !leaf.owes())
        .filter_map(|leaf| {
            let oldest = leaf.queue.oldest()?;
            let wanted = relative_cost(oldest.cost, leaf.share, Rules::TRUE);
            Some(wanted.0.saturating_sub(leaf.budget.0))
        })
        .min();
    match missing {
        None => short_tick(g),
        Some(missing) => g.grow(missing),
    }
}

/// Unforced bios until eight wait at the leaf.
fn fill(g: &mut Generator, number: usize) {
    for _ in g.leaf(number).queue.len()..QUEUE_ROOM {
        let sector = g.any_sector(number);
        let bytes = g.random.pick(&[512, 4_096, 4_096, 16_384]);
        let flags = g.random.pick(&[0, 0, WRITE]);
        let bio = g.bio(number, flags, sector, bytes);
        g.submit(bio);
    }
}

fn refill_all(g: &mut Generator) {
    let leaves = g.controller().tree.leaves();
    for number in members(leaves) {
        fill(g, number);
    }
}

fn refill_one(g: &mut Generator) {
    let number = g.any_leaf();
    fill(g, number);
}

/// One bio more than a leaf has room for.
fn overfill(g: &mut Generator) {
    let number = g.any_leaf();
    fill(g, number);
    let bio = g.cheap_bio(number, 0);
    g.submit(bio);
}

fn owe_a_little(g: &mut Generator) {
    let number = g.any_leaf();
    let sector = g.far_sector(number);
    let bio = g.bio(number, FORCED | WRITE, sector, 65_536);
    g.submit(bio);
}

fn plan(g: &mut Generator) {
    g.put(Record::Plan);
}

fn change_vrate(g: &mut Generator) {
    let vrate = g.random.pick(&[50, 80, 100, 100, 125, 200]);
    g.put(Record::Vrate { vrate });
}
