//! The moves of a generated trace, usual ones and those at an edge.

use crate::engine::clock::{MAX_ELAPSED, MAX_PERIOD, MAX_VRATE};
use crate::engine::cost::{FORCED, MAX_BYTES, MAX_SECTOR, NEAR_SECTORS, WRITE};
use crate::engine::leaf::{relative_cost, IDLE_CAP, QUEUE_ROOM};
use crate::engine::numbers::Relative;
use crate::engine::rules::Rules;
use crate::generator::moves::debt::*;
use crate::generator::moves::donation::*;
use crate::generator::setup::BENCH;
use crate::generator::state::{Generator, Move};
use crate::trace::record::Record;

/// Moves and how often they are chosen.
pub const USUAL_MOVES: &[(u64, Move)] = &[
    (24, usual_bio),
    (12, usual_tick),
    (4, plan),
    (2, set_vrate),
    (5, bio_near_end),
    (5, bio_at_budget),
    (6, release_at_budget),
    (5, drain_leaf),
    (4, repay_at_budget),
    (2, fill_queue),
    (4, pass_waiters),
    (3, hold_cheaper),
    (4, owe),
    (2, owe_before_bios),
    (2, reach_idle_cap),
    (2, save_for_dear_bio),
    (4, make_donation),
    (5, end_donation),
    (2, give_to_waking_leaf),
    (2, fall_silent),
    (3, wake_leaf),
    (2, use_half),
    (2, spend_savings),
    (2, owe_one),
];

pub const EDGE_MOVES: &[(u64, Move)] = &[
    (6, bad_node),
    (8, bad_bio),
    (4, refused_then_near),
    (3, time_edge),
    (3, vrate_edge),
    (2, reach_period_limit),
    (3, plan_twice),
    (2, fill_queue),
    (4, bio_at_budget),
    (4, release_at_budget),
    (4, bio_near_end),
    (2, reach_idle_cap),
    (2, save_for_dear_bio),
    (2, bad_and_full),
    (4, late_setup_record),
];

fn usual_bio(g: &mut Generator) {
    let number = g.any_leaf();
    for _ in 0..g.random.between(1, 3) {
        let bio = g.any_bio(number);
        g.submit(bio);
    }
}

fn usual_tick(g: &mut Generator) {
    let most = g.random.pick(&[1_000, 1_000_000, 10_000_000, 100_000_000]);
    let elapsed = match g.random.below(10) {
        0 => 0,
        1 => 1,
        _ => g.random.spread(0, most),
    };
    g.tick(elapsed);
}

fn plan(g: &mut Generator) {
    g.put(Record::Plan);
}

fn set_vrate(g: &mut Generator) {
    let any = g.random.between(1, u64::from(MAX_VRATE)) as u16;
    let vrate = g.random.pick(&[1, 50, 100, 100, 133, 150, MAX_VRATE, any]);
    g.put(Record::Vrate { vrate });
}

/// A bio just within or just out of reach of the last one's end.
fn bio_near_end(g: &mut Generator) {
    let number = g.any_leaf();
    let end = g.leaf(number).end.unwrap_or(0);
    let distance = NEAR_SECTORS + g.random.below(2);
    let ahead = end.saturating_add(distance);
    let sector = match end.checked_sub(distance) {
        Some(behind) if ahead > MAX_SECTOR || g.random.once_in(2) => behind,
        _ => ahead,
    };
    let flags = g.any_flags();
    let bytes = g.any_bytes();
    let bio = g.bio(number, flags, sector, bytes);
    g.submit(bio);
}

/// A bio whose relative cost is the budget, or one more.
fn bio_at_budget(g: &mut Generator) {
    g.make_room();
    if let Some(number) = g.pick_active(|leaf| leaf.is_clear()) {
        let bio = g.any_bio(number);
        let wanted = g.relative(number, &bio);
        if wanted <= IDLE_CAP {
            let short = g.random.below(2);
            g.grow_budget(number, wanted, short);
        }
        g.submit(bio);
    }
}

/// A tick at which the oldest waiter just fits, or just does not.
fn release_at_budget(g: &mut Generator) {
    g.make_room();
    let number = match g.pick_active(|leaf| !leaf.owes() && !leaf.queue.is_empty()) {
        None => return usual_bio(g),
        Some(number) => number,
    };
    let share = g.leaf(number).share;
    if let Some(oldest) = g.leaf(number).queue.oldest() {
        let short = g.random.below(2);
        g.grow_budget(
            number,
            relative_cost(oldest.cost, share, Rules::TRUE),
            short,
        );
    }
}

/// Ticks until a leaf with waiters has none, so that queues do not stay full.
fn drain_leaf(g: &mut Generator) {
    g.make_room();
    if let Some(number) = g.pick_active(|leaf| !leaf.queue.is_empty()) {
        g.clear_leaf(number);
    }
}

/// Unforced bios until one more is refused.
fn fill_queue(g: &mut Generator) {
    let number = g.any_leaf();
    for _ in g.leaf(number).queue.len()..=QUEUE_ROOM {
        let sector = g.any_sector(number);
        let bytes = g.any_bytes();
        let flags = g.random.pick(&[0, WRITE]);
        let bio = g.bio(number, flags, sector, bytes);
        g.submit(bio);
    }
}

/// A dear waiter, then a forced and an unforced bio that would fit.
fn pass_waiters(g: &mut Generator) {
    let number = match g.stand_waiter() {
        None => return usual_bio(g),
        Some(number) => number,
    };
    let forced = g.cheap_bio(number, FORCED);
    let wanted = g.relative(number, &forced);
    g.grow_budget(number, Relative(2 * wanted.0), 0);
    if g.random.once_in(2) {
        let unforced = g.cheap_bio(number, 0);
        g.submit(unforced);
    }
    g.submit(forced);
}

/// Cheap bios behind a dear one, and ticks that free none or some of them.
fn hold_cheaper(g: &mut Generator) {
    g.make_room();
    let number = g.any_leaf();
    let dear = g.dear_bio(number, 0);
    g.submit(dear);
    for _ in 0..g.random.between(1, 3) {
        let cheap = g.cheap_bio(number, 0);
        g.submit(cheap);
    }
    if g.is_active(number) {
        let wanted = g.relative(number, &dear);
        let part = g.random.pick(&[2, 1, 1]);
        let more = g.random.below(100_000);
        g.grow_budget(number, Relative(wanted.0 / part + more), 0);
    }
}

/// An idle leaf whose budget just reaches the cap, or just passes it.
fn reach_idle_cap(g: &mut Generator) {
    g.make_room();
    if let Some(number) = g.pick_active(|leaf| leaf.is_clear()) {
        let more = g.random.below(2);
        g.grow_budget(number, Relative(IDLE_CAP.0 + more), 0);
        // All of it spent shows how much there was.
        let bio = g.dear_bio(number, FORCED);
        g.submit(bio);
    }
}

/// A waiting bio that needs more than an idle leaf may save.
fn save_for_dear_bio(g: &mut Generator) {
    g.make_room();
    let number = g.any_leaf();
    let dear = g.dear_bio(number, WRITE);
    g.submit(dear);
    if g.is_active(number) {
        let wanted = g.relative(number, &dear);
        if wanted > IDLE_CAP {
            g.grow_budget(number, Relative(IDLE_CAP.0 + 1), 0);
            g.clear_leaf(number);
        }
    }
}

/// Two plans with time but few bios between, so that leaves go inactive.
pub fn fall_silent(g: &mut Generator) {
    for _ in 0..2 {
        let elapsed = g.random.between(1, 10_000_000);
        g.tick(elapsed);
        g.put(Record::Plan);
    }
}

/// A leaf that went inactive goes on where it was.
fn wake_leaf(g: &mut Generator) {
    if let Some(number) = g.pick_inactive() {
        let flags = g.any_flags();
        let bio = g.cheap_bio(number, flags);
        g.submit(bio);
    }
}

/// Saved budget spent in a short period.
fn spend_savings(g: &mut Generator) {
    if let Some(number) = g.pick_active(|leaf| leaf.is_clear()) {
        g.tick(10_000_000);
        g.put(Record::Plan);
        for _ in 0..g.random.between(1, 6) {
            let flags = g.any_flags();
            let bio = g.cheap_bio(number, flags);
            g.submit(bio);
        }
        let elapsed = g.random.between(1, 1_000);
        g.tick(elapsed);
        g.put(Record::Plan);
    }
}

/// A bio on the root, an inner node or no node at all.
fn bad_node(g: &mut Generator) {
    let number = g.any_leaf();
    let mut bio = g.any_bio(number);
    let count = g.controller().tree.count() as u64;
    let inner = g.random.below(count);
    let absent = g.random.between(count, 255);
    bio.node = g.random.pick(&[0, 63, 64, 65, 255, inner, absent]) as u8;
    if g.random.once_in(3) {
        bio.bytes = 0;
    }
    g.submit(bio);
}

fn bad_bio(g: &mut Generator) {
    let number = g.any_leaf();
    let mut bio = g.any_bio(number);
    match g.random.below(7) {
        0 => bio.bytes = 0,
        1 => bio.bytes = g.random.pick(&[1, 511, 513, 4_095, MAX_BYTES - 1]),
        2 => bio.bytes = g.random.pick(&[MAX_BYTES + 512, u32::MAX - 511]),
        3 => bio.sector = MAX_SECTOR + 1,
        4 => bio.sector = u64::MAX,
        5 => bio.flags |= 4,
        _ => bio.flags = g.random.between(4, 255) as u8,
    }
    g.submit(bio);
}

/// A refused bio far away, then an accepted one near the end before it.
fn refused_then_near(g: &mut Generator) {
    let number = g.any_leaf();
    let sector = g.far_sector(number);
    let bytes = g.random.pick(&[513, MAX_BYTES]);
    let flags = g.random.pick(&[0, 4, FORCED]);
    let near = g.cheap_bio(number, FORCED);
    let far = g.bio(number, flags, sector, bytes);
    g.submit(far);
    g.submit(near);
}

/// Bios with two faults at once: a full queue and one of their own.
fn bad_and_full(g: &mut Generator) {
    fill_queue(g);
    if let Some(number) = g.pick_active(|leaf| leaf.queue.len() == QUEUE_ROOM) {
        let sector = g.far_sector(number);
        let bad = g.bio(number, 0, sector, 513);
        g.submit(bad);
        let dear = g.bio(number, WRITE, sector, MAX_BYTES);
        g.submit(dear);
    }
}

fn time_edge(g: &mut Generator) {
    let time = g.controller().time;
    let back = g.random.spread(1, u64::MAX);
    let elapsed = g
        .random
        .pick(&[0, MAX_ELAPSED, MAX_ELAPSED + 1, 10 * MAX_ELAPSED]);
    if g.random.once_in(3) {
        let time = time.saturating_sub(back);
        g.put(Record::Tick { time });
    } else {
        g.tick(elapsed);
    }
}

fn vrate_edge(g: &mut Generator) {
    let vrate = g.random.pick(&[0, 1, MAX_VRATE, MAX_VRATE + 1, u16::MAX]);
    g.put(Record::Vrate { vrate });
    let elapsed = g.random.below(1_000);
    g.tick(elapsed);
}

/// E up to exactly its limit, then one more.
fn reach_period_limit(g: &mut Generator) {
    g.put(Record::Vrate { vrate: MAX_VRATE });
    while MAX_PERIOD - g.controller().period >= 4 * MAX_ELAPSED && g.left > 0 {
        let before = g.controller().time;
        g.tick(MAX_ELAPSED);
        if g.controller().time == before {
            // The clock itself is at its end.
            return;
        }
    }
    let missing = MAX_PERIOD - g.controller().period;
    g.put(Record::Vrate { vrate: 100 });
    g.grow(missing);
    g.tick(1);
    g.tick(MAX_ELAPSED + 1);
    g.put(Record::Plan);
}

fn plan_twice(g: &mut Generator) {
    g.put(Record::Plan);
    g.put(Record::Plan);
}

/// A setup record where none may be. The replay stops there, so it only comes
/// when the trace is nearly at its end anyway.
fn late_setup_record(g: &mut Generator) {
    if g.left > 20 {
        return;
    }
    let node = Record::Node {
        parent: 0,
        weight: 0,
    };
    let start = Record::Start { time: 0 };
    let record = g.random.pick(&[node, start, Record::Model(BENCH)]);
    g.put(record);
}
