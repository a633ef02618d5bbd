//! Moves of flushes: where they lie between other bios, what they cost and
//! how they are answered.

use crate::engine::cost::{Bio, FORCED, MAX_SECTOR, WRITE};
use crate::engine::leaf::{IDLE_CAP, QUEUE_ROOM};
use crate::engine::numbers::Relative;
use crate::generator::moves::clock::missing;
use crate::generator::moves::weight::stand_donation;
use crate::generator::state::{Generator, Move};
use crate::trace::record::Record;

/// The moves of a step that flushes. The measured styles have none of them.
pub const FLUSH_MOVES: &[(u64, Move)] = &[
    (4, usual_flush),
    (4, flush_over_near),
    (4, flush_at_next),
    (5, flush_before_first),
    (5, flush_at_budget),
    (3, flush_in_queue),
    (3, flush_at_full_queue),
    (3, flush_past_waiter),
    (3, flush_over_debt),
    (3, flush_of_sleeper),
    (4, flush_alone),
    (3, flush_of_donor),
    (5, bad_flush),
    (2, flush_beside_small_write),
];

fn flush(g: &mut Generator, number: usize, flags: u8, sector: u64) -> Bio {
    g.bio(number, WRITE | flags, sector, 0)
}

/// A flush of a leaf far from its last bio.
fn far_flush(g: &mut Generator, number: usize, flags: u8) -> Bio {
    let sector = g.far_sector(number);
    flush(g, number, flags, sector)
}

/// A line that shows at which tick something was released.
fn mark(g: &mut Generator) {
    g.put(Record::Vrate { vrate: 0 });
}

/// A leaf that owes nothing and at which nothing waits, or is asleep.
fn clear(g: &mut Generator, number: usize) {
    g.make_room();
    if g.is_active(number) {
        g.clear_leaf(number);
    }
}

/// Ticks at which a leaf's debt or oldest waiter is just not through, and then
/// just is, for some of them.
pub fn settle(g: &mut Generator, number: usize) {
    for _ in 0..3 {
        if !g.is_active(number) || g.leaf(number).is_clear() {
            return;
        }
        let growth = missing(g, number);
        if growth > 1 {
            g.grow(growth - 1);
            mark(g);
        }
        g.grow(1);
    }
}

fn usual_flush(g: &mut Generator) {
    let number = g.any_leaf();
    let sector = g.any_sector(number);
    let flags = g.random.pick(&[0, 0, FORCED]);
    let flush = flush(g, number, flags, sector);
    g.submit(flush);
}

/// A flush or two far away, then a bio that goes on where the last one ended;
/// now and then with a budget for just these.
fn flush_over_near(g: &mut Generator) {
    let number = g.any_leaf();
    clear(g, number);
    let first = g.any_bio(number);
    g.submit(first);
    clear(g, number);
    let flags = g.random.pick(&[0, 0, FORCED]);
    let between = far_flush(g, number, flags);
    let flags = g.random.pick(&[0, WRITE, FORCED]);
    let near = g.cheap_bio(number, flags);
    if g.is_active(number) && g.random.once_in(2) {
        let wanted = g.relative(number, &between).0 + g.relative(number, &near).0;
        g.grow_budget(number, Relative(wanted.min(IDLE_CAP.0)), 0);
    }
    for _ in 0..g.random.between(1, 2) {
        g.submit(between);
    }
    g.submit(near);
    settle(g, number);
}

/// A flush far away, then a bio right there.
fn flush_at_next(g: &mut Generator) {
    let number = g.any_leaf();
    clear(g, number);
    let first = g.any_bio(number);
    g.submit(first);
    clear(g, number);
    let flags = g.random.pick(&[0, 0, FORCED]);
    let between = far_flush(g, number, flags);
    let flags = g.random.pick(&[0, WRITE, FORCED]);
    let next = g.bio(number, flags, between.sector, 4_096);
    if g.is_active(number) && g.random.once_in(2) {
        let wanted = g.relative(number, &between).0 + g.relative(number, &next).0;
        g.grow_budget(number, Relative(wanted.min(IDLE_CAP.0)), 0);
    }
    g.submit(between);
    g.submit(next);
    settle(g, number);
}

/// Flushes of a leaf that had no other bio yet, then its first one: there, at
/// sector 0 or anywhere.
fn flush_before_first(g: &mut Generator) {
    let number = match g.pick_fresh() {
        None => return flush_over_near(g),
        Some(number) => number,
    };
    clear(g, number);
    let sector = g.random.spread(0, MAX_SECTOR);
    for _ in 0..g.random.between(1, 2) {
        let flags = g.random.pick(&[0, 0, FORCED]);
        let flush = flush(g, number, flags, sector);
        g.submit(flush);
    }
    if g.random.once_in(2) {
        clear(g, number);
    }
    let any = g.random.below(MAX_SECTOR);
    let sector = g.random.pick(&[sector, sector, 0, any]);
    let flags = g.any_flags();
    let first = g.bio(number, flags, sector, 4_096);
    g.submit(first);
    let next = g.cheap_bio(number, 0);
    g.submit(next);
    settle(g, number);
}

/// A flush whose relative cost is the budget, or one more.
fn flush_at_budget(g: &mut Generator) {
    g.make_room();
    if let Some(number) = g.pick_active(|leaf| leaf.is_clear()) {
        let sector = g.any_sector(number);
        let flags = g.random.pick(&[0, 0, FORCED]);
        let flush = flush(g, number, flags, sector);
        let wanted = g.relative(number, &flush);
        if wanted <= IDLE_CAP {
            let short = g.random.below(2);
            g.grow_budget(number, wanted, short);
        }
        g.submit(flush);
        settle(g, number);
    }
}

/// A flush between waiting bios, and the ticks that release them.
fn flush_in_queue(g: &mut Generator) {
    let number = g.any_leaf();
    clear(g, number);
    let before = g.dear_bio(number, 0);
    g.submit(before);
    let between = far_flush(g, number, 0);
    g.submit(between);
    let behind = g.cheap_bio(number, 0);
    g.submit(behind);
    settle(g, number);
}

/// Flushes up to a full queue and one more, a forced one, and what goes on
/// behind them.
fn flush_at_full_queue(g: &mut Generator) {
    let number = g.any_leaf();
    for _ in g.leaf(number).queue.len()..=QUEUE_ROOM {
        let flush = far_flush(g, number, 0);
        g.submit(flush);
    }
    let forced = far_flush(g, number, FORCED);
    g.submit(forced);
    g.make_room();
    settle(g, number);
    let near = g.cheap_bio(number, 0);
    g.submit(near);
    clear(g, number);
}

/// A dear waiter, then an unforced and a forced flush that would fit.
fn flush_past_waiter(g: &mut Generator) {
    let number = match g.stand_waiter() {
        None => return usual_flush(g),
        Some(number) => number,
    };
    let forced = far_flush(g, number, FORCED);
    let wanted = g.relative(number, &forced);
    g.grow_budget(number, Relative(2 * wanted.0), 0);
    let unforced = far_flush(g, number, 0);
    g.submit(unforced);
    g.submit(forced);
}

/// A debt, then flushes that would fit if the leaf owed nothing.
fn flush_over_debt(g: &mut Generator) {
    g.make_room();
    if let Some(number) = g.pick_active(|leaf| leaf.is_clear()) {
        let forced = far_flush(g, number, FORCED);
        let wanted = g.relative(number, &forced);
        g.grow_budget(number, Relative(2 * wanted.0), 0);
        let dear = g.dear_bio(number, FORCED);
        g.submit(dear);
        if g.random.once_in(2) {
            g.submit(forced);
        }
        let unforced = far_flush(g, number, 0);
        g.submit(unforced);
        let near = g.cheap_bio(number, 0);
        g.submit(near);
        settle(g, number);
    }
}

/// A flush wakes a leaf, which then goes on where it was.
fn flush_of_sleeper(g: &mut Generator) {
    g.make_room();
    if let Some(number) = g.pick_inactive() {
        let flags = g.random.pick(&[0, 0, FORCED]);
        let flush = far_flush(g, number, flags);
        g.submit(flush);
        if g.random.once_in(2) {
            let near = g.cheap_bio(number, 0);
            g.submit(near);
        }
        settle(g, number);
        if g.random.once_in(2) {
            g.put(Record::Plan);
        }
    }
}

/// A flush as all that a leaf had accepted between two plans, issued, released
/// or repaid; and a plan behind which nothing came.
fn flush_alone(g: &mut Generator) {
    let number = g.any_leaf();
    clear(g, number);
    let elapsed = g.random.between(1, 1_000_000);
    g.tick(elapsed);
    if g.random.once_in(2) {
        g.put(Record::Plan);
    }
    let flags = g.random.pick(&[0, 0, FORCED]);
    let flush = far_flush(g, number, flags);
    g.submit(flush);
    clear(g, number);
    for _ in 0..2 {
        let elapsed = g.random.between(1, 1_000_000);
        g.tick(elapsed);
        g.put(Record::Plan);
    }
}

/// A donor's flush: one that is issued, then one that is not; or a leaf that
/// a flush wakes.
fn flush_of_donor(g: &mut Generator) {
    let donor = match stand_donation(g) {
        None => return usual_flush(g),
        Some(donor) => donor,
    };
    let sleeper = g.pick_inactive();
    let flags = g.random.pick(&[0, FORCED]);
    let flush = far_flush(g, donor, flags);
    let wanted = g.relative(donor, &flush);
    if wanted <= IDLE_CAP && g.random.once_in(2) {
        g.grow_budget(donor, wanted, 0);
    }
    g.submit(flush);
    if g.random.once_in(2) {
        g.submit(flush);
    } else if let Some(sleeper) = sleeper {
        let waking = far_flush(g, sleeper, 0);
        g.submit(waking);
    }
    if g.random.once_in(2) {
        let bio = g.any_bio(donor);
        g.submit(bio);
    }
    g.make_room();
    settle(g, donor);
}

/// What is no good flush, or just is, then a bio near the end before it.
fn bad_flush(g: &mut Generator) {
    let number = g.any_leaf();
    let flags = g.random.pick(&[0, FORCED]);
    let mut bio = far_flush(g, number, flags);
    let count = g.controller().tree.count() as u64;
    match g.random.below(9) {
        0 | 1 => bio.flags &= !WRITE,
        2 => bio.sector = MAX_SECTOR + 1,
        3 => bio.sector = u64::MAX,
        4 => bio.sector = MAX_SECTOR,
        5 => bio.flags |= 4,
        6 => bio.flags |= g.random.between(4, 255) as u8,
        7 => bio.node = g.random.below(count) as u8,
        _ => bio.node = g.random.pick(&[0, count, 255]) as u8,
    }
    g.submit(bio);
    if g.random.once_in(2) {
        let flags = g.random.pick(&[0, FORCED]);
        let near = g.cheap_bio(number, flags);
        g.submit(near);
        g.make_room();
        settle(g, number);
    }
}

/// A flush and the smallest write, both at the end or both far from it.
fn flush_beside_small_write(g: &mut Generator) {
    let number = g.any_leaf();
    clear(g, number);
    let far = g.far_sector(number);
    let end = g.leaf(number).end.unwrap_or(0).min(MAX_SECTOR);
    let sector = g.random.pick(&[far, end]);
    let flags = g.random.pick(&[0, FORCED]);
    let flush = flush(g, number, flags, sector);
    let write = g.bio(number, WRITE | flags, sector, 512);
    if g.random.once_in(2) {
        g.submit(flush);
        g.submit(write);
    } else {
        g.submit(write);
        g.submit(flush);
    }
    let near = g.cheap_bio(number, 0);
    g.submit(near);
    settle(g, number);
}
