//! Moves of the clock's remainder: how it comes to be held, what must leave
//! it, and what it alone decides.

use crate::engine::clock::{HUNDREDTHS, MAX_ELAPSED, MAX_PERIOD, MAX_VRATE};
use crate::engine::cost::FORCED;
use crate::engine::leaf::relative_cost;
use crate::engine::numbers::{ceil, Relative};
use crate::engine::rules::Rules;
use crate::generator::moves::weight::{any_node, bad_weight, change};
use crate::generator::state::{Generator, Move};
use crate::trace::record::Record;

/// The moves of a step of `clock`.
pub const CLOCK_MOVES: &[(u64, Move)] = &[
    (4, poll_fast),
    (6, plan_by_remainder),
    (8, release_by_remainder),
    (4, repay_by_remainder),
    (3, limit_by_remainder),
];

/// Rates that leave a remainder behind nearly every tick.
const ODD_RATES: &[u16] = &[1, 3, 7, 33, 49, 50, 51, 99, 101, 133, 333, 399];

/// Those at which a nanosecond may bring nothing.
const SLOW_RATES: &[u16] = &[1, 3, 7, 33, 49, 50, 99];

/// The calls that must leave a remainder as it is.
const CALLS: &[Move] = &[
    other_vrate,
    same_vrate,
    bad_vrate,
    refused_plan,
    weight,
    bad_weight,
    bio,
    waking_bio,
    bad_bio,
    tick_of_zero,
    time_back,
    jump,
];

fn set_vrate(g: &mut Generator, vrate: u16) {
    g.put(Record::Vrate { vrate });
}

fn other_vrate(g: &mut Generator) {
    let any = g.random.between(1, u64::from(MAX_VRATE)) as u16;
    let odd = g.random.pick(ODD_RATES);
    let vrate = g.random.pick(&[odd, odd, any, 100, MAX_VRATE]);
    set_vrate(g, vrate);
}

fn same_vrate(g: &mut Generator) {
    let vrate = g.controller().vrate;
    set_vrate(g, vrate);
}

fn bad_vrate(g: &mut Generator) {
    let vrate = g.random.pick(&[0, MAX_VRATE + 1, u16::MAX]);
    set_vrate(g, vrate);
}

/// Two plans: of the second E is 0.
fn refused_plan(g: &mut Generator) {
    g.put(Record::Plan);
    g.put(Record::Plan);
}

fn weight(g: &mut Generator) {
    let node = any_node(g);
    change(g, node);
}

fn bio(g: &mut Generator) {
    let number = g.any_leaf();
    let bio = g.any_bio(number);
    g.submit(bio);
}

fn waking_bio(g: &mut Generator) {
    if let Some(number) = g.pick_inactive() {
        let bio = g.any_bio(number);
        g.submit(bio);
    }
}

/// A bio that its leaf is not to blame for, so that it is refused 5.
fn bad_bio(g: &mut Generator) {
    let number = g.any_leaf();
    let mut bio = g.cheap_bio(number, 0);
    bio.bytes += 1;
    g.submit(bio);
}

fn tick_of_zero(g: &mut Generator) {
    g.tick(0);
}

fn time_back(g: &mut Generator) {
    let back = g.random.between(1, 99);
    let time = g.controller().time.saturating_sub(back);
    g.put(Record::Tick { time });
}

fn jump(g: &mut Generator) {
    let beyond = g.random.between(1, 99);
    g.tick(MAX_ELAPSED + beyond);
}

/// Some calls that must leave the remainder.
fn disturb(g: &mut Generator) {
    for _ in 0..g.random.below(3) {
        let call = g.random.pick(CALLS);
        call(g);
    }
}

/// The most that `hold` makes virtual time grow by.
const MOST_HELD: u64 = 120;

/// Ticks of a few nanoseconds, behind which a remainder is likely held.
fn hold(g: &mut Generator) {
    let odd = g.random.pick(ODD_RATES);
    let any = g.random.between(1, u64::from(MAX_VRATE)) as u16;
    let vrate = g.random.pick(&[odd, odd, odd, any]);
    set_vrate(g, vrate);
    for _ in 0..g.random.between(1, 3) {
        let elapsed = g.random.between(1, 9);
        g.tick(elapsed);
    }
}

/// Many ticks of a few nanoseconds, and what they bring.
fn poll_fast(g: &mut Generator) {
    g.make_room();
    hold(g);
    for _ in 0..g.random.between(2, 6) {
        let elapsed = g.random.between(0, 9);
        g.tick(elapsed);
        if g.random.once_in(4) {
            disturb(g);
        }
    }
    if g.random.once_in(2) {
        bio(g);
    }
}

/// The time in which virtual time grows by so much with the remainder held,
/// and by one less without it. Where the present rate steps over it, or now
/// and then without need, a slow one is set.
fn by_remainder(g: &mut Generator, growth: u64) -> Option<u64> {
    let held = g.controller().remainder;
    if held == 0 || growth == 0 {
        return None;
    }
    let present = g.controller().vrate;
    let wanted = HUNDREDTHS * growth;
    let first = g.random.below(SLOW_RATES.len() as u64) as usize;
    let (behind, before) = SLOW_RATES.split_at(first);
    let slow = before.iter().chain(behind).copied();
    let kept = Some(present).filter(|_| !g.random.once_in(3));
    for vrate in kept.into_iter().chain(slow) {
        let rate = u64::from(vrate);
        let elapsed = ceil(wanted - held, 1, rate);
        let own = elapsed * rate;
        let exact = (own + held) / HUNDREDTHS == growth;
        if own < wanted && exact && elapsed <= MAX_ELAPSED {
            if vrate != present {
                set_vrate(g, vrate);
            }
            return Some(elapsed);
        }
    }
    None
}

/// A tick for what only the remainder makes due; or one that is just too
/// short for it, and the nanosecond that is missing.
fn decide(g: &mut Generator, growth: u64) {
    if let Some(elapsed) = by_remainder(g, growth) {
        if g.random.once_in(2) {
            g.tick(elapsed - 1);
            mark(g);
            g.tick(1);
        } else {
            g.tick(elapsed);
        }
        mark(g);
    }
}

/// A line that shows at which tick something was released.
fn mark(g: &mut Generator) {
    if g.random.once_in(3) {
        bio(g);
    } else {
        bad_vrate(g);
    }
}

/// A plan that is refused, or not, by what the remainder makes of E.
fn plan_by_remainder(g: &mut Generator) {
    hold(g);
    g.put(Record::Plan);
    disturb(g);
    if g.controller().period > 0 {
        return;
    }
    if let Some(elapsed) = by_remainder(g, 1) {
        if g.random.once_in(2) {
            g.tick(elapsed - 1);
            g.put(Record::Plan);
            g.tick(1);
        } else {
            g.tick(elapsed);
        }
        g.put(Record::Plan);
    }
}

/// What a leaf's budget lacks for its debt, or else for its oldest waiter.
pub fn missing(g: &Generator, number: usize) -> u64 {
    let leaf = g.leaf(number);
    let wanted = match leaf.queue.oldest() {
        _ if leaf.owes() => relative_cost(leaf.debt, leaf.share, Rules::TRUE),
        Some(oldest) => relative_cost(oldest.cost, leaf.share, Rules::TRUE),
        None => Relative(0),
    };
    wanted.0.saturating_sub(leaf.budget.0)
}

/// Grows until a leaf is only some nanoseconds short, with a remainder held.
fn come_near(g: &mut Generator, number: usize) {
    let near = MOST_HELD + g.random.below(40);
    if let Some(growth) = missing(g, number).checked_sub(near) {
        g.grow(growth);
    }
    hold(g);
}

/// A release, or none, by what the remainder makes of a budget. The remainder
/// may be older than the leaf's activation.
fn release_by_remainder(g: &mut Generator) {
    g.make_room();
    if g.random.once_in(2) {
        hold(g);
    }
    let sleeper = g.pick_inactive();
    let any = g.any_leaf();
    let number = g.random.pick(&[any, sleeper.unwrap_or(any)]);
    if g.is_active(number) {
        g.clear_leaf(number);
    }
    let bio = g.cheap_bio(number, 0);
    g.submit(bio);
    if g.is_active(number) {
        come_near(g, number);
        disturb(g);
    }
    if g.is_active(number) {
        let growth = missing(g, number);
        decide(g, growth);
    }
}

/// The last part of a debt repaid, or not, by what the remainder makes of a
/// budget; and a waiter behind the debt that shows it.
fn repay_by_remainder(g: &mut Generator) {
    g.make_room();
    let number = g.any_leaf();
    if g.is_active(number) {
        g.clear_leaf(number);
    }
    let sector = g.far_sector(number);
    let forced = g.bio(number, FORCED, sector, 4_096);
    g.submit(forced);
    let cheap = g.cheap_bio(number, 0);
    g.submit(cheap);
    if !g.is_active(number) {
        return;
    }
    come_near(g, number);
    disturb(g);
    for _ in 0..2 {
        if g.is_active(number) {
            let growth = missing(g, number);
            decide(g, growth);
        }
    }
}

/// E at its limit with a remainder held: what passes it only for the
/// remainder, and what just does not.
fn limit_by_remainder(g: &mut Generator) {
    set_vrate(g, MAX_VRATE);
    while MAX_PERIOD - g.controller().period >= 4 * MAX_ELAPSED && g.left > 0 {
        let before = g.controller().time;
        g.tick(MAX_ELAPSED);
        if g.controller().time == before {
            // The clock itself is at its end.
            return;
        }
    }
    let near = MOST_HELD + g.random.below(40);
    let room = MAX_PERIOD - g.controller().period;
    if let Some(growth) = room.checked_sub(near) {
        g.grow(growth);
    }
    hold(g);
    let room = MAX_PERIOD - g.controller().period;
    if g.random.once_in(3) {
        decide(g, room);
    } else if let Some(elapsed) = by_remainder(g, room + 1) {
        g.tick(elapsed);
        // Refused, it leaves the remainder, and is refused again.
        g.tick(elapsed);
        g.tick(elapsed - 1);
        g.tick(1);
    }
    disturb(g);
    g.tick(1);
    g.put(Record::Plan);
}
