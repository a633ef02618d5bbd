//! Moves that aim at debt: its limit, its repayment and its forgiveness.

use crate::engine::clock::MAX_ELAPSED;
use crate::engine::controller::{Controller, MAX_WAITING};
use crate::engine::cost::{FORCED, WRITE};
use crate::engine::leaf::relative_cost;
use crate::engine::numbers::Relative;
use crate::engine::rules::Rules;
use crate::generator::state::Generator;
use crate::trace::record::Record;

/// The dearest forced bios on one leaf until one is refused for its debt; a
/// flush is then refused too.
pub fn climb_to_debt_limit(g: &mut Generator) {
    let number = g.any_leaf();
    for _ in 0..514 {
        let bio = g.dear_bio(number, FORCED);
        g.submit(bio);
    }
    let flush = g.bio(number, FORCED | WRITE, 0, 0);
    g.submit(flush);
}

/// A forced bio that does not fit, so that its leaf owes.
pub fn owe(g: &mut Generator) {
    let number = g.any_leaf();
    for _ in 0..g.random.between(1, 3) {
        let bio = g.dear_bio(number, FORCED | WRITE);
        g.submit(bio);
    }
    if g.random.once_in(2) {
        let elapsed = g.random.spread(0, 10_000_000);
        g.tick(elapsed);
    }
}

/// A debt, then bios that would fit if the leaf owed nothing.
pub fn owe_before_bios(g: &mut Generator) {
    g.make_room();
    if let Some(number) = g.pick_active(|leaf| leaf.is_clear()) {
        let cheap = g.cheap_bio(number, 0);
        let wanted = g.relative(number, &cheap);
        g.grow_budget(number, Relative(2 * wanted.0), 0);
        let dear = g.dear_bio(number, FORCED);
        g.submit(dear);
        let forced = g.cheap_bio(number, FORCED);
        g.submit(forced);
        let unforced = g.cheap_bio(number, 0);
        g.submit(unforced);
        if g.random.once_in(2) {
            g.clear_leaf(number);
        }
    }
}

/// A tick that repays a debt just fully, or just not.
pub fn repay_at_budget(g: &mut Generator) {
    g.make_room();
    let number = match g.pick_active(|leaf| leaf.owes()) {
        None => return owe(g),
        Some(number) => number,
    };
    let leaf = g.leaf(number);
    let wanted = relative_cost(leaf.debt, leaf.share, Rules::TRUE);
    let short = g.random.below(2);
    g.grow_budget(number, wanted, short);
}

/// A debt of 1 at a plan with little use: half of it is nothing.
pub fn owe_one(g: &mut Generator) {
    g.make_room();
    g.grow(400_000_000);
    let number = match g.pick_inactive() {
        None => return repay_at_budget(g),
        Some(number) => number,
    };
    let bio = g.cheap_bio(number, FORCED);
    g.submit(bio);
    if g.is_active(number) {
        let leaf = g.leaf(number);
        let wanted = relative_cost(leaf.debt, leaf.share, Rules::TRUE);
        g.grow_budget(number, wanted, 1);
        g.put(Record::Plan);
        g.clear_leaf(number);
    }
}

/// A plan at which exactly half of the period was used, with a debt to
/// forgive if it were less. Repayment itself is use, so the tick before the
/// plan is found by trying ticks on a copy of the controller.
pub fn use_half(g: &mut Generator) {
    g.put(Record::Vrate { vrate: 100 });
    g.tick(20_000_000);
    g.put(Record::Plan);
    if let Some(number) = g.pick_active(|leaf| leaf.is_clear()) {
        for _ in 0..4 {
            let bio = g.cheap_bio(number, WRITE);
            g.submit(bio);
        }
    }
    owe(g);
    if let Some(elapsed) = half_use_tick(g.controller()) {
        g.tick(elapsed);
        g.put(Record::Plan);
    }
}

/// The tick behind which twice the usage is the period, if there is one. A
/// nanosecond more adds one to the period and nothing or one to the usage, so
/// the distance to half use moves by single steps and is found by halving.
fn half_use_tick(controller: &Controller) -> Option<u64> {
    let mut busy = 0;
    let mut idle = MAX_ELAPSED;
    while busy <= idle {
        let elapsed = (busy + idle) / 2;
        let mut trial = controller.clone();
        let time = trial.time.checked_add(elapsed)?;
        trial.tick(time, &mut [0; MAX_WAITING]).ok()?;
        let twice = 2 * trial.usage().0;
        if twice == trial.period {
            return Some(elapsed);
        }
        if twice > trial.period {
            busy = elapsed + 1;
        } else {
            idle = elapsed.checked_sub(1)?;
        }
    }
    None
}
