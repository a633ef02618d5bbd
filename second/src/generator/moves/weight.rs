//! Moves that change weights: what a change leads to, and which are refused.

use crate::engine::numbers::Relative;
use crate::engine::rules::Rules;
use crate::engine::tree::MAX_WEIGHT;
use crate::generator::moves::debt::{owe, repay_at_budget};
use crate::generator::moves::donation::make_donation;
use crate::generator::setup::any_weight;
use crate::generator::state::{Generator, Move};
use crate::trace::record::Record;

/// The moves of a step that changes weights. The measured styles have none of
/// them: what they measure is to stay the same.
pub const WEIGHT_MOVES: &[(u64, Move)] = &[
    (6, usual_weight),
    (5, weight_in_donation),
    (3, weight_over_waiter),
    (3, weight_over_debt),
    (2, weight_of_sleeper),
    (3, weight_at_thin),
    (4, bad_weight),
    (2, bad_weight_in_donation),
];

fn set(g: &mut Generator, node: usize, weight: u16) {
    g.put(Record::Weight {
        node: node as u8,
        weight,
    });
}

/// Any node but the root, inner nodes too.
pub fn any_node(g: &mut Generator) -> usize {
    let last = g.controller().tree.count() as u64 - 1;
    g.random.between(1, last) as usize
}

/// A weight that the node may have: also the one it has, or half or twice it.
fn weight_for(g: &mut Generator, node: usize) -> u16 {
    let held = g.controller().tree.weight(node);
    match g.random.below(8) {
        0 => 1,
        1 => MAX_WEIGHT,
        2 => held,
        3 => (held / 2).max(1),
        4 | 5 => (2 * held).min(MAX_WEIGHT),
        _ => any_weight(&mut g.random),
    }
}

pub fn change(g: &mut Generator, node: usize) {
    let weight = weight_for(g, node);
    set(g, node, weight);
}

/// Budgets decide what is issued next, and shares what is planned.
fn show(g: &mut Generator) {
    let number = g.any_leaf();
    let bio = g.any_bio(number);
    g.submit(bio);
    let elapsed = g.random.spread(1, 1_000_000);
    g.tick(elapsed);
    if g.random.once_in(3) {
        g.put(Record::Plan);
    }
}

fn usual_weight(g: &mut Generator) {
    let node = any_node(g);
    change(g, node);
    show(g);
}

/// A donation that stands, its leaves with something saved. The answer is one
/// of its donors, if it came about.
pub fn stand_donation(g: &mut Generator) -> Option<usize> {
    if g.controller().donors == 0 {
        make_donation(g);
    }
    let elapsed = g.random.spread(1, 5_000_000);
    g.tick(elapsed);
    let donors = g.controller().donors;
    g.pick_of(donors)
}

/// A weight of a donor, of a leaf that takes, of one that sleeps or of any
/// node, while a donation stands.
pub fn weight_in_donation(g: &mut Generator) {
    let donor = match stand_donation(g) {
        None => return usual_weight(g),
        Some(donor) => donor,
    };
    let takers = g.controller().active & !g.controller().donors;
    let taker = g.pick_of(takers).unwrap_or(donor);
    let sleeper = g.pick_inactive().unwrap_or(donor);
    let any = any_node(g);
    let node = g.random.pick(&[donor, taker, sleeper, any]);
    change(g, node);
    let shown = g.random.pick(&[donor, taker]);
    let bio = g.any_bio(shown);
    g.submit(bio);
    show(g);
}

/// A weight while a bio waits, then the tick at which it is just released at
/// its new share, or just not.
fn weight_over_waiter(g: &mut Generator) {
    g.make_room();
    let number = g.any_leaf();
    let dear = g.dear_bio(number, 0);
    g.submit(dear);
    if !g.is_active(number) {
        return usual_weight(g);
    }
    let wanted = g.relative(number, &dear);
    g.grow_budget(number, Relative(wanted.0 / 2), 0);
    let any = any_node(g);
    let node = g.random.pick(&[number, number, any]);
    change(g, node);
    let wanted = g.relative(number, &dear);
    let short = g.random.below(2);
    g.grow_budget(number, wanted, short);
}

/// A weight while a leaf owes, and what it then repays.
fn weight_over_debt(g: &mut Generator) {
    g.make_room();
    owe(g);
    let node = any_node(g);
    change(g, node);
    if g.random.once_in(2) {
        g.put(Record::Plan);
    }
    repay_at_budget(g);
}

/// A weight of an inactive leaf, which then wakes.
fn weight_of_sleeper(g: &mut Generator) {
    match g.pick_inactive() {
        None => usual_weight(g),
        Some(sleeper) => {
            change(g, sleeper);
            let bio = g.any_bio(sleeper);
            g.submit(bio);
            show(g);
        }
    }
}

/// The last weight of a node that leaves the tree fit, and the next one,
/// which makes it thin. Further up the nodes beside it get thinner, further
/// down its own leaves do, so both are found by halving.
pub fn weight_at_thin(g: &mut Generator) {
    let node = any_node(g);
    let tree = &g.controller().tree;
    let thin = |weight: u16| {
        tree.with_weight(node, weight)
            .check_thin(Rules::TRUE)
            .is_err()
    };
    let held = tree.weight(node);
    let (mut fit, mut unfit) = if thin(MAX_WEIGHT) {
        (held, MAX_WEIGHT)
    } else if thin(1) {
        (held, 1)
    } else {
        return bad_weight(g);
    };
    while fit.abs_diff(unfit) > 1 {
        let middle = (fit + unfit) / 2;
        if thin(middle) {
            unfit = middle;
        } else {
            fit = middle;
        }
    }
    set(g, node, unfit);
    show(g);
    set(g, node, fit);
    // The tree is not left at its edge, where few weights are accepted.
    if g.random.once_in(2) {
        set(g, node, held);
    }
}

/// A weight refused for its node, for itself or for both.
pub fn bad_weight(g: &mut Generator) {
    let count = g.controller().tree.count();
    let absent = g.random.between(count as u64, 255) as usize;
    let any = any_node(g);
    let node = g.random.pick(&[0, count, absent, 255, any, any, any, any]);
    let good = any_weight(&mut g.random);
    let weight = g
        .random
        .pick(&[0, MAX_WEIGHT + 1, u16::MAX, good, MAX_WEIGHT]);
    set(g, node, weight);
}

/// A donation stands after a refused weight, and a donor may still end it.
fn bad_weight_in_donation(g: &mut Generator) {
    let donor = match stand_donation(g) {
        None => return bad_weight(g),
        Some(donor) => donor,
    };
    bad_weight(g);
    let bio = g.any_bio(donor);
    g.submit(bio);
    show(g);
}
