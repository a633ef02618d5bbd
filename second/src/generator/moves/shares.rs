//! Moves that have shares worked out anew on deep trees: leaves that wake and
//! fall asleep, alone or with a whole branch, donations that end, and weights.

use crate::engine::cost::FORCED;
use crate::engine::numbers::members;
use crate::engine::tree::MAX_LEVEL;
use crate::generator::moves::donation::{end_donation, make_donation};
use crate::generator::moves::flush::settle;
use crate::generator::moves::load::release_next;
use crate::generator::moves::weight::{change, stand_donation, weight_at_thin, weight_in_donation};
use crate::generator::state::{Generator, Move};
use crate::trace::record::Record;

/// The moves of a step of `shares`.
pub const SHARE_MOVES: &[(u64, Move)] = &[
    (6, wake_deep),
    (3, wake_any),
    (3, wake_many),
    (3, wake_last),
    (5, sleep_branch),
    (3, leave_last_alone),
    (3, keep_one_kind),
    (4, donate_beside_sleepers),
    (3, end_donation),
    (3, weight_of_inner),
    (3, weight_high_up),
    (3, weight_of_deep_leaf),
    (2, weight_in_donation),
    (2, weight_at_thin),
    (6, show),
];

/// A leaf's share tells when its bios are just not released and when they just
/// are, and the lines of a plan are the shares of all.
fn show(g: &mut Generator) {
    match g.random.below(4) {
        0 => settle_one(g),
        1 => release_next(g),
        _ => {}
    }
    g.make_room();
    g.tick(1);
    g.put(Record::Plan);
}

fn settle_one(g: &mut Generator) {
    g.make_room();
    if let Some(number) = g.pick_active(|leaf| !leaf.is_clear()) {
        settle(g, number);
    }
}

/// A bio for a leaf, cheap or dear. Where the leaf sleeps, it wakes.
fn send(g: &mut Generator, number: usize) {
    let flags = g.random.pick(&[0, 0, 0, FORCED]);
    let bio = match g.random.below(3) {
        0 => g.dear_bio(number, flags),
        _ => g.cheap_bio(number, flags),
    };
    g.submit(bio);
}

/// A leaf has a bio that waits for long.
fn keep_busy(g: &mut Generator, number: usize) {
    if g.leaf(number).queue.is_empty() {
        let dear = g.dear_bio(number, 0);
        g.submit(dear);
    }
}

fn wake_one_of(g: &mut Generator, leaves: u64) {
    let asleep = leaves & !g.controller().active;
    if let Some(number) = g.pick_of(asleep) {
        send(g, number);
    }
    show(g);
}

/// Each leaf that sleeps, or about half of them.
fn wake_many(g: &mut Generator) {
    let asleep = g.controller().tree.leaves() & !g.controller().active;
    let all = g.random.once_in(3);
    for number in members(asleep) {
        if all || g.random.once_in(2) {
            keep_busy(g, number);
        }
    }
    show(g);
}

fn wake_any(g: &mut Generator) {
    let leaves = g.controller().tree.leaves();
    wake_one_of(g, leaves);
}

fn wake_deep(g: &mut Generator) {
    let deep = leaves_on(g, MAX_LEVEL);
    wake_one_of(g, deep);
}

fn wake_last(g: &mut Generator) {
    let last = g.controller().tree.count() - 1;
    wake_one_of(g, 1 << last);
}

/// The leaves on a level.
fn leaves_on(g: &Generator, level: u8) -> u64 {
    let tree = &g.controller().tree;
    members(tree.leaves())
        .filter(|&leaf| tree.level(leaf) == level)
        .fold(0, |set, leaf| set | 1 << leaf)
}

/// Lets some leaves finish and makes them inactive, while others have a bio to
/// wait for.
fn put_to_sleep(g: &mut Generator, leaves: u64) {
    g.make_room();
    for number in members(g.controller().active & leaves) {
        g.clear_leaf(number);
    }
    for number in members(g.controller().active & !leaves) {
        keep_busy(g, number);
    }
    for _ in 0..2 {
        g.tick(1);
        g.put(Record::Plan);
    }
}

/// An inner node, none if all leaves lie right below the root.
fn any_inner(g: &mut Generator) -> Option<usize> {
    let tree = &g.controller().tree;
    let inner = (1..tree.count())
        .filter(|&node| tree.is_inner(node))
        .fold(0, |set, node| set | 1 << node);
    g.pick_of(inner)
}

/// All leaves below an inner node fall asleep, and then one of them wakes.
fn sleep_branch(g: &mut Generator) {
    if let Some(inner) = any_inner(g) {
        let below = g.controller().tree.leaves_of(inner);
        put_to_sleep(g, below);
        wake_one_of(g, below);
    }
}

/// The last node is left as the only active leaf of its branch.
fn leave_last_alone(g: &mut Generator) {
    let tree = &g.controller().tree;
    let last = tree.count() - 1;
    let others = tree.leaves_of(tree.branch_of(last)) & !(1 << last);
    put_to_sleep(g, others);
    wake_last(g);
}

/// Below a node with leaves and inner nodes only the ones or the others stay
/// active.
fn keep_one_kind(g: &mut Generator) {
    if let Some(inner) = any_inner(g) {
        let tree = &g.controller().tree;
        let parent = tree.parent(inner);
        let below = tree.leaves_of(parent);
        let children = members(below)
            .filter(|&leaf| tree.parent(leaf) == parent)
            .fold(0, |set, leaf| set | 1 << leaf);
        let sleepers = g.random.pick(&[children, below & !children]);
        put_to_sleep(g, sleepers);
        show(g);
    }
}

/// A leaf finishes in one period and goes at the plan that begins a donation;
/// a donor then ends it.
fn donate_beside_sleepers(g: &mut Generator) {
    g.make_room();
    if let Some(sleeper) = g.pick_inactive() {
        let bio = g.cheap_bio(sleeper, 0);
        g.submit(bio);
        if g.is_active(sleeper) {
            g.clear_leaf(sleeper);
        }
    }
    g.tick(1);
    g.put(Record::Plan);
    make_donation(g);
    if let Some(donor) = stand_donation(g) {
        let dear = g.dear_bio(donor, 0);
        g.submit(dear);
    }
    for _ in 0..2 {
        settle_one(g);
    }
    show(g);
}

fn weight_of_inner(g: &mut Generator) {
    if let Some(inner) = any_inner(g) {
        change(g, inner);
    }
    show(g);
}

/// A weight far above a leaf on level 8, with something active beside it.
fn weight_high_up(g: &mut Generator) {
    let deep = leaves_on(g, MAX_LEVEL);
    if let Some(leaf) = g.pick_of(deep) {
        let tree = &g.controller().tree;
        let branch = tree.branch_of(leaf);
        let others = tree.leaves() & !tree.leaves_of(branch);
        keep_busy(g, leaf);
        if let Some(other) = g.pick_of(others) {
            keep_busy(g, other);
        }
        change(g, branch);
    }
    show(g);
}

/// A weight of a leaf on level 8, with those beside it active.
fn weight_of_deep_leaf(g: &mut Generator) {
    let deep = leaves_on(g, MAX_LEVEL);
    for leaf in members(deep) {
        keep_busy(g, leaf);
    }
    if let Some(leaf) = g.pick_of(deep) {
        change(g, leaf);
    }
    show(g);
}
