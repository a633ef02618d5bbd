//! Moves that aim at donations: how they come about and how they end.

use crate::engine::clock::MAX_ELAPSED;
use crate::engine::cost::FORCED;
use crate::engine::leaf::QUEUE_ROOM;
use crate::engine::numbers::members;
use crate::generator::state::Generator;
use crate::trace::record::Record;

/// One or more leaves that use little beside others with bios waiting.
pub fn make_donation(g: &mut Generator) {
    g.make_room();
    let leaves: Vec<usize> = members(g.controller().tree.leaves()).collect();
    let from = g.random.below(leaves.len() as u64) as usize;
    let chosen = (0..leaves.len().min(4)).map(|step| leaves[(from + step) % leaves.len()]);
    let chosen: Vec<usize> = chosen.collect();
    let givers = chosen.len() / 2;
    for &giver in &chosen[..givers] {
        let bio = g.cheap_bio(giver, 0);
        g.submit(bio);
        if g.is_active(giver) {
            g.clear_leaf(giver);
        }
    }
    let elapsed = g.random.spread(1, 20_000_000);
    g.tick(elapsed);
    for &taker in &chosen[givers..] {
        for _ in 0..g.random.between(2, QUEUE_ROOM as u64) {
            let bio = g.any_bio(taker);
            g.submit(bio);
        }
    }
    g.put(Record::Plan);
}

/// Ends a donation in one of the four ways, after its donors saved a little.
pub fn end_donation(g: &mut Generator) {
    if g.controller().donors == 0 {
        make_donation(g);
    }
    let elapsed = g.random.spread(1, 5_000_000);
    g.tick(elapsed);
    let donors = g.controller().donors;
    let donor = match g.pick_of(donors) {
        None => return,
        Some(donor) => donor,
    };
    if g.random.once_in(2) {
        let bio = g.cheap_bio(donor, 0);
        g.submit(bio);
    }
    let sleeper = g.pick_inactive();
    match (g.random.below(4), sleeper) {
        (0, Some(sleeper)) => {
            let bio = g.any_bio(sleeper);
            g.submit(bio);
        }
        (1, _) => {
            let bio = g.dear_bio(donor, 0);
            g.submit(bio);
        }
        (2, _) => {
            let bio = g.dear_bio(donor, FORCED);
            g.submit(bio);
        }
        _ => g.put(Record::Plan),
    }
    // The budgets behind the end decide what is issued next.
    let bio = g.any_bio(donor);
    g.submit(bio);
    let elapsed = g.random.spread(1, 1_000_000);
    g.tick(elapsed);
}

/// A leaf that used next to nothing of a long period, beside one that wakes
/// at its end and so must wait: with fast devices the target falls to the
/// floor.
pub fn give_to_waking_leaf(g: &mut Generator) {
    g.make_room();
    let giver = match g.pick_inactive() {
        None => return make_donation(g),
        Some(giver) => giver,
    };
    let bio = g.cheap_bio(giver, 0);
    g.submit(bio);
    if !g.is_active(giver) {
        return;
    }
    g.clear_leaf(giver);
    g.put(Record::Vrate { vrate: 400 });
    g.tick(MAX_ELAPSED);
    if let Some(taker) = g.pick_inactive() {
        let bio = g.any_bio(taker);
        g.submit(bio);
    }
    g.put(Record::Plan);
    end_donation(g);
}
