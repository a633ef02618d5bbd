//! Moves of bios about which a question could be answered wrongly: at every kind
//! of node, with every refusal, and where another share, another place or one
//! nanosecond would be answered otherwise.

use crate::engine::controller::MAX_DEBT;
use crate::engine::cost::{Bio, FORCED, MAX_BYTES, MAX_COST, MAX_SECTOR, NEAR_SECTORS, WRITE};
use crate::engine::leaf::{relative_cost, IDLE_CAP, QUEUE_ROOM};
use crate::engine::numbers::{is_member, Absolute, Relative};
use crate::engine::rules::Rules;
use crate::engine::tree::MAX_NODES;
use crate::generator::moves::flush::settle;
use crate::generator::moves::usual::fall_silent;
use crate::generator::moves::weight::stand_donation;
use crate::generator::state::{Generator, Move};

/// The moves of a step of `asks`.
pub const ASK_MOVES: &[(u64, Move)] = &[
    (4, ask_no_leaf),
    (6, ask_sleeper),
    (3, ask_bad_bio),
    (5, ask_at_budget),
    (5, ask_of_place),
    (6, ask_first),
    (4, ask_at_queue),
    (3, ask_past_waiters),
    (3, ask_over_debt),
    (5, ask_of_donor),
    (4, ask_of_taker),
    (4, ask_at_cost_limit),
    (3, fall_silent),
];

fn any_forced(g: &mut Generator) -> u8 {
    g.random.pick(&[0, 0, FORCED])
}

/// A bio that is just too dear, by one if a bio of the model is; or the dearest
/// there is.
fn too_dear(g: &mut Generator, number: usize, flags: u8) -> Bio {
    let mut bio = g.dear_bio(number, flags);
    bio.bytes = (bio.bytes + 4_096).min(MAX_BYTES);
    bio
}

/// A bio with one fault that refusal 5 is for, or of a size or a place that is
/// just right.
fn out_of_range(g: &mut Generator, number: usize, flags: u8) -> Bio {
    let mut bio = g.any_bio(number);
    bio.flags = bio.flags & WRITE | flags;
    match g.random.below(9) {
        0 => bio.bytes = g.random.pick(&[1, 511, 513, 4_095, MAX_BYTES - 1]),
        1 => bio.bytes = MAX_BYTES + 512,
        2 => bio.bytes = u32::MAX - 511,
        3 => bio.sector = MAX_SECTOR + 1,
        4 => bio.flags |= 4,
        5 => bio.flags |= 1 << g.random.between(2, 7),
        6 => {
            bio.bytes = 0;
            bio.flags &= !WRITE;
        }
        7 => {
            bio.bytes = 0;
            bio.flags |= WRITE;
            bio.sector = MAX_SECTOR + 1;
        }
        _ => {
            bio.bytes = MAX_BYTES;
            bio.sector = MAX_SECTOR;
        }
    }
    bio
}

/// A good bio, a flush, a bad one and a dear one on the root, on an inner node
/// and on nodes that are not there.
fn ask_no_leaf(g: &mut Generator) {
    let number = g.any_leaf();
    let tree = &g.controller().tree;
    let count = tree.count();
    let inner = (1..count)
        .filter(|&node| tree.is_inner(node))
        .fold(0, |set, node| set | 1 << node);
    let inner = g.pick_of(inner).unwrap_or(0);
    let node = g
        .random
        .pick(&[0, inner, inner, count, 255, number + MAX_NODES]);
    let flags = any_forced(g);
    let cheap = g.cheap_bio(number, flags);
    let flush = g.bio(number, flags | WRITE, cheap.sector, 0);
    let bad = out_of_range(g, number, flags);
    let dear = too_dear(g, number, flags);
    let bio = g.random.pick(&[cheap, cheap, flush, bad, dear]);
    g.submit(Bio {
        node: node as u8,
        ..bio
    });
}

/// A leaf that sleeps: what is refused there, and then the bio that wakes it.
fn ask_sleeper(g: &mut Generator) {
    let number = match g.pick_inactive() {
        None => return fall_silent(g),
        Some(number) => number,
    };
    let flags = any_forced(g);
    let bad = out_of_range(g, number, flags);
    let dear = too_dear(g, number, flags | WRITE);
    let last = g.random.pick(&[bad, dear]);
    g.submit(last);
    if g.random.once_in(2) {
        let wakes = g.any_bio(number);
        g.submit(wakes);
    } else {
        let sector = g.any_sector(number);
        let wakes = g.bio(number, flags | WRITE, sector, 0);
        g.submit(wakes);
    }
}

fn ask_bad_bio(g: &mut Generator) {
    let number = g.any_leaf();
    let flags = any_forced(g);
    let bad = out_of_range(g, number, flags);
    g.submit(bad);
}

/// A leaf that owes nothing and at which nothing waits.
fn clear_one(g: &mut Generator) -> Option<usize> {
    g.make_room();
    if g.random.once_in(2) {
        if let Some(number) = g.pick_active(|leaf| !leaf.is_clear() && leaf.debt < MAX_COST) {
            g.clear_leaf(number);
        }
    }
    g.pick_active(|leaf| leaf.is_clear())
}

/// A bio at a budget that is just enough for it, one short, or one more.
fn submit_at_budget(g: &mut Generator, bio: Bio) {
    let number = usize::from(bio.node);
    let wanted = g.relative(number, &bio);
    if wanted < IDLE_CAP {
        let more = g.random.below(3);
        g.grow_budget(number, Relative(wanted.0 + more), 1);
    }
    g.submit(bio);
}

fn ask_at_budget(g: &mut Generator) {
    if let Some(number) = clear_one(g) {
        let sector = g.any_sector(number);
        let flags = any_forced(g) | g.random.pick(&[0, WRITE]);
        let bytes = match flags & WRITE {
            0 => g.random.pick(&[512, 4_096, 8_192, 4_608]),
            _ => g.random.pick(&[0, 0, 512, 4_096, 12_800]),
        };
        let bio = g.bio(number, flags, sector, bytes);
        submit_at_budget(g, bio);
    }
}

/// A bio just within reach of the last one's end or just out of it, on either
/// side, at a budget that its place decides about.
fn ask_of_place(g: &mut Generator) {
    let number = match clear_one(g) {
        None => return,
        Some(number) => number,
    };
    let end = g.leaf(number).end.unwrap_or(0);
    let distance = g.random.pick(&[0, 1, NEAR_SECTORS, NEAR_SECTORS + 1]);
    let sector = if g.random.once_in(2) {
        end.saturating_add(distance).min(MAX_SECTOR)
    } else {
        end.saturating_sub(distance).min(MAX_SECTOR)
    };
    let flags = any_forced(g) | g.random.pick(&[0, WRITE]);
    let bio = g.bio(number, flags, sector, 4_096);
    submit_at_budget(g, bio);
}

/// The first bio of a leaf that only flushed, near sector 0, at a flush's place
/// or anywhere, at a budget that decides whether it may be sequential.
fn ask_first(g: &mut Generator) {
    let number = match g.pick_fresh() {
        None => return ask_of_place(g),
        Some(number) => number,
    };
    g.make_room();
    let place = g.random.spread(0, MAX_SECTOR);
    let flags = any_forced(g);
    let flush = g.bio(number, flags | WRITE, place, 0);
    g.submit(flush);
    if !g.is_active(number) {
        return;
    }
    g.clear_leaf(number);
    let near_0 = g.random.below(NEAR_SECTORS + 2);
    let sector = g.random.pick(&[near_0, near_0, 0, place]);
    let flags = any_forced(g) | g.random.pick(&[0, WRITE]);
    let first = g.bio(number, flags, sector, 4_096);
    submit_at_budget(g, first);
}

/// Bios up to a full queue: the seventh and the eighth, one more, and others
/// for which the queue is not all that counts.
fn ask_at_queue(g: &mut Generator) {
    let number = g.any_leaf();
    for _ in g.leaf(number).queue.len()..QUEUE_ROOM {
        let bio = g.cheap_bio(number, 0);
        g.submit(bio);
    }
    for _ in 0..g.random.between(1, 3) {
        let any = g.any_bio(number);
        let flush = g.bio(number, WRITE, 0, 0);
        let flags = any_forced(g);
        let bad = out_of_range(g, number, flags);
        let dear = too_dear(g, number, flags | WRITE);
        let forced = g.cheap_bio(number, FORCED);
        let bio = g.random.pick(&[any, flush, bad, dear, forced]);
        g.submit(bio);
    }
    g.make_room();
    settle(g, number);
}

/// A waiter, then an unforced and a forced bio at a budget for one of them.
fn ask_past_waiters(g: &mut Generator) {
    let number = match g.stand_waiter() {
        None => return ask_sleeper(g),
        Some(number) => number,
    };
    let unforced = g.cheap_bio(number, 0);
    submit_at_budget(g, unforced);
    let forced = g.cheap_bio(number, FORCED);
    submit_at_budget(g, forced);
}

/// A debt over a budget, then bios that the budget alone would let pass.
fn ask_over_debt(g: &mut Generator) {
    if let Some(number) = clear_one(g) {
        let cheap = g.cheap_bio(number, 0);
        let wanted = g.relative(number, &cheap);
        g.grow_budget(number, Relative(2 * wanted.0), 0);
        let dear = g.dear_bio(number, FORCED | WRITE);
        g.submit(dear);
        let flags = g.random.pick(&[0, FORCED]);
        for flags in [flags, FORCED - flags] {
            let bio = g.cheap_bio(number, flags);
            g.submit(bio);
        }
        settle(g, number);
    }
}

/// A donor's bio at a budget that is just enough at the share it holds, or just
/// not, though it would be at its base share.
fn ask_of_donor(g: &mut Generator) {
    if let Some(donor) = stand_donation(g) {
        let flags = any_forced(g) | g.random.pick(&[0, WRITE]);
        let bio = g.cheap_bio(donor, flags);
        submit_at_budget(g, bio);
    }
}

/// The same of a leaf that takes: at its base share it would not be enough.
fn ask_of_taker(g: &mut Generator) {
    stand_donation(g);
    let donors = g.controller().donors;
    let clear = |g: &mut Generator| g.pick_active(|leaf| leaf.is_clear());
    if let (true, Some(taker)) = (donors != 0, clear(g)) {
        let flags = any_forced(g);
        let bio = g.cheap_bio(taker, flags);
        submit_at_budget(g, bio);
    }
    let waiting = g.pick_active(|leaf| !leaf.owes() && !leaf.queue.is_empty());
    if let Some(taker) = waiting.filter(|&number| !is_member(donors, number)) {
        let bio = g.cheap_bio(taker, FORCED);
        submit_at_budget(g, bio);
    }
}

/// The dearest bio that there is, and one that is just too dear, of a read or a
/// write, at any leaf.
fn ask_at_cost_limit(g: &mut Generator) {
    let number = g.any_leaf();
    let write = g.random.pick(&[0, WRITE]);
    for _ in 0..2 {
        let flags = any_forced(g);
        let dear = g.dear_bio(number, flags | write);
        let above = too_dear(g, number, flags | write);
        let bio = g.random.pick(&[dear, above]);
        g.submit(bio);
    }
}

/// What a trace begins with: questions at the debt limit, if a debt has climbed
/// there, and then of leaves that are still to have their first bio.
pub fn ask_early(g: &mut Generator) {
    ask_at_debt_limit(g);
    if let Some(number) = g.pick_inactive() {
        let dear = too_dear(g, number, WRITE);
        g.submit(dear);
    }
    for _ in 0..2 {
        ask_first(g);
    }
}

/// A debt near its limit: bios with which it comes to one above it, which an
/// unforced one, a bad one and one too dear do not care about, and then to
/// exactly the limit.
fn ask_at_debt_limit(g: &mut Generator) {
    for _ in 0..3 {
        let near = |debt: Absolute| debt.0 + MAX_COST.0 > MAX_DEBT.0;
        let number = match g.pick_active(|leaf| near(leaf.debt)) {
            None => return,
            Some(number) => number,
        };
        let flush = g.bio(number, FORCED | WRITE, 0, 0);
        let cheap = g.cheap_bio(number, FORCED);
        let bio = g.random.pick(&[flush, cheap]);
        repay_down_to(g, number, &bio, 1);
        g.submit(bio);
        let unforced = g.cheap_bio(number, 0);
        g.submit(unforced);
        let bad = out_of_range(g, number, FORCED);
        g.submit(bad);
        let dear = too_dear(g, number, FORCED | WRITE);
        g.submit(dear);
        repay_down_to(g, number, &bio, 0);
        g.submit(bio);
    }
}

/// Ticks that repay a debt until it and a bio's cost are so much above the limit.
fn repay_down_to(g: &mut Generator, number: usize, bio: &Bio, above: u64) {
    let cost = g.controller().cost_of(number, bio);
    let leaf = g.leaf(number);
    let left = MAX_DEBT.0 + above - cost.0;
    if let Some(paid) = leaf.debt.0.checked_sub(left) {
        let wanted = relative_cost(Absolute(paid), leaf.share, Rules::TRUE);
        g.grow_budget(number, wanted, 0);
    }
}
