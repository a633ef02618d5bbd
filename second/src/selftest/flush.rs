//! What the self test asks of flushes: their cost and their range, what each
//! answer changes, and that every other bio is priced, answered and ends as
//! document 01 has it, whatever flushes come between.

use crate::engine::controller::{Answer, Controller, MAX_WAITING};
use crate::engine::cost::{Bio, Model, Rates, FORCED, MAX_BPS, MAX_IOPS, MIN_BPS, WRITE};
use crate::engine::leaf::Waiting;
use crate::engine::numbers::{is_member, Absolute, Relative};
use crate::engine::refusal::Refusal;
use crate::engine::rules::{Mutant, Rules};
use crate::engine::tree::MAX_NODES;
use crate::generator::random::Random;
use crate::generator::setup::{same_rates, BENCH, LINUX, PRICES};
use crate::selftest::{flat, tree_of, Checks};

fn started(weights: &[u16], rates: &Rates, rules: Rules) -> Result<Controller, Refusal> {
    let model = Model::new(rates, rules)?;
    Controller::start(tree_of(&flat(weights))?, model, 0, rules)
}

fn flush(node: u8, flags: u8, sector: u64) -> Bio {
    Bio {
        node,
        flags: WRITE | flags,
        id: 1,
        sector,
        bytes: 0,
    }
}

fn up(a: u64, b: u64) -> u64 {
    a / b + u64::from(a % b != 0)
}

/// A flush costs the page that wbps makes, wherever it lies and whatever was
/// before it; and no page is so dear that 6 could hold.
pub fn costs(checks: &mut Checks) -> Result<(), Refusal> {
    let mut all = vec![
        (BENCH, 20_000),
        (PRICES, 25_000),
        (same_rates(MAX_BPS, MAX_IOPS), 4),
        (same_rates(MAX_BPS, 1), 4),
        (same_rates(MIN_BPS, MAX_IOPS), 1_000_000_000),
        (same_rates(MIN_BPS, 1), 1_000_000_000),
    ];
    let pages = [23_002, 28_975, 9_573, 2_351];
    all.extend(LINUX.iter().map(|(_, rates)| *rates).zip(pages));
    for (rates, page) in all {
        let mut controller = started(&[100], &rates, Rules::TRUE)?;
        for end in [None, Some(0), Some(1 << 40)] {
            controller.leaves[1].end = end;
            for sector in [0, 32_768, 32_769, 1 << 40, 1 << 48] {
                let name = format!("flush at wbps {}, {:?} and {}", rates.wbps, end, sector);
                let costs = [0, FORCED].map(|flags| {
                    let bio = flush(1, flags, sector);
                    controller.cost_of(1, &bio).0
                });
                checks.equal(&name, costs, [page; 2]);
            }
        }
        let accepted = controller.submit(&flush(1, 0, 0));
        checks.equal("flush: not 6", accepted, Ok(Answer::Waits));
    }
    Ok(())
}

/// Of no bytes or few, with any flags: 0 bytes only with the write flag.
pub fn ranges(checks: &mut Checks) -> Result<(), Refusal> {
    let fresh = started(&[100], &PRICES, Rules::TRUE)?;
    for sector in [0, 1, 1 << 47, 1 << 48, (1 << 48) + 1, u64::MAX] {
        for bytes in [0, 1, 256, 511, 512, 513] {
            let name = format!("{} bytes at {}", bytes, sector);
            let wrong = (0..=255).filter(|&flags| {
                let bio = Bio {
                    flags,
                    bytes,
                    ..flush(1, 0, sector)
                };
                let good_bytes = bytes == 512 || bytes == 0 && flags % 2 == 1;
                let good = good_bytes && flags < 4 && sector <= 1 << 48;
                let mut controller = fresh.clone();
                let answer = controller.submit(&bio);
                let wanted = match (good, flags & FORCED) {
                    (false, _) => Err(Refusal::BioRange),
                    (true, 0) => Ok(Answer::Waits),
                    (true, _) => Ok(Answer::OnDebt),
                };
                answer != wanted || good == (controller == fresh)
            });
            checks.equal(&name, wrong.count(), 0);
        }
    }
    for node in [0, 2, 63, 64, 255] {
        let mut controller = fresh.clone();
        for sector in [0, u64::MAX] {
            let refused = controller.submit(&flush(node, 0, sector));
            checks.equal("flush: 4", refused, Err(Refusal::NoLeaf));
        }
        checks.equal("flush: 4 changes nothing", controller == fresh, true);
    }
    Ok(())
}

/// What each answer changes, and that all else stays: the end above all. The
/// leaf has a quarter, so that a flush of 25,000 is 100,000 relative.
pub fn answers(checks: &mut Checks) -> Result<(), Refusal> {
    let waiting = Waiting {
        id: 1,
        cost: Absolute(25_000),
        share: 268_435_456,
        flush: true,
    };
    // Flags, budget and debt; the answer, and budget and debt behind it.
    for (flags, budget, debt, answer, left, owed) in [
        (0, 100_000, 0, Answer::Issued, 0, 0),
        (0, 150_000, 0, Answer::Issued, 50_000, 0),
        (0, 99_999, 0, Answer::Waits, 99_999, 0),
        (0, 150_000, 1, Answer::Waits, 150_000, 1),
        (FORCED, 100_000, 0, Answer::Issued, 0, 0),
        (FORCED, 99_999, 0, Answer::OnDebt, 99_999, 25_000),
        (FORCED, 150_000, 1, Answer::OnDebt, 150_000, 25_001),
        (FORCED, 0, (1 << 40) - 25_000, Answer::OnDebt, 0, 1 << 40),
    ] {
        for end in [None, Some(0), Some(8), Some(1 << 48)] {
            let mut before = started(&[100, 300], &PRICES, Rules::TRUE)?;
            for node in [1, 2] {
                before.submit(&flush(node, 0, 0))?;
            }
            before.tick(200_000, &mut [0; 2])?;
            before.leaves[1].end = end;
            before.leaves[1].budget = Relative(budget);
            before.leaves[1].debt = Absolute(debt);
            before.leaves[1].usage = Absolute(7);
            before.leaves[1].accepted = false;
            let mut wanted = before.clone();
            let leaf = &mut wanted.leaves[1];
            leaf.budget = Relative(left);
            leaf.debt = Absolute(owed);
            leaf.accepted = true;
            if answer == Answer::Issued {
                leaf.usage = Absolute(25_007);
            }
            let mut controller = before;
            let name = format!("flush {} at {} and {}, {:?}", flags, budget, debt, end);
            let given = controller.submit(&flush(1, flags, 1 << 30));
            checks.equal(&name, given, Ok(answer));
            let queue: Vec<Waiting> = controller.leaves[1].queue.iter().collect();
            let due = vec![waiting; usize::from(answer == Answer::Waits)];
            checks.equal(&name, queue, due);
            wanted.leaves[1].queue = controller.leaves[1].queue.clone();
            checks.equal(&name, controller == wanted, true);
        }
    }
    Ok(())
}

/// 7 and 8 of a flush, each just not given and then given, without a change.
pub fn refusals(checks: &mut Checks) -> Result<(), Refusal> {
    let mut controller = started(&[100], &PRICES, Rules::TRUE)?;
    for _ in 0..8 {
        let waits = controller.submit(&flush(1, 0, 0));
        checks.equal("flush: room", waits, Ok(Answer::Waits));
    }
    let before = controller.clone();
    let full = controller.submit(&flush(1, 0, 1 << 30));
    checks.equal("flush: 7", full, Err(Refusal::QueueFull));
    checks.equal("flush: 7 changes nothing", controller == before, true);
    let forced = controller.submit(&flush(1, FORCED, 0));
    checks.equal("flush: no 7 if forced", forced, Ok(Answer::OnDebt));
    controller.leaves[1].debt = Absolute((1 << 40) - 24_999);
    let before = controller.clone();
    let owing = controller.submit(&flush(1, FORCED, 1 << 30));
    checks.equal("flush: 8", owing, Err(Refusal::DebtLimit));
    checks.equal("flush: 8 changes nothing", controller == before, true);
    let none = controller.leaves[1].end;
    checks.equal("flush: no end", none, None);
    Ok(())
}

/// Leaves of the laws' trees.
const LEAVES: u8 = 3;

/// Whether document 01 had a bio's bytes, sector and flags in range.
fn was_in_range(bio: &Bio) -> bool {
    let bytes = bio.bytes;
    (512..=1_048_576).contains(&bytes) && bytes % 512 == 0 && bio.sector <= 1 << 48 && bio.flags < 4
}

/// Document 01's cost of a bio behind an end.
fn old_cost(rates: &Rates, end: Option<u64>, bio: &Bio) -> u64 {
    let (bps, seqiops, randiops) = if bio.flags & 1 == 1 {
        (rates.wbps, rates.wseqiops, rates.wrandiops)
    } else {
        (rates.rbps, rates.rseqiops, rates.rrandiops)
    };
    let page = up(4_096_000_000_000, bps);
    let near = end.map_or(false, |end| end.abs_diff(bio.sector) <= 32_768);
    let operation = up(1_000_000_000, if near { seqiops } else { randiops });
    operation.saturating_sub(page) + page * up(u64::from(bio.bytes), 4_096)
}

fn is_flush(bio: &Bio) -> bool {
    bio.bytes == 0 && bio.flags & 1 == 1
}

/// The answer and the cost that are due: document 01's for every bio that it
/// had in range, and a page for a flush.
fn due(
    before: &Controller,
    rates: &Rates,
    end: Option<u64>,
    bio: &Bio,
) -> Result<(Answer, u64), Refusal> {
    let cost = if is_flush(bio) && bio.sector <= 1 << 48 && bio.flags < 4 {
        up(4_096_000_000_000, rates.wbps)
    } else if was_in_range(bio) {
        old_cost(rates, end, bio)
    } else {
        return Err(Refusal::BioRange);
    };
    if cost > 1 << 31 {
        return Err(Refusal::CostLimit);
    }
    let number = usize::from(bio.node);
    let leaf = &before.leaves[number];
    let active = is_member(before.active, number);
    let fits = active && up(cost << 30, leaf.share) <= leaf.budget.0;
    let owes = leaf.debt.0 > 0;
    let answer = match (bio.flags & 2 == 2, leaf.queue.len()) {
        (true, _) if fits && !owes => Answer::Issued,
        (true, _) if leaf.debt.0 + cost > 1 << 40 => return Err(Refusal::DebtLimit),
        (true, _) => Answer::OnDebt,
        (false, 0) if fits && !owes => Answer::Issued,
        (false, 8) => return Err(Refusal::QueueFull),
        (false, _) => Answer::Waits,
    };
    Ok((answer, cost))
}

/// Whether a leaf's books moved by what an answer says, and nothing else did.
fn is_booked(before: &Controller, bio: &Bio, given: (Answer, u64), after: &Controller) -> bool {
    let number = usize::from(bio.node);
    let (old, new) = (&before.leaves[number], &after.leaves[number]);
    let (answer, cost) = given;
    let part = |of: Answer| if answer == of { cost } else { 0 };
    let last = new.queue.iter().last().map(|bio| bio.cost.0);
    let waits = answer == Answer::Waits;
    let charged = answer != Answer::Issued
        || old.budget.0 - new.budget.0 == up(cost << 30, old.share) && new.share == old.share;
    new.usage.0 == old.usage.0 + part(Answer::Issued)
        && new.debt.0 == old.debt.0 + part(Answer::OnDebt)
        && new.queue.len() == old.queue.len() + usize::from(waits)
        && (!waits || last == Some(cost))
        && charged
        && new.accepted
        && is_member(after.active, number)
}

/// Any bio: many flushes, others near the last end, near a flush or far from
/// both, and now and then a bad one.
fn any_bio(random: &mut Random, node: u8, end: Option<u64>, flushed: u64) -> Bio {
    let far = random.below(1 << 40);
    let end = end.unwrap_or(0).min(1 << 48);
    let near = end + random.below(70_000);
    let beyond = (1 << 48) + random.below(2);
    Bio {
        node,
        flags: random.pick(&[0, 0, 1, 1, 1, 1, 2, 3, 3, 5]),
        id: 1,
        sector: random.pick(&[
            end,
            end,
            near,
            near.saturating_sub(35_000),
            flushed,
            far,
            beyond,
        ]),
        bytes: random.pick(&[0, 0, 0, 0, 512, 512, 4_096, 4_096, 65_536, 1_048_576, 100]),
    }
}

/// Many calls by some rules, each bio held against what is due and the ends
/// against those of the last bios that are no flushes. The answer is how many
/// flushes and how many others were accepted, none if something was not due.
fn laws_hold(rates: &Rates, seed: u64, rules: Rules) -> Result<Option<(u64, u64)>, Refusal> {
    let mut random = Random::new(seed);
    let weights: Vec<u16> = (0..LEAVES).map(|_| random.between(1, 400) as u16).collect();
    let mut controller = started(&weights, rates, rules)?;
    let mut ends = [None; MAX_NODES];
    let (mut flushed, mut flushes, mut others) = (0, 0, 0);
    for _ in 0..400 {
        let time = controller.time + random.spread(0, 50_000_000);
        match random.below(12) {
            0..=4 => {
                controller.tick(time, &mut [0; MAX_WAITING])?;
            }
            5 => {
                // Refused only where no time passed.
                let _ = controller.plan();
            }
            _ => {
                let node = random.between(1, u64::from(LEAVES)) as usize;
                let bio = any_bio(&mut random, node as u8, ends[node], flushed);
                let before = controller.clone();
                let wanted = due(&before, rates, ends[node], &bio);
                let given = controller.submit(&bio);
                if given != wanted.map(|(answer, _)| answer) {
                    return Ok(None);
                }
                match wanted {
                    Err(_) if controller != before => return Ok(None),
                    Err(_) => continue,
                    Ok(given) if !is_booked(&before, &bio, given, &controller) => return Ok(None),
                    Ok(_) => {}
                }
                if is_flush(&bio) {
                    flushes += 1;
                    flushed = bio.sector;
                } else {
                    others += 1;
                    ends[node] = Some(bio.sector + u64::from(bio.bytes) / 512);
                }
            }
        }
        let kept = (0..MAX_NODES).all(|node| controller.leaves[node].end == ends[node]);
        if !kept {
            return Ok(None);
        }
    }
    Ok(Some((flushes, others)))
}

/// Every bio that document 01 accepted costs, is answered and ends as it did,
/// and every flush costs a page and moves no end.
pub fn laws(checks: &mut Checks) -> Result<(), Refusal> {
    let all = [PRICES, BENCH, LINUX[0].1, same_rates(MIN_BPS, 1)];
    let mut sums = (0, 0);
    for (seed, rates) in (0..80).zip(all.iter().cycle()) {
        let name = format!("flushes of seed {}", seed);
        let counts = laws_hold(rates, seed, Rules::TRUE)?;
        checks.equal(&name, counts.is_some(), true);
        let (flushes, others) = counts.unwrap_or((0, 0));
        sums = (sums.0 + flushes, sums.1 + others);
    }
    checks.equal("flushes enough", sums.0 > 2_000 && sums.1 > 4_000, true);
    Ok(())
}

/// The laws can fail: they notice these mutants.
pub fn noticed(checks: &mut Checks) -> Result<(), Refusal> {
    for mutant in [
        Mutant::BytesZero,
        Mutant::FlushRefused,
        Mutant::ReadFlushes,
        Mutant::SmallWriteFlushes,
        Mutant::ForcedFlushRefused,
        Mutant::FlushFlagsIgnored,
        Mutant::FlushSectorIgnored,
        Mutant::FlushSectorOneLess,
        Mutant::FlushSectorOf0,
        Mutant::FlushFree,
        Mutant::FlushAsRead,
        Mutant::FlushBaseAlone,
        Mutant::FlushWithBase,
        Mutant::FlushWithSequentialBase,
        Mutant::FlushWithRandomBase,
        Mutant::FirstFlushRandom,
        Mutant::FlushMovesEnd,
        Mutant::IssuedFlushMovesEnd,
        Mutant::WaitingFlushMovesEnd,
        Mutant::OwedFlushMovesEnd,
        Mutant::RefusedFlushMovesEnd,
        Mutant::FlushIsFirst,
        Mutant::FlushBeginsAt0,
        Mutant::SequentialAfterFlush,
        Mutant::FlushTakesEnd,
        Mutant::FlushAlwaysIssued,
        Mutant::FlushNeverIssued,
        Mutant::FlushPassesWaiter,
        Mutant::FlushPassesDebt,
        Mutant::ForcedFlushBehindWaiters,
        Mutant::FlushNotForced,
        Mutant::FlushForced,
        Mutant::FlushFindsRoom,
        Mutant::FlushWakesNobody,
        Mutant::FlushNotAccepted,
        Mutant::IssuedFlushNoBudget,
        Mutant::IssuedFlushNoUsage,
        Mutant::FlushOwesNothing,
    ] {
        let mut noticed = false;
        for seed in 0..40 {
            noticed = noticed || laws_hold(&PRICES, seed, Rules::with(mutant))?.is_none();
        }
        checks.equal(mutant.name(), noticed, true);
    }
    Ok(())
}
