//! What the self test asks of the question: answers worked out by hand, the
//! request's two sentences, that it is answered as a submission is, about all
//! bios of a set in states along generated traces, and that it looks at its own
//! leaf alone.

use std::io;

use super::Checks;
use crate::engine::controller::{Answer, Controller};
use crate::engine::cost::{Bio, Model, Rates, FORCED, WRITE};
use crate::engine::leaf::Queue;
use crate::engine::numbers::{is_member, Absolute, Relative, WHOLE};
use crate::engine::question::{ask, Own};
use crate::engine::refusal::Refusal;
use crate::engine::rules::{Mutant, Rules};
use crate::engine::tree::MAX_NODES;
use crate::generator::generate::generate;
use crate::generator::random::Random;
use crate::generator::setup::BENCH;
use crate::generator::style::Style;
use crate::observation::asks::asks;
use crate::selftest::active_controller;
use crate::trace::record::Record;
use crate::trace::replay::Replay;
use crate::trace::stream::Reader;

type Due = Result<Answer, Refusal>;

const ISSUED: Due = Ok(Answer::Issued);
const WAITS: Due = Ok(Answer::Waits);
const ON_DEBT: Due = Ok(Answer::OnDebt);

/// B9's leaf, awake, with nothing owed and nothing waiting.
const QUARTER: Own = Own {
    leaf: true,
    active: true,
    share: 268_435_456,
    budget: Relative(0),
    debt: Absolute(0),
    waiting: 0,
    end: None,
};

/// A read of a page, 100,000 random on the bench: 400,000 to a quarter.
const READ: Bio = Bio {
    node: 1,
    flags: 0,
    id: 7,
    sector: 0,
    bytes: 4_096,
};

fn forced(bio: Bio) -> Bio {
    Bio {
        flags: bio.flags | FORCED,
        ..bio
    }
}

/// A budget for a random read of a page, one short of it, waiters and debts.
pub fn budgets(checks: &mut Checks) -> Result<(), Refusal> {
    let model = Model::new(&BENCH, Rules::TRUE)?;
    let limit = 1 << 40;
    // Budget, debt and waiters; the answer to an unforced bio and to a forced one.
    for (budget, debt, waiting, unforced, of_forced) in [
        (400_000, 0, 0, ISSUED, ISSUED),
        (399_999, 0, 0, WAITS, ON_DEBT),
        (100_000, 0, 0, WAITS, ON_DEBT),
        (0, 0, 0, WAITS, ON_DEBT),
        (400_000, 0, 1, WAITS, ISSUED),
        (400_000, 0, 7, WAITS, ISSUED),
        (400_000, 0, 8, Err(Refusal::QueueFull), ISSUED),
        (399_999, 0, 8, Err(Refusal::QueueFull), ON_DEBT),
        (400_000, 1, 0, WAITS, ON_DEBT),
        (400_000, 1, 8, Err(Refusal::QueueFull), ON_DEBT),
        (0, limit - 100_000, 0, WAITS, ON_DEBT),
        (400_000, limit - 99_999, 0, WAITS, Err(Refusal::DebtLimit)),
        (0, limit, 7, WAITS, Err(Refusal::DebtLimit)),
    ] {
        let own = Own {
            budget: Relative(budget),
            debt: Absolute(debt),
            waiting,
            ..QUARTER
        };
        let name = format!("asked at {}, {} and {}", budget, debt, waiting);
        let answers = [READ, forced(READ)].map(|bio| ask(&own, &model, &bio));
        checks.equal(&name, answers, [unforced, of_forced]);
    }
    Ok(())
}

/// A share, the last end, a bio's flags, sector and bytes, and what it costs
/// relative to that share.
type Price = (u64, Option<u64>, u8, u64, u32, u64);

const PRICES: &[Price] = &[
    (WHOLE, None, 0, 0, 4_096, 100_000),
    (357_913_941, None, 0, 0, 4_096, 300_001),
    (402_653_185, None, 0, 0, 4_096, 266_667),
    (1_024, None, 0, 0, 4_096, 104_857_600_000),
    (QUARTER.share, None, 0, 0, 512, 400_000),
    (QUARTER.share, None, 0, 0, 8_192, 440_000),
    (QUARTER.share, Some(0), 0, 0, 4_096, 80_000),
    (QUARTER.share, Some(32_768), 0, 0, 4_096, 80_000),
    (QUARTER.share, Some(32_769), 0, 0, 4_096, 400_000),
    (QUARTER.share, Some(8), 0, 32_776, 65_536, 680_000),
    (QUARTER.share, Some(8), 0, 32_777, 4_096, 400_000),
    (QUARTER.share, None, WRITE, 0, 4_096, 800_000),
    (QUARTER.share, Some(0), WRITE, 0, 4_096, 160_000),
    (QUARTER.share, None, WRITE, 0, 0, 80_000),
    (QUARTER.share, Some(0), WRITE, 1 << 48, 0, 80_000),
];

/// Shares, places and sizes: each at the relative cost, where the bio is issued,
/// and one below it, where it is not.
pub fn prices(checks: &mut Checks) -> Result<(), Refusal> {
    let model = Model::new(&BENCH, Rules::TRUE)?;
    for &(share, end, flags, sector, bytes, relative) in PRICES {
        let bio = Bio {
            flags,
            sector,
            bytes,
            ..READ
        };
        let answers = [relative, relative - 1].map(|budget| {
            let budget = Relative(budget);
            let own = Own {
                share,
                end,
                budget,
                ..QUARTER
            };
            ask(&own, &model, &bio)
        });
        let name = format!(
            "asked at {}, {:?}: {} {} {}",
            share, end, flags, sector, bytes
        );
        checks.equal(&name, answers, [ISSUED, WAITS]);
    }
    Ok(())
}

/// Rates at which 225 pages read cost exactly 2^31, and 226 more than that unless
/// they are sequential.
const DEAR: Rates = Rates {
    rbps: 448_113,
    rseqiops: 1_000,
    rrandiops: 10,
    wbps: 1 << 40,
    wseqiops: 1_000_000_000,
    wrandiops: 1_000_000_000,
};

/// A leaf alone on the device with a budget for the dearest bio.
const AWAKE: Own = Own {
    share: WHOLE,
    budget: Relative(1 << 31),
    ..QUARTER
};

/// The same with a full queue and as much debt as there may be.
const FULL: Own = Own {
    waiting: 8,
    debt: Absolute(1 << 40),
    ..AWAKE
};

/// A leaf that sleeps, its last bio near.
const ASLEEP: Own = Own {
    active: false,
    share: 0,
    end: Some(0),
    ..QUARTER
};

/// One that sleeps and is still to have its first bio.
const FRESH: Own = Own {
    end: None,
    ..ASLEEP
};

const RANGE: Due = Err(Refusal::BioRange);
const COST: Due = Err(Refusal::CostLimit);
const QUEUE: Due = Err(Refusal::QueueFull);
const DEBT: Due = Err(Refusal::DebtLimit);

/// What these four are answered about a good bio, and if it is forced.
const GOOD: [[Due; 4]; 2] = [
    [ISSUED, QUEUE, WAITS, WAITS],
    [ISSUED, DEBT, ON_DEBT, ON_DEBT],
];

/// About one that is too dear unless it is sequential.
const DEAR_IF_RANDOM: [[Due; 4]; 2] = [[COST, COST, WAITS, COST], [COST, COST, ON_DEBT, COST]];

/// Refusals in their order: of two leaves that are awake, of two that sleep and
/// of a node that is no leaf.
pub fn refusals(checks: &mut Checks) -> Result<(), Refusal> {
    let model = Model::new(&DEAR, Rules::TRUE)?;
    let beyond = (1 << 48) + 1;
    for (flags, sector, bytes, due) in [
        (0, 0, 921_600, GOOD),
        (1, 0, 0, GOOD),
        (0, 0, 925_696, DEAR_IF_RANDOM),
        (0, 40_000, 925_696, [[COST; 4]; 2]),
        (0, 0, 962_560, [[COST; 4]; 2]),
        (0, 0, 0, [[RANGE; 4]; 2]),
        (0, 0, 511, [[RANGE; 4]; 2]),
        (0, 0, 1_049_088, [[RANGE; 4]; 2]),
        (0, beyond, 962_560, [[RANGE; 4]; 2]),
        (1, beyond, 0, [[RANGE; 4]; 2]),
        (4, 0, 962_560, [[RANGE; 4]; 2]),
        (129, 0, 0, [[RANGE; 4]; 2]),
    ] {
        let bio = Bio {
            flags,
            sector,
            bytes,
            ..READ
        };
        let name = format!("asked to refuse: {} {} {}", flags, sector, bytes);
        for (bio, due) in [bio, forced(bio)].iter().zip(due) {
            let answers = [AWAKE, FULL, ASLEEP, FRESH].map(|own| ask(&own, &model, bio));
            checks.equal(&name, answers, due);
            let no_leaf = ask(&Own::default(), &model, bio);
            checks.equal(&name, no_leaf, Err(Refusal::NoLeaf));
        }
    }
    Ok(())
}

/// States along generated traces under some rules, one at each so many records
/// of traces of a style.
fn states(style: Style, traces: u64, every: usize, rules: Rules) -> io::Result<Vec<Controller>> {
    let mut states = Vec::new();
    for seed in 0..traces {
        let mut trace = Vec::new();
        generate(seed, style.usual_records(), style, &mut trace)?;
        let mut reader = Reader::new(&trace);
        let mut replay = Replay::new(rules);
        let mut place = 0;
        while let (false, Ok(Some(record))) = (replay.stopped(), reader.next()) {
            replay.take(Ok(record));
            if let (0, Some(controller)) = (place % every, replay.controller()) {
                states.push(controller.clone());
            }
            place += 1;
        }
    }
    Ok(states)
}

/// Of traces that ask, those with a debt at its limit are one in four.
fn all_states(rules: Rules) -> io::Result<Vec<Controller>> {
    let mut all = states(Style::Asks, 20, 40, rules)?;
    all.extend(states(Style::Weights, 2, 200, rules)?);
    all.extend(states(Style::Flushes, 4, 40, rules)?);
    Ok(all)
}

/// The nodes to ask of in a state: some eight of the tree with the first and the
/// last, and some that are not there.
fn nodes(state: &Controller) -> Vec<u8> {
    let count = state.tree.count() as u8;
    let there = (0..count).step_by(usize::from(count / 8 + 1));
    let behind = [count - 1, count, 64, 65, 255];
    there.chain(behind).collect()
}

/// All bios of a small set: near the last end of a node and far from it, of all
/// sizes that matter, with all good flags and a bad one.
fn bios(state: &Controller, node: u8) -> Vec<Bio> {
    let leaf = state.leaves.get(usize::from(node));
    let end = leaf.and_then(|leaf| leaf.end).unwrap_or(0);
    let ahead = end.saturating_add(32_768);
    let behind = end.saturating_sub(32_768);
    let last = 1 << 48;
    let mut bios = Vec::new();
    for sector in [end, ahead, ahead + 1, behind, 0, last, last + 1] {
        for bytes in [0, 512, 4_096, 12_800, 921_600, 1_048_576, 100, 1_049_088] {
            bios.extend((0..5).map(|flags| Bio {
                node,
                flags,
                id: 1,
                sector,
                bytes,
            }));
        }
    }
    bios
}

/// The questions about all these bios in a state: how many there were, and how
/// many were answered as a submission to a copy of the state.
fn answered_alike(state: &Controller) -> (u64, u64) {
    let (mut made, mut alike) = (0, 0);
    let mut copy = state.clone();
    for node in nodes(state) {
        for bio in bios(state, node) {
            let asked = state.ask(&bio);
            let given = copy.submit(&bio);
            // A refused bio changes nothing.
            if given.is_ok() {
                copy = state.clone();
            }
            made += 1;
            alike += u64::from(asked == given);
        }
    }
    (made, alike)
}

/// Whether a state's answer to a bio is one that the request's sentence on nodes
/// other than active leaves allows there.
fn second_sentence_holds(state: &Controller, bio: &Bio) -> bool {
    let number = usize::from(bio.node);
    let leaf = number < MAX_NODES && is_member(state.tree.leaves(), number);
    let awake = leaf && is_member(state.active, number);
    match state.ask(bio) {
        _ if awake => true,
        Err(Refusal::NoLeaf) => !leaf,
        Err(Refusal::BioRange | Refusal::CostLimit) => leaf,
        Ok(Answer::Waits) => leaf && bio.flags & FORCED == 0,
        Ok(Answer::OnDebt) => leaf && bio.flags & FORCED != 0,
        _ => false,
    }
}

/// A queue for each count of waiting bios.
fn queues() -> Result<Vec<Queue>, Refusal> {
    let mut controller = active_controller(&[1])?;
    let mut queues = vec![Queue::default()];
    for id in 1..=8 {
        controller.submit(&Bio { id, ..READ })?;
        queues.push(controller.leaves[1].queue.clone());
    }
    Ok(queues)
}

/// The same state as a question of one node sees it, and anything else for all
/// that it must not look at.
fn scrambled(state: &Controller, node: u8, queues: &[Queue], random: &mut Random) -> Controller {
    let mut other = state.clone();
    for (number, leaf) in other.leaves.iter_mut().enumerate() {
        leaf.usage = Absolute(random.spread(0, 1 << 33));
        leaf.accepted = random.once_in(2);
        if number == usize::from(node) {
            leaf.queue = queues[leaf.queue.len()].clone();
        } else {
            leaf.queue = queues[random.below(9) as usize].clone();
            leaf.share = random.between(1_024, WHOLE);
            leaf.budget = Relative(random.spread(0, 1 << 40));
            leaf.debt = Absolute(random.pick(&[0, 0, 1, 1 << 30, 1 << 40]));
            leaf.end = Some(random.spread(0, 1 << 48)).filter(|_| random.once_in(2));
        }
    }
    for number in 1..other.tree.count() {
        let weight = random.between(1, 10_000) as u16;
        other.tree = other.tree.with_weight(number, weight);
    }
    let own = 1u64.checked_shl(u32::from(node)).unwrap_or(0);
    let leaves = other.tree.leaves();
    other.active = state.active & own | random.number() & leaves & !own;
    other.donors = random.number() & other.active;
    other.vrate = random.between(1, 400) as u16;
    other.time = random.number();
    other.remainder = random.below(100);
    other.period = random.spread(0, 1 << 33);
    other
}

/// How many states and nodes were asked of, and of how many another state with
/// the same own values answers all questions alike.
fn answered_locally(states: &[Controller]) -> Result<(u64, u64), Refusal> {
    let queues = queues()?;
    let mut random = Random::new(6);
    let (mut made, mut alike) = (0, 0);
    for state in states {
        for node in nodes(state) {
            let other = scrambled(state, node, &queues, &mut random);
            let bios = bios(state, node);
            made += 1;
            alike += u64::from(bios.iter().all(|bio| state.ask(bio) == other.ask(bio)));
        }
    }
    Ok((made, alike))
}

/// In states along generated traces: submission, the second sentence, and that
/// no other leaf is looked at.
pub fn in_states(checks: &mut Checks) -> io::Result<()> {
    let states = all_states(Rules::TRUE)?;
    checks.equal("asked in states", states.len() > 300, true);
    let (mut made, mut alike) = (0, 0);
    for state in &states {
        let counts = answered_alike(state);
        made += counts.0;
        alike += counts.1;
    }
    checks.equal("asked as submitted", alike, made);
    checks.equal("asked often", made > 800_000, true);
    let holds = states.iter().all(|state| {
        let all = nodes(state);
        let bios = all.iter().flat_map(|&node| bios(state, node));
        bios.into_iter()
            .all(|bio| second_sentence_holds(state, &bio))
    });
    checks.equal("asked of nodes but active leaves", holds, true);
    let local = answered_locally(&states);
    let all_alike = local.map_or(false, |(made, alike)| made == alike && made > 3_000);
    checks.equal("asked of its own leaf alone", all_alike, true);
    Ok(())
}

/// Mutants that only a bio which comes to a limit exactly tells apart, and so only
/// those of the traces themselves.
const AT_LIMITS: [Mutant; 3] = [
    Mutant::AskCostLimitOneMore,
    Mutant::AskDebtLimitOneLess,
    Mutant::AskDebtLimitOneMore,
];

/// Each mutant of the question is noticed in these states, and those that look
/// at other leaves by that.
pub fn noticed(checks: &mut Checks) -> io::Result<()> {
    for &mutant in Mutant::ALL.iter().filter(|mutant| mutant.is_of_question()) {
        let rules = Rules::with(mutant);
        let noticed = if AT_LIMITS.contains(&mutant) {
            is_unlike(rules)?
        } else {
            all_states(rules)?.iter().any(differs_from_truth)
        };
        checks.equal(mutant.name(), noticed, true);
    }
    for mutant in [
        Mutant::AskDonorBase,
        Mutant::AskTakerBase,
        Mutant::AskShareOfAll,
        Mutant::AskShareOfOther,
        Mutant::AskBudgetOfOther,
        Mutant::AskDebtOfOther,
        Mutant::AskQueueOfOther,
        Mutant::AskQueueOfAll,
        Mutant::AskEndOfOther,
    ] {
        let states = states(Style::Asks, 4, 40, Rules::with(mutant))?;
        let local = answered_locally(&states);
        let told = local.map_or(false, |(made, alike)| alike < made);
        checks.equal(mutant.name(), told, true);
    }
    Ok(())
}

/// Whether a question in a state under a mutant is answered otherwise than the
/// true one.
fn differs_from_truth(state: &Controller) -> bool {
    let all = nodes(state);
    let mut bios = all.iter().flat_map(|&node| bios(state, node));
    bios.any(|bio| state.ask(&bio) != ask(&state.own(&bio), &state.model, &bio))
}

/// Whether a bio of traces that ask is answered otherwise than its question, by
/// some rules.
fn is_unlike(rules: Rules) -> io::Result<bool> {
    for seed in 0..40 {
        let mut trace = Vec::new();
        generate(seed, Style::Asks.usual_records(), Style::Asks, &mut trace)?;
        if asks(trace.as_slice(), &mut io::sink(), rules)?.is_some() {
            return Ok(true);
        }
    }
    Ok(false)
}

/// The lines that a replay prints for the bios behind start.
fn lines_of_bios(trace: &[u8]) -> io::Result<Vec<u8>> {
    let mut reader = Reader::new(trace);
    let mut replay = Replay::new(Rules::TRUE);
    let mut lines = Vec::new();
    while let (false, Ok(Some(record))) = (replay.stopped(), reader.next()) {
        let started = replay.controller().is_some();
        let outcome = replay.take(Ok(record));
        if let (true, Record::Bio(_)) = (started, record) {
            replay.print(outcome, &mut lines)?;
        }
    }
    Ok(lines)
}

/// What is asked of a trace is what its replay prints for the bios, for some
/// traces of each style.
pub fn lines(checks: &mut Checks) -> io::Result<()> {
    for &style in Style::ALL {
        for seed in 0..5 {
            let mut trace = Vec::new();
            generate(seed, style.usual_records(), style, &mut trace)?;
            let mut printed = Vec::new();
            let unlike = asks(trace.as_slice(), &mut printed, Rules::TRUE)?;
            let name = format!("asked of {} {}", style.name(), seed);
            checks.equal(&name, unlike.map(|unlike| unlike.to_string()), None);
            checks.equal(&name, printed == lines_of_bios(&trace)?, true);
        }
    }
    Ok(())
}

/// Changed rules of submission.
const NOT_FOLLOWED: &[Mutant] = &[
    Mutant::RangeBeforeLeaf,
    Mutant::InnerSubmits,
    Mutant::BytesOfPages,
    Mutant::BytesZero,
    Mutant::BytesOneLess,
    Mutant::BytesOneMore,
    Mutant::SectorOneLess,
    Mutant::SectorOneMore,
    Mutant::FlagsIgnored,
    Mutant::FlushRefused,
    Mutant::FlushAsRead,
    Mutant::FlushWithBase,
    Mutant::WriteAsRead,
    Mutant::PagesRoundedDown,
    Mutant::FirstSequential,
    Mutant::NearOneLess,
    Mutant::NearOneMore,
    Mutant::SequentialAheadOnly,
    Mutant::CostLimitOneLess,
    Mutant::CostLimitOneMore,
    Mutant::RelativeRoundedDown,
    Mutant::FitsStrictly,
    Mutant::UnforcedPassesWaiter,
    Mutant::UnforcedPassesDebt,
    Mutant::ForcedBehindWaiters,
    Mutant::ForcedPassesDebt,
    Mutant::QueueOneLess,
    Mutant::QueueForForced,
    Mutant::QueueBeforeCost,
    Mutant::DebtBeforeCost,
    Mutant::DebtLimitOneLess,
    Mutant::DebtLimitOneMore,
    Mutant::DebtLimitAlone,
];

/// The question has its own way to each answer: where submission goes by one of
/// these changed rules, it does not follow.
pub fn not_followed(checks: &mut Checks) -> io::Result<()> {
    for &mutant in NOT_FOLLOWED {
        let differs = is_unlike(Rules::with(mutant))?;
        checks.equal(mutant.name(), differs, true);
    }
    Ok(())
}
