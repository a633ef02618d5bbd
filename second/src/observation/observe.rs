//! Which events one record brings about, seen from the states before and
//! after it. The replay itself is not touched by being observed.

use std::cmp::Ordering;

use crate::engine::clock::{MAX_ELAPSED, MAX_PERIOD, MAX_VRATE, TOO_LONG};
use crate::engine::controller::{Answer, Controller, MAX_DEBT, MAX_WAITING};
use crate::engine::cost::{
    is_sequential, Bio, Model, Rates, FORCED, MAX_BPS, MAX_BYTES, MAX_COST, MAX_IOPS, MAX_SECTOR,
    MIN_BPS, NEAR_SECTORS, WRITE,
};
use crate::engine::leaf::{relative_cost, Leaf, IDLE_CAP, QUEUE_ROOM};
use crate::engine::numbers::{floor, is_member, members, Absolute, Relative};
use crate::engine::refusal::{Fault, Refusal};
use crate::engine::rules::Rules;
use crate::engine::shares::SHARE_FLOOR;
use crate::engine::tree::{Tree, MAX_LEVEL, MAX_NODES, MAX_WEIGHT};
use crate::observation::events::Event;
use crate::trace::record::Record;
use crate::trace::replay::{Outcome, Phase};

/// Where the events of a record go.
struct Sink<'a> {
    hit: &'a mut dyn FnMut(Event),
}

impl<'a> Sink<'a> {
    fn when(&mut self, holds: bool, event: Event) {
        if holds {
            (self.hit)(event);
        }
    }

    /// Counts a fault that is the only one, so that nothing else can have
    /// brought about the refusal.
    fn only_one(&mut self, faults: &[(bool, Event)]) {
        let mut held = faults.iter().filter(|(holds, _)| *holds);
        if let (Some((_, event)), None) = (held.next(), held.next()) {
            (self.hit)(*event);
        }
    }
}

/// Tells `hit` each event of a record.
pub fn observe(
    before: &Phase,
    record: &Record,
    outcome: Outcome,
    after: &Phase,
    hit: &mut dyn FnMut(Event),
) {
    let mut sink = Sink { hit };
    match (before, after) {
        (Phase::Setup { tree, model }, _) => {
            observe_setup(tree, model.is_some(), record, outcome, &mut sink)
        }
        (Phase::Running(before), Phase::Running(after)) => {
            observe_run(before, record, outcome, after, &mut sink)
        }
        // A started replay never goes back to setup.
        (Phase::Running(_), Phase::Setup { .. }) => {}
    }
}

fn observe_setup(tree: &Tree, model: bool, record: &Record, outcome: Outcome, sink: &mut Sink) {
    let refused = outcome != Outcome::Quiet;
    match *record {
        Record::Node { parent, weight } if refused => {
            sink.when(model, Event::BadNodeAfterModel);
            sink.when(!model, Event::BadNodeBeforeModel);
            observe_bad_node(tree, usize::from(parent), weight, sink);
            observe_first_fault(tree.count(), outcome, sink);
        }
        Record::Node { parent, weight } => {
            sink.when(model, Event::NodeAfterModel);
            let level = tree.level(usize::from(parent)) + 1;
            sink.when(level == MAX_LEVEL, Event::Level8);
            sink.when(weight == 1, Event::Weight1);
            sink.when(weight == MAX_WEIGHT, Event::Weight10000);
            sink.when(tree.count() + 1 == MAX_NODES, Event::NodeRecords63);
        }
        Record::Model(_) if model => sink.when(true, Event::SecondModel),
        Record::Model(rates) => observe_rates(&rates, refused, sink),
        Record::Start { .. } => {
            let neither = !model && tree.count() == 1;
            sink.when(neither, Event::NoNodeOrModel);
            observe_start(tree, outcome, sink)
        }
        _ => {
            sink.when(true, Event::RunRecordInSetup);
            let weight = matches!(record, Record::Weight { .. });
            sink.when(weight, Event::WeightInSetup);
        }
    }
}

fn observe_bad_node(tree: &Tree, parent: usize, weight: u16, sink: &mut Sink) {
    let full = tree.count() == MAX_NODES;
    let deep = parent < tree.count() && tree.level(parent) == MAX_LEVEL;
    sink.only_one(&[
        (full, Event::NodeRecords64),
        (parent == tree.count(), Event::ParentItself),
        (parent > tree.count(), Event::ParentAbsent),
        (weight == 0, Event::Weight0),
        (weight == MAX_WEIGHT + 1, Event::Weight10001),
        (weight == u16::MAX, Event::Weight65535),
        (deep, Event::Level9),
    ]);
    let bad_parent = parent >= tree.count();
    let bad_weight = !(1..=MAX_WEIGHT).contains(&weight);
    sink.when(full && bad_parent, Event::CountAndParent);
    sink.when(full && bad_weight, Event::CountAndWeight);
    sink.when(full && deep, Event::CountAndLevel);
    sink.when(!full && bad_parent && bad_weight, Event::ParentAndWeight);
    sink.when(!full && bad_weight && deep, Event::WeightAndLevel);
}

/// From so many nodes on a fault is hard to find by eye.
const MANY: usize = 30;

/// Events of where a bad node stands.
fn observe_first_fault(node: usize, outcome: Outcome, sink: &mut Sink) {
    let (first, among_many, last) = match outcome {
        Outcome::Refused(Refusal::Tree(Fault::Parent, _)) => (
            (1, Event::BadParentOfFirst),
            Event::BadParentAmongMany,
            Event::BadParentOfLast,
        ),
        Outcome::Refused(Refusal::Tree(Fault::Weight, _)) => (
            (1, Event::BadWeightOfFirst),
            Event::BadWeightAmongMany,
            Event::BadWeightOfLast,
        ),
        Outcome::Refused(Refusal::Tree(Fault::Level, _)) => (
            (usize::from(MAX_LEVEL) + 1, Event::BadLevelOfFirst),
            Event::BadLevelAmongMany,
            Event::BadLevelOfLast,
        ),
        _ => return,
    };
    sink.when(node == first.0, first.1);
    sink.when((MANY + 1..MAX_NODES - 1).contains(&node), among_many);
    sink.when(node == MAX_NODES - 1, last);
}

fn observe_rates(rates: &Rates, refused: bool, sink: &mut Sink) {
    let any_bps = |bps: u64| rates.rbps == bps || rates.wbps == bps;
    let any_iops = |iops: u64| {
        [
            rates.rseqiops,
            rates.rrandiops,
            rates.wseqiops,
            rates.wrandiops,
        ]
        .contains(&iops)
    };
    if refused {
        sink.only_one(&[
            (any_bps(MIN_BPS - 1), Event::Bps4095),
            (any_bps(MAX_BPS + 1), Event::BpsTooLarge),
            (any_iops(0), Event::Iops0),
            (any_iops(MAX_IOPS + 1), Event::IopsTooLarge),
        ]);
        return;
    }
    sink.when(any_bps(MIN_BPS), Event::Bps4096);
    sink.when(any_bps(MAX_BPS), Event::BpsMost);
    sink.when(any_iops(1), Event::Iops1);
    sink.when(any_iops(MAX_IOPS), Event::IopsMost);
    if let Ok(model) = Model::new(rates, Rules::TRUE) {
        let no_base = model.read.random_base == 0 || model.write.random_base == 0;
        sink.when(no_base, Event::BaseZero);
    }
}

fn observe_start(tree: &Tree, outcome: Outcome, sink: &mut Sink) {
    match outcome {
        Outcome::Refused(Refusal::WrongPhase) => sink.when(true, Event::StartWithoutModel),
        Outcome::Refused(Refusal::Tree(..)) => sink.when(true, Event::NoNode),
        Outcome::Refused(_) => {
            sink.when(true, Event::ThinTree);
            let smallest = tree.smallest_share(Rules::TRUE);
            sink.when(smallest == SHARE_FLOOR - 1, Event::Share1023);
        }
        _ => {
            let smallest = tree.smallest_share(Rules::TRUE);
            sink.when(smallest == SHARE_FLOOR, Event::Share1024);
            sink.when(tree.leaves().count_ones() == 1, Event::OneLeaf);
        }
    }
}

fn observe_run(
    before: &Controller,
    record: &Record,
    outcome: Outcome,
    after: &Controller,
    sink: &mut Sink,
) {
    if before.remainder > 0 {
        observe_held(before, record, outcome, sink);
    }
    match (record, outcome) {
        (Record::Bio(bio), Outcome::Refused(refusal)) => {
            observe_refused_bio(before, bio, refusal, sink)
        }
        (Record::Bio(bio), Outcome::Answered(answer, _)) => {
            let number = usize::from(bio.node);
            observe_cost(before, number, bio, sink);
            observe_budget(before, number, bio, answer, sink);
            let leaf = &after.leaves[number];
            let filled = answer == Answer::Waits && leaf.queue.len() == QUEUE_ROOM;
            sink.when(filled, Event::QueueFilled);
            let most = answer == Answer::OnDebt && leaf.debt == MAX_DEBT;
            sink.when(most, Event::DebtMost);
            observe_shares(before, number, answer, after, sink);
        }
        (Record::Tick { time }, Outcome::Refused(refusal)) => {
            observe_refused_tick(before, *time, refusal, sink)
        }
        (Record::Tick { time }, _) => {
            observe_tick(before, *time, after, sink);
            observe_clock(before, *time, after, sink);
        }
        (Record::Plan, Outcome::Refused(_)) => sink.when(true, Event::PeriodEmpty),
        (Record::Plan, _) => {
            observe_plan(before, after, sink);
            observe_donation(before, after, sink);
        }
        (Record::Vrate { vrate }, _) => {
            sink.when(*vrate == 0, Event::Vrate0);
            sink.when(*vrate == 1, Event::Vrate1);
            sink.when(*vrate == MAX_VRATE, Event::Vrate400);
            sink.when(*vrate == MAX_VRATE + 1, Event::Vrate401);
        }
        (Record::Weight { node, weight }, Outcome::Refused(refusal)) => {
            observe_refused_weight(before, usize::from(*node), *weight, refusal, sink)
        }
        (Record::Weight { node, weight }, _) => {
            observe_weight(before, usize::from(*node), *weight, after, sink)
        }
        _ => {
            sink.when(true, Event::SetupRecordAfterStart);
            if let Record::Node { parent, weight } = *record {
                let mut tree = before.tree.clone();
                let bad = tree.add(parent, weight, Rules::TRUE).is_err();
                sink.when(bad, Event::BadNodeAfterStart);
            }
        }
    }
}

fn observe_refused_weight(
    before: &Controller,
    node: usize,
    weight: u16,
    refusal: Refusal,
    sink: &mut Sink,
) {
    let count = before.tree.count();
    sink.when(before.donors != 0, Event::RefusedWeightLeavesDonation);
    match refusal {
        Refusal::NoWeight => {
            sink.when(node == 0, Event::WeightOfRoot);
            sink.when(node != 0, Event::WeightOfAbsentNode);
            sink.when(node == count, Event::WeightOfFirstAbsentNode);
            sink.when(node == 255, Event::WeightOfNode255);
            let bad = !(1..=MAX_WEIGHT).contains(&weight);
            sink.when(bad, Event::WeightNodeBeforeRange);
        }
        Refusal::Tree(..) => {
            sink.when(weight == 0, Event::NewWeight0);
            sink.when(weight == MAX_WEIGHT + 1, Event::NewWeight10001);
            sink.when(weight == u16::MAX, Event::NewWeight65535);
            let leaf = is_member(before.tree.leaves(), node);
            let active = is_member(before.active, node);
            sink.when(!leaf, Event::BadWeightOfInnerNode);
            sink.when(leaf && !active, Event::BadWeightOfInactiveLeaf);
            sink.when(active, Event::BadWeightOfActiveLeaf);
            sink.when(node + 1 == count, Event::BadWeightOfLastNode);
            let tree = before.tree.with_weight(node, weight);
            let thin = tree.check_thin(Rules::TRUE).is_err();
            sink.when(thin, Event::WeightRangeBeforeThin);
        }
        _ => {
            sink.when(true, Event::WeightMakesThin);
            let tree = before.tree.with_weight(node, weight);
            let smallest = |some| tree.smallest_of(some, tree.leaves(), Rules::TRUE);
            let thinnest = smallest(tree.leaves());
            sink.when(thinnest == SHARE_FLOOR - 1, Event::WeightMakes1023);
            let named = tree.leaves_of(node);
            sink.when(
                smallest(named) >= SHARE_FLOOR,
                Event::WeightMakesAnotherThin,
            );
            let active = tree.smallest_of(before.active, before.active, Rules::TRUE);
            sink.when(active >= SHARE_FLOOR, Event::WeightMakesInactiveThin);
        }
    }
}

/// Events of an accepted weight.
fn observe_weight(
    before: &Controller,
    node: usize,
    weight: u16,
    after: &Controller,
    sink: &mut Sink,
) {
    let tree = &before.tree;
    let leaf = is_member(tree.leaves(), node);
    let active = is_member(before.active, node);
    sink.when(!leaf, Event::WeightOfInnerNode);
    sink.when(leaf && !active, Event::WeightOfInactiveLeaf);
    sink.when(active, Event::WeightOfActiveLeaf);
    sink.when(is_member(before.donors, node), Event::WeightOfDonor);
    sink.when(node + 1 == tree.count(), Event::WeightOfLastNode);
    sink.when(weight > tree.weight(node), Event::WeightRaised);
    sink.when(weight < tree.weight(node), Event::WeightLowered);
    sink.when(weight == 1, Event::NewWeight1);
    sink.when(weight == MAX_WEIGHT, Event::NewWeight10000);
    let thinnest = after.tree.smallest_share(Rules::TRUE);
    sink.when(thinnest == SHARE_FLOOR, Event::WeightMakes1024);
    sink.when(before.active == 0, Event::WeightWithoutActiveLeaf);
    let ends = before.donors != 0;
    sink.when(ends, Event::DonationEndedByWeight);
    let equal = weight == tree.weight(node);
    sink.when(equal, Event::WeightAsBefore);
    sink.when(equal && ends, Event::DonationEndedByEqualWeight);
    let unmoved = leaf && !active && !equal;
    sink.when(unmoved && ends, Event::DonationEndedByInactiveWeight);
    for number in members(before.active) {
        let (old, new) = (&before.leaves[number], &after.leaves[number]);
        let scaled = is_scaled(old, new);
        sink.when(scaled, Event::WeightScalesBudget);
        sink.when(scaled && number != node, Event::WeightScalesOthersBudget);
        sink.when(
            scaled && is_member(before.donors, number),
            Event::WeightScalesDonorsBudget,
        );
        let falls = new.share < old.share && old.budget > Relative(0);
        sink.when(falls, Event::WeightLowersShare);
        sink.when(!old.queue.is_empty(), Event::WaiterHeldAcrossWeight);
        sink.when(old.owes(), Event::DebtHeldAcrossWeight);
        sink.when(old.usage > Absolute(0), Event::UsageHeldAcrossWeight);
    }
}

fn observe_refused_bio(before: &Controller, bio: &Bio, refusal: Refusal, sink: &mut Sink) {
    let number = usize::from(bio.node);
    if refusal == Refusal::NoLeaf {
        let absent = number >= before.tree.count();
        sink.when(number == 0, Event::BioOnRoot);
        sink.when(number != 0 && !absent, Event::BioOnInnerNode);
        sink.when(absent, Event::BioOnAbsentNode);
        sink.when(number == 255, Event::BioOnNode255);
        sink.when(bio.check(Rules::TRUE).is_err(), Event::NoLeafAndBadBio);
        return;
    }
    let leaf = &before.leaves[number];
    let full = !bio.is_forced() && leaf.queue.len() == QUEUE_ROOM;
    match refusal {
        Refusal::BioRange => {
            observe_bad_bio(bio, sink);
            sink.when(full, Event::BadBioAndQueueFull);
        }
        Refusal::CostLimit => {
            sink.when(true, Event::CostTooLarge);
            sink.when(full, Event::DearBioAndQueueFull);
        }
        Refusal::QueueFull => sink.when(true, Event::QueueFull),
        _ => sink.when(true, Event::DebtTooLarge),
    }
    let far = leaf.end.is_some() && !is_sequential(leaf.end, bio.end(), Rules::TRUE);
    sink.when(far, Event::EndOfRefusedIgnored);
}

/// Of 0 bytes are only flushes, whose bytes are good, and reads, which are
/// counted with them.
fn observe_bad_bio(bio: &Bio, sink: &mut Sink) {
    if bio.bytes == 0 && !bio.is_write() {
        return;
    }
    sink.only_one(&[
        (bio.bytes % 512 != 0, Event::BytesUneven),
        (bio.bytes > MAX_BYTES, Event::BytesTooMany),
        (bio.sector == MAX_SECTOR + 1, Event::SectorTooLarge),
        (bio.flags & !(WRITE | FORCED) != 0, Event::BadFlags),
    ]);
}

/// Events of an accepted bio's place, size and id.
fn observe_cost(before: &Controller, number: usize, bio: &Bio, sink: &mut Sink) {
    let leaf = &before.leaves[number];
    sink.when(bio.bytes == 512, Event::BytesLeast);
    sink.when(bio.bytes == MAX_BYTES, Event::BytesMost);
    sink.when(bio.sector == MAX_SECTOR, Event::SectorMost);
    let cost = before.cost_of(number, bio);
    sink.when(cost == MAX_COST, Event::CostMost);
    sink.when(bio.id == u32::MAX, Event::IdMost);
    let repeated = members(before.active)
        .any(|other| before.leaves[other].queue.iter().any(|w| w.id == bio.id));
    sink.when(repeated, Event::IdWaitsAlready);
    if bio.is_flush(Rules::TRUE) {
        return;
    }
    // Being sequential only shows where it changes the cost.
    let by_place = |sequential| {
        before
            .model
            .cost(bio.is_write(), sequential, bio.bytes, Rules::TRUE)
    };
    if by_place(true) == by_place(false) {
        return;
    }
    match leaf.end {
        None => sink.when(true, Event::FirstBio),
        Some(end) => {
            let ahead = bio.sector.checked_sub(end);
            let behind = end.checked_sub(bio.sector);
            sink.when(ahead == Some(NEAR_SECTORS), Event::NearAhead);
            sink.when(behind == Some(NEAR_SECTORS), Event::NearBehind);
            sink.when(ahead == Some(NEAR_SECTORS + 1), Event::FarAhead);
            sink.when(behind == Some(NEAR_SECTORS + 1), Event::FarBehind);
            let woken = !is_member(before.active, number) && cost == by_place(true);
            sink.when(woken, Event::SequentialAfterInactive);
        }
    }
}

/// Events of an accepted bio against budget, debt and waiters.
fn observe_budget(before: &Controller, number: usize, bio: &Bio, answer: Answer, sink: &mut Sink) {
    let leaf = &before.leaves[number];
    if !is_member(before.active, number) {
        return;
    }
    let relative = relative_cost(before.cost_of(number, bio), leaf.share, Rules::TRUE);
    let fits = relative <= leaf.budget;
    let exact = relative == leaf.budget;
    let one_short = relative == Relative(leaf.budget.0 + 1);
    let waiters = !leaf.queue.is_empty();
    if bio.is_forced() {
        sink.when(!leaf.owes() && exact, Event::ForcedExact);
        sink.when(!leaf.owes() && one_short, Event::ForcedOneShort);
        let passes = waiters && answer == Answer::Issued;
        sink.when(passes, Event::ForcedPastWaiters);
        let joins = waiters && answer == Answer::OnDebt;
        sink.when(joins, Event::ForcedOnDebtWithWaiters);
        sink.when(leaf.owes() && fits, Event::ForcedOnOldDebt);
    } else {
        sink.when(leaf.is_clear() && exact, Event::UnforcedExact);
        sink.when(leaf.is_clear() && one_short, Event::UnforcedOneShort);
        sink.when(waiters && !leaf.owes() && fits, Event::FitsBehindWaiter);
        sink.when(!waiters && leaf.owes() && fits, Event::FitsBehindDebt);
    }
}

/// Events of shares changed by an accepted bio.
fn observe_shares(
    before: &Controller,
    number: usize,
    answer: Answer,
    after: &Controller,
    sink: &mut Sink,
) {
    let activation = !is_member(before.active, number);
    sink.when(activation, Event::Activation);
    let again = activation && before.leaves[number].end.is_some();
    sink.when(again, Event::Reactivation);
    let donor_issues = is_member(before.donors, number) && answer == Answer::Issued;
    sink.when(donor_issues, Event::DonorIssues);
    if before.donors != 0 && after.donors == 0 {
        let by_bio = |given| !activation && answer == given;
        sink.when(activation, Event::DonationEndedByActivation);
        sink.when(by_bio(Answer::Waits), Event::DonationEndedByWait);
        sink.when(by_bio(Answer::OnDebt), Event::DonationEndedByDebt);
    }
    for other in members(before.active) {
        let (old, new) = (&before.leaves[other], &after.leaves[other]);
        let stays = new.share < old.share && old.budget > Relative(0) && new.budget == old.budget;
        sink.when(stays, Event::ShareFallsBudgetStays);
        let scaled = is_scaled(old, new);
        sink.when(scaled, Event::DonorBudgetScaled);
        sink.when(activation && scaled, Event::ActivationRaisesShare);
    }
}

/// Whether a share rose and took budget with it.
fn is_scaled(old: &Leaf, new: &Leaf) -> bool {
    new.share > old.share && new.budget < old.budget
}

fn observe_refused_tick(before: &Controller, time: u64, refusal: Refusal, sink: &mut Sink) {
    if refusal == Refusal::TimeBack {
        sink.when(true, Event::TimeBack);
        return;
    }
    let elapsed = time - before.time;
    let period = before.period + before.grown(elapsed.min(TOO_LONG)).whole;
    if refusal == Refusal::TimeJump {
        sink.when(elapsed == MAX_ELAPSED + 1, Event::ElapsedTooLong);
        sink.when(period > MAX_PERIOD, Event::JumpAndPeriodLimit);
    } else {
        sink.when(period == MAX_PERIOD + 1, Event::PeriodTooLong);
        let alone = before.period + without_remainder(before).grown(elapsed).whole;
        sink.when(alone <= MAX_PERIOD, Event::PeriodTooLongByRemainder);
    }
}

fn observe_tick(before: &Controller, time: u64, after: &Controller, sink: &mut Sink) {
    let elapsed = time - before.time;
    sink.when(elapsed == 0, Event::TickOfZero);
    sink.when(elapsed == MAX_ELAPSED, Event::ElapsedMost);
    sink.when(after.period == MAX_PERIOD, Event::PeriodMost);
    sink.when(after.remainder > 0, Event::GrowthRounded);
    let growth = after.virtual_time - before.virtual_time;
    let mut releasing = 0;
    for number in members(after.active) {
        let (old, new) = (&before.leaves[number], &after.leaves[number]);
        observe_repayment(old, new, sink);
        observe_release(old, new, after.remainder, sink);
        observe_cap(old, growth, new, sink);
        releasing += usize::from(new.queue.len() < old.queue.len());
    }
    sink.when(releasing > 1, Event::ReleaseOfSeveralLeaves);
}

/// The same state, but as if no remainder were held.
fn without_remainder(held: &Controller) -> Controller {
    let mut controller = held.clone();
    controller.remainder = 0;
    controller
}

/// Events of a call that finds a remainder held.
fn observe_held(before: &Controller, record: &Record, outcome: Outcome, sink: &mut Sink) {
    let event = match (record, outcome) {
        (Record::Bio(_), Outcome::Refused(_)) => Event::RemainderOverRefusedBio,
        (Record::Bio(bio), _) => {
            let asleep = !is_member(before.active, usize::from(bio.node));
            sink.when(asleep, Event::RemainderOverActivation);
            Event::RemainderOverBio
        }
        (Record::Tick { .. }, Outcome::Refused(Refusal::TimeBack)) => Event::RemainderOverTimeBack,
        (Record::Tick { .. }, Outcome::Refused(Refusal::TimeJump)) => Event::RemainderOverJump,
        (Record::Tick { .. }, Outcome::Refused(_)) => Event::RemainderOverPeriodLimit,
        (Record::Tick { time }, _) if *time == before.time => Event::RemainderOverTickOfZero,
        (Record::Plan, Outcome::Refused(_)) => Event::RemainderOverRefusedPlan,
        (Record::Plan, _) => Event::RemainderOverPlan,
        (Record::Vrate { .. }, Outcome::Refused(_)) => Event::RemainderOverRefusedVrate,
        (Record::Vrate { vrate }, _) => match vrate.cmp(&before.vrate) {
            Ordering::Greater => Event::RemainderOverFaster,
            Ordering::Less => Event::RemainderOverSlower,
            Ordering::Equal => Event::RemainderOverEqualVrate,
        },
        (Record::Weight { .. }, Outcome::Refused(_)) => Event::RemainderOverRefusedWeight,
        (Record::Weight { .. }, _) => Event::RemainderOverWeight,
        _ => return,
    };
    sink.when(true, event);
}

/// Events of the remainder at an accepted tick.
fn observe_clock(before: &Controller, time: u64, after: &Controller, sink: &mut Sink) {
    let elapsed = time - before.time;
    let growth = after.virtual_time - before.virtual_time;
    let left = after.remainder > 0;
    let fast = before.vrate > 100;
    sink.when(elapsed > 0 && growth == 0, Event::TickWithoutGrowth);
    sink.when(after.remainder == 99, Event::RemainderMost);
    sink.when(left && fast, Event::RemainderOfFastRate);
    sink.when(left && after.active == 0, Event::RemainderWithoutLeaf);
    let releases = members(after.active)
        .any(|number| after.leaves[number].queue.len() < before.leaves[number].queue.len());
    sink.when(left && releases, Event::RemainderOverRelease);
    let most = elapsed > 0 && after.period == MAX_PERIOD;
    sink.when(left && most, Event::PeriodMostAndRemainder);
    if before.remainder == 0 {
        return;
    }
    let grows = after.remainder > before.remainder;
    sink.when(grows, Event::RemainderGrows);
    let mut other = without_remainder(before);
    let alone = other.grown(elapsed);
    let whole = elapsed > 0 && alone.remainder == 0;
    sink.when(whole, Event::RemainderOverWholeTick);
    if growth == alone.whole {
        return;
    }
    sink.when(true, Event::RemainderPaid);
    sink.when(!left, Event::RemainderPaidInWhole);
    sink.when(fast, Event::RemainderPaidAtFastRate);
    let begun = before.period == 0 && alone.whole == 0;
    sink.when(begun, Event::PeriodBegunByRemainder);
    sink.when(most, Event::PeriodMostByRemainder);
    // What the tick would have done without the remainder.
    let _ = other.tick(time, &mut [0; MAX_WAITING]);
    for number in members(after.active) {
        let (new, without) = (&after.leaves[number], &other.leaves[number]);
        let released = new.queue.len() < without.queue.len();
        sink.when(released, Event::ReleaseByRemainder);
        let cleared = without.owes() && !new.owes();
        sink.when(cleared, Event::RepaymentByRemainder);
    }
}

fn observe_repayment(old: &Leaf, new: &Leaf, sink: &mut Sink) {
    if !old.owes() {
        return;
    }
    let partial = new.owes() && new.debt < old.debt;
    sink.when(partial, Event::PartialRepayment);
    sink.when(!new.owes(), Event::FullRepayment);
    let both = new.queue.len() < old.queue.len();
    sink.when(both, Event::RepaymentThenRelease);
    let held = new.owes() && !new.queue.is_empty();
    sink.when(held, Event::OwingLeafHoldsWaiters);
}

fn observe_release(old: &Leaf, new: &Leaf, remainder: u64, sink: &mut Sink) {
    let released = old.queue.len() - new.queue.len();
    let spent = released > 0 && new.budget == Relative(0);
    sink.when(spent, Event::ReleaseExact);
    sink.when(released > 1, Event::ReleaseSeveral);
    if let (false, Some(oldest)) = (new.owes(), new.queue.oldest()) {
        sink.when(released > 0, Event::ReleaseStops);
        let relative = relative_cost(oldest.cost, new.share, Rules::TRUE);
        let one_short = relative == Relative(new.budget.0 + 1);
        sink.when(one_short, Event::ReleaseOneShort);
        let hundredth = one_short && remainder == 99;
        sink.when(hundredth, Event::ReleaseHundredthShort);
        let cheaper = new.queue.iter().any(|bio| new.fits(bio.cost, Rules::TRUE));
        sink.when(cheaper, Event::ReleaseHoldsCheaper);
    }
}

fn observe_cap(old: &Leaf, growth: u64, new: &Leaf, sink: &mut Sink) {
    if old.is_clear() {
        let saved = Relative(old.budget.0 + growth);
        sink.when(saved == IDLE_CAP && growth > 0, Event::CapExact);
        sink.when(saved > IDLE_CAP, Event::CapAbove);
    }
    let waits = !new.owes() && !new.queue.is_empty();
    sink.when(waits && new.budget > IDLE_CAP, Event::CapNotWhileWaiting);
}

fn observe_plan(before: &Controller, after: &Controller, sink: &mut Sink) {
    sink.when(before.active == 0, Event::PlanWithoutLeaf);
    let twice = 2 * before.usage().0;
    for number in members(before.active) {
        let (old, new) = (&before.leaves[number], &after.leaves[number]);
        let forgiven = new.debt < old.debt;
        sink.when(forgiven, Event::Forgiveness);
        sink.when(forgiven && old.debt.0 % 2 == 1, Event::ForgivenessOdd);
        let one = old.debt == Absolute(1) && twice < before.period;
        sink.when(one, Event::DebtOfOne);
        let kept = old.debt > Absolute(1) && !forgiven;
        sink.when(kept, Event::NoForgiveness);
        sink.when(kept && twice == before.period, Event::HalfUsed);
        let retired = !is_member(after.active, number);
        sink.when(retired, Event::Inactivation);
        sink.when(
            retired && old.budget > Relative(0),
            Event::InactivationOfBudget,
        );
        if !old.accepted {
            let by_waiter = !old.owes() && !old.queue.is_empty();
            sink.when(by_waiter, Event::KeptByWaiter);
            sink.when(old.owes() && old.queue.is_empty(), Event::KeptByDebt);
        }
        sink.when(old.usage.0 > before.period, Event::UsageAbovePeriod);
        sink.when(!retired && is_scaled(old, new), Event::PlanScalesBudget);
    }
}

fn observe_donation(before: &Controller, after: &Controller, sink: &mut Sink) {
    let donates = after.donors != 0;
    if before.donors != 0 {
        sink.when(!donates, Event::DonationEndedByPlan);
        sink.when(donates, Event::DonationRenewed);
    }
    let base = after.tree.base_shares(after.active, Rules::TRUE);
    if !donates {
        let all = members(after.active).all(|number| {
            let leaf = &before.leaves[number];
            leaf.is_clear() && before.target(leaf) < base[number]
        });
        sink.when(after.active != 0 && all, Event::OnlyDonors);
        return;
    }
    sink.when(true, Event::Donation);
    let others = after.active & !after.donors;
    let several = after.donors.count_ones() > 1 && others.count_ones() > 1;
    sink.when(several, Event::DonationOfSeveral);
    let pool: u64 = members(others).map(|n| after.leaves[n].share).sum();
    let base_of_others: u64 = members(others).map(|n| base[n]).sum();
    let lowest = others.trailing_zeros() as usize;
    let part = floor(base[lowest], pool, base_of_others);
    let remainder = after.leaves[lowest].share > part;
    sink.when(remainder, Event::DonationRemainder);
    let floored = members(after.donors).any(|n| after.leaves[n].share == SHARE_FLOOR);
    sink.when(floored, Event::TargetFloor);
}
