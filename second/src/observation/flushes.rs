//! Events of flushes. Some hang on what no state keeps: where a leaf flushed
//! since its last bio, and which leaves did nothing else since the last plan.

use crate::engine::controller::{Answer, Controller};
use crate::engine::cost::{is_sequential, Bio, FORCED, MAX_SECTOR, WRITE};
use crate::engine::leaf::{relative_cost, Leaf, QUEUE_ROOM};
use crate::engine::numbers::{is_member, members, Relative};
use crate::engine::refusal::Refusal;
use crate::engine::rules::Rules;
use crate::engine::tree::MAX_NODES;
use crate::observation::events::Event;
use crate::trace::record::Record;
use crate::trace::replay::{Outcome, Phase};

/// What is kept of a replay's flushes.
pub struct Flushes {
    /// Where each leaf flushed last since its last other bio.
    places: [Option<u64>; MAX_NODES],
    /// Leaves with an accepted flush since the last plan.
    flushed: u64,
    /// Leaves with another accepted bio since the last plan.
    others: u64,
}

impl Flushes {
    pub fn new() -> Flushes {
        Flushes {
            places: [None; MAX_NODES],
            flushed: 0,
            others: 0,
        }
    }

    /// Tells `hit` each event of a record that has to do with flushes.
    pub fn observe(
        &mut self,
        before: &Phase,
        record: &Record,
        outcome: Outcome,
        after: &Phase,
        hit: &mut dyn FnMut(Event),
    ) {
        let (before, after) = match (before, after) {
            (Phase::Running(before), Phase::Running(after)) => (before, after),
            _ => return,
        };
        let mut when = |holds: bool, event: Event| {
            if holds {
                hit(event);
            }
        };
        match (record, outcome) {
            (Record::Bio(bio), Outcome::Refused(refusal)) if bio.bytes == 0 => {
                refused(before, bio, refusal, &mut when)
            }
            (Record::Bio(bio), Outcome::Answered(answer, _)) => {
                let number = usize::from(bio.node);
                if bio.is_flush(Rules::TRUE) {
                    answered(before, number, bio, answer, &mut when);
                    shares_moved(before, number, answer, after, &mut when);
                    self.places[number] = Some(bio.sector);
                    self.flushed |= 1 << number;
                } else {
                    self.behind(before, number, bio, &mut when);
                    self.places[number] = None;
                    self.others |= 1 << number;
                }
            }
            (Record::Tick { .. }, Outcome::Released(_)) => {
                for number in members(after.active) {
                    let (old, new) = (&before.leaves[number], &after.leaves[number]);
                    released(old, new, &mut when);
                }
            }
            (Record::Plan, Outcome::Planned) => {
                for number in members(before.active & self.flushed & !self.others) {
                    let kept = before.leaves[number].is_clear();
                    when(kept, Event::KeptByFlush);
                }
                self.flushed = 0;
                self.others = 0;
            }
            _ => {}
        }
    }

    /// Events of an accepted bio right behind a flush of its leaf. Its place
    /// only shows where it changes the cost.
    fn behind(
        &self,
        before: &Controller,
        number: usize,
        bio: &Bio,
        when: &mut dyn FnMut(bool, Event),
    ) {
        let place = match self.places[number] {
            None => return,
            Some(place) => place,
        };
        when(
            bio.is_write() && bio.bytes == 512,
            Event::SmallWriteBehindFlush,
        );
        let price = |sequential| {
            let model = &before.model;
            model.cost(bio.is_write(), sequential, bio.bytes, Rules::TRUE)
        };
        if price(true) == price(false) {
            return;
        }
        let end = before.leaves[number].end;
        let at_flush = is_sequential(Some(place), bio.sector, Rules::TRUE);
        match end {
            None => {
                when(at_flush, Event::FirstAtFlush);
                let at_0 = is_sequential(Some(0), bio.sector, Rules::TRUE);
                when(!at_flush && at_0, Event::FirstAt0BehindFlush);
                when(!at_flush && !at_0, Event::FirstFarFromFlush);
            }
            Some(_) => {
                let sequential = is_sequential(end, bio.sector, Rules::TRUE);
                when(sequential && !at_flush, Event::SequentialOverFlush);
                when(!sequential && at_flush, Event::RandomAtFlush);
                let both_far = !sequential && !at_flush;
                when(both_far, Event::RandomFarFromFlush);
            }
        }
    }
}

/// Events of a refused bio of 0 bytes.
fn refused(before: &Controller, bio: &Bio, refusal: Refusal, when: &mut dyn FnMut(bool, Event)) {
    let good_flags = bio.flags & !(WRITE | FORCED) == 0;
    let good_sector = bio.sector <= MAX_SECTOR;
    if !bio.is_write() {
        let alone = good_flags && good_sector && refusal == Refusal::BioRange;
        when(alone && !bio.is_forced(), Event::ReadOfZero);
        when(alone && bio.is_forced(), Event::ForcedReadOfZero);
        return;
    }
    match refusal {
        Refusal::NoLeaf => {
            let node = usize::from(bio.node);
            let inner = node != 0 && node < before.tree.count();
            when(inner, Event::FlushOnInnerNode);
            when(!inner, Event::FlushOnNoNode);
        }
        Refusal::BioRange => {
            let next = good_flags && bio.sector == MAX_SECTOR + 1;
            when(next, Event::FlushBeyondLastSector);
            when(good_sector && !good_flags, Event::FlushWithBadFlags);
        }
        Refusal::QueueFull => when(true, Event::FlushRefused7),
        _ => when(true, Event::FlushRefused8),
    }
}

/// Events of a flush against the budget, the debt and the waiters of its leaf.
fn answered(
    before: &Controller,
    number: usize,
    bio: &Bio,
    answer: Answer,
    when: &mut dyn FnMut(bool, Event),
) {
    let leaf = &before.leaves[number];
    let forced = bio.is_forced();
    when(answer == Answer::Issued && !forced, Event::FlushIssued);
    when(answer == Answer::Issued && forced, Event::ForcedFlushIssued);
    when(answer == Answer::Waits, Event::FlushWaits);
    when(answer == Answer::OnDebt, Event::FlushOnDebt);
    when(bio.sector == MAX_SECTOR, Event::FlushAtLastSector);
    when(leaf.end.is_none(), Event::FlushBeforeFirst);
    if !is_member(before.active, number) {
        when(true, Event::FlushWakes);
        when(leaf.end.is_some(), Event::FlushWakesAgain);
        return;
    }
    let relative = relative_cost(before.cost_of(number, bio), leaf.share, Rules::TRUE);
    let fits = relative <= leaf.budget;
    let waiters = !leaf.queue.is_empty();
    let exact = relative == leaf.budget;
    let one_short = relative == Relative(leaf.budget.0 + 1);
    when(leaf.is_clear() && exact, Event::FlushExact);
    when(leaf.is_clear() && one_short, Event::FlushOneShort);
    if forced {
        let passes = waiters && answer == Answer::Issued;
        when(passes, Event::ForcedFlushPastWaiters);
        when(leaf.owes() && fits, Event::ForcedFlushOnOldDebt);
        let full = leaf.queue.len() == QUEUE_ROOM;
        when(full, Event::ForcedFlushAtFullQueue);
    } else {
        when(
            waiters && !leaf.owes() && fits,
            Event::FlushFitsBehindWaiter,
        );
        when(!waiters && leaf.owes() && fits, Event::FlushFitsBehindDebt);
    }
}

/// Events of a flush and a donation.
fn shares_moved(
    before: &Controller,
    number: usize,
    answer: Answer,
    after: &Controller,
    when: &mut dyn FnMut(bool, Event),
) {
    let woken = !is_member(before.active, number);
    let donor = is_member(before.donors, number);
    when(donor && answer == Answer::Issued, Event::DonorFlushes);
    if before.donors == 0 || after.donors != 0 {
        let taker = before.donors != 0 && !donor && answer != Answer::Issued;
        when(taker, Event::TakerFlushes);
        return;
    }
    when(woken, Event::DonationEndedByWakingFlush);
    let waits = !woken && answer == Answer::Waits;
    when(waits, Event::DonationEndedByWaitingFlush);
    let owed = !woken && answer == Answer::OnDebt;
    when(owed, Event::DonationEndedByOwedFlush);
}

/// Events of waiting flushes at a tick.
fn released(old: &Leaf, new: &Leaf, when: &mut dyn FnMut(bool, Event)) {
    let count = old.queue.len() - new.queue.len();
    let gone = old.queue.iter().take(count).any(|bio| bio.flush);
    when(gone, Event::FlushReleased);
    let behind = count > 0 && old.queue.iter().take(count).skip(1).any(|bio| bio.flush);
    when(behind, Event::FlushReleasedBehindOther);
    if let (false, Some(oldest)) = (new.owes(), new.queue.oldest()) {
        let relative = relative_cost(oldest.cost, new.share, Rules::TRUE);
        let one_short = relative == Relative(new.budget.0 + 1);
        when(oldest.flush && one_short, Event::FlushHeldOneShort);
        let held = new
            .queue
            .iter()
            .any(|bio| bio.flush && new.fits(bio.cost, Rules::TRUE));
        when(held, Event::FlushHeldBehindDearer);
    }
}
