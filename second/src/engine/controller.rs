//! The controller: start, submit, tick and plan. The clock, which says how far
//! a tick goes, base shares, a weight and what is special of a flush are next
//! door.
//!
//! Every call first finds its answer or its refusal without changing
//! anything, and only then changes the state; a refused call so leaves the
//! controller and any lent buffer as they were.

use crate::engine::base::{Call, Passes};
use crate::engine::clock::{fresh_remainder, FRESH_VRATE};
use crate::engine::cost::{is_sequential, Bio, Model, Rates, MAX_COST};
use crate::engine::leaf::{Leaf, QUEUE_ROOM};
use crate::engine::numbers::{floor, is_member, members, Absolute, Relative, WHOLE};
use crate::engine::refusal::Refusal;
use crate::engine::rules::{Mutant, Rules};
use crate::engine::shares::{Shares, SHARE_FLOOR};
use crate::engine::tree::{Node, Tree, MAX_NODES};

/// The most bios that can wait over all leaves.
pub const MAX_WAITING: usize = (MAX_NODES - 1) * QUEUE_ROOM;
pub const MAX_DEBT: Absolute = Absolute(1 << 40);

/// What a submitted bio is told when it is not refused.
#[derive(Clone, Copy, Debug, PartialEq, Eq)]
pub enum Answer {
    Issued,
    Waits,
    OnDebt,
}

#[derive(Clone, Debug, PartialEq, Eq)]
pub struct Controller {
    pub tree: Tree,
    pub model: Model,
    pub leaves: [Leaf; MAX_NODES],
    /// The active leaves.
    pub active: u64,
    /// The donors of the standing donation; empty if none stands.
    pub donors: u64,
    pub vrate: u16,
    /// The last accepted time.
    pub time: u64,
    pub virtual_time: u64,
    /// What virtual time is behind, in hundredths of a nanosecond: below 100.
    pub remainder: u64,
    /// E: virtual time since the last plan, or start.
    pub period: u64,
    pub(super) aside: Aside,
    pub(super) rules: Rules,
}

/// What no rule keeps, but a mutant does.
#[derive(Clone, Debug, PartialEq, Eq)]
pub(super) struct Aside {
    /// The time of start.
    pub(super) start: u64,
    /// The hundredths of the last tick by itself.
    pub(super) hundredths: u64,
    /// A remainder of each leaf, from its activation on.
    pub(super) rest_of_leaves: [u64; MAX_NODES],
    /// A remainder of E, from the last plan on.
    pub(super) rest_of_period: u64,
    /// A vrate that is still to come into force.
    pub(super) vrate: Option<u16>,
    /// The tree as the setup gave it.
    pub(super) tree: Tree,
    pub(super) passes: Passes,
    /// The leaves with an accepted flush.
    pub(super) flushed: u64,
}

impl Controller {
    /// A fresh state of all that is given, not yet looked at; refusals 20 to
    /// 23, 2 and 3.
    pub fn start_of(
        nodes: &[Node],
        rates: &Rates,
        time: u64,
        rules: Rules,
    ) -> Result<Controller, Refusal> {
        let tree = Tree::of(nodes, rules)?;
        tree.check(rules)?;
        let model = Model::new(rates, rules)?;
        Controller::start(tree, model, time, rules)
    }

    /// A fresh state, or refusal 20 or 2 for the tree.
    pub fn start(tree: Tree, model: Model, time: u64, rules: Rules) -> Result<Controller, Refusal> {
        tree.check(rules)?;
        let aside = Aside {
            start: time,
            hundredths: 0,
            rest_of_leaves: [0; MAX_NODES],
            rest_of_period: 0,
            vrate: None,
            tree: tree.clone(),
            passes: Passes::new(&tree),
            flushed: 0,
        };
        Ok(Controller {
            tree,
            model,
            leaves: std::array::from_fn(|_| Leaf::default()),
            active: 0,
            donors: 0,
            vrate: FRESH_VRATE,
            time: if rules.changed(Mutant::StartAtZero) {
                0
            } else {
                time
            },
            virtual_time: 0,
            remainder: fresh_remainder(rules),
            period: 0,
            aside,
            rules,
        })
    }

    /// Submits a bio; refusals 4 to 8.
    pub fn submit(&mut self, bio: &Bio) -> Result<Answer, Refusal> {
        if self.rules.changed(Mutant::RangeBeforeLeaf) {
            bio.check(self.rules)?;
        }
        let number = self.leaf_of(bio)?;
        let (answer, cost) = match self.judge(number, bio) {
            Ok(judged) => judged,
            Err(refusal) => {
                self.note_refused(number, bio);
                return Err(refusal);
            }
        };
        self.note_accepted(number, bio, answer);
        self.keep_remainder(Mutant::RestLostAtBio);
        let flush = bio.is_flush(self.rules);
        let wakes = !(flush && self.rules.changed(Mutant::FlushWakesNobody));
        if !is_member(self.active, number) && wakes {
            self.activate(number);
            self.keep_remainder(Mutant::RestLostAtActivation);
        }
        let leaf = &mut self.leaves[number];
        match answer {
            Answer::Issued => leaf.issue(cost, flush, self.rules),
            Answer::Waits => leaf.wait(bio.id, cost, flush, self.rules),
            Answer::OnDebt => leaf.owe(cost, flush, self.rules),
        }
        if self.ends_donation(number, answer, flush) {
            self.return_to_base(number);
        }
        Ok(answer)
    }

    /// The number of the bio's leaf; refusal 4. Absent nodes may have numbers
    /// above those a set can hold.
    fn leaf_of(&self, bio: &Bio) -> Result<usize, Refusal> {
        let number = usize::from(bio.node);
        let is_node = (1..self.tree.count()).contains(&number);
        let is_inner = self.tree.is_inner(number);
        let inner_good = self.rules.changed(Mutant::InnerSubmits)
            || self.rules.changed(Mutant::InnerFlushes) && bio.is_flush(self.rules);
        if is_node && (!is_inner || inner_good) {
            Ok(number)
        } else {
            Err(Refusal::NoLeaf)
        }
    }

    /// An accepted bio but a flush moves its leaf's end, whatever the answer;
    /// and every one keeps the leaf active at the next plan.
    fn note_accepted(&mut self, number: usize, bio: &Bio, answer: Answer) {
        let (leaves_end, not_counted) = match answer {
            Answer::Issued => (Mutant::IssuedLeavesEnd, Mutant::IssuedNotAccepted),
            Answer::Waits => (Mutant::WaitLeavesEnd, Mutant::WaitNotAccepted),
            Answer::OnDebt => (Mutant::DebtLeavesEnd, Mutant::DebtNotAccepted),
        };
        let owed_and_left =
            self.leaves[number].owes() && self.rules.changed(Mutant::OwingLeavesEnd);
        let flush = bio.is_flush(self.rules);
        if flush {
            self.note_flush(number, bio, answer);
        } else if !owed_and_left && !self.rules.changed(leaves_end) {
            self.move_end(number, bio);
        }
        let counted = !(flush && self.rules.changed(Mutant::FlushNotAccepted));
        if counted && !self.rules.changed(not_counted) {
            self.leaves[number].accepted = true;
        }
    }

    /// A refused bio changes nothing, but under a mutant.
    fn note_refused(&mut self, number: usize, bio: &Bio) {
        let refused_flush =
            self.rules.changed(Mutant::RefusedFlushMovesEnd) && bio.is_flush(self.rules);
        if self.rules.changed(Mutant::RefusedMovesEnd) || refused_flush {
            self.move_end(number, bio);
        }
        if self.rules.changed(Mutant::RefusedAccepted) {
            self.leaves[number].accepted = true;
        }
        let inactive = !is_member(self.active, number);
        if inactive && self.rules.changed(Mutant::RefusedActivates) {
            self.activate(number);
        }
        self.keep_remainder(Mutant::RestLostAtRefusedBio);
    }

    pub(super) fn move_end(&mut self, number: usize, bio: &Bio) {
        let end = if self.rules.changed(Mutant::EndAtFirstSector) {
            bio.sector
        } else {
            bio.end()
        };
        self.leaves[self.end_holder(number)].end = Some(end);
    }

    /// Each leaf has its own end; the root's place is free for a shared one.
    fn end_holder(&self, number: usize) -> usize {
        if self.rules.changed(Mutant::EndOfAllLeaves) {
            0
        } else {
            number
        }
    }

    /// Whether a bio is sequential for a leaf.
    pub(super) fn is_sequential(&self, number: usize, bio: &Bio) -> bool {
        let end = self.leaves[self.end_holder(number)].end;
        is_sequential(end, bio.sector, self.rules)
            || self.rules.changed(Mutant::NearByOwnEnd) && is_sequential(end, bio.end(), self.rules)
            || self.is_second_to_flush(number)
    }

    /// The cost of a bio to a leaf by the formula, not yet held to its limit;
    /// a flush has its own.
    pub fn cost_of(&self, number: usize, bio: &Bio) -> Absolute {
        if bio.is_flush(self.rules) {
            return self.flush_cost(number, bio);
        }
        let sequential = self.is_sequential(number, bio);
        self.model
            .cost(bio.is_write(), sequential, bio.bytes, self.rules)
    }

    /// The answer and the cost of a bio to a leaf; refusals 5 to 8.
    fn judge(&self, number: usize, bio: &Bio) -> Result<(Answer, Absolute), Refusal> {
        bio.check(self.rules)?;
        let cost = self.cost_of(number, bio);
        let limit = self.rules.limit(
            Mutant::CostLimitOneLess,
            Mutant::CostLimitOneMore,
            MAX_COST.0,
        );
        if cost.0 > limit {
            let early = if bio.is_forced() {
                Mutant::DebtBeforeCost
            } else {
                Mutant::QueueBeforeCost
            };
            if self.rules.changed(early) {
                self.answer(number, bio, cost)?;
            }
            return Err(Refusal::CostLimit);
        }
        Ok((self.answer(number, bio, cost)?, cost))
    }

    /// The answer to a bio of this cost; refusals 7 and 8.
    fn answer(&self, number: usize, bio: &Bio, cost: Absolute) -> Result<Answer, Refusal> {
        let leaf = &self.leaves[number];
        match self.rules.mutant() {
            Some(mutant) if bio.is_flush(self.rules) => self.answer_flush(mutant, leaf, bio, cost),
            _ if bio.is_forced() => self.judge_forced(leaf, cost),
            _ => self.judge_unforced(leaf, cost),
        }
    }

    pub(super) fn judge_unforced(&self, leaf: &Leaf, cost: Absolute) -> Result<Answer, Refusal> {
        let behind_debt = leaf.owes() && !self.rules.changed(Mutant::UnforcedPassesDebt);
        let behind_waiter =
            !leaf.queue.is_empty() && !self.rules.changed(Mutant::UnforcedPassesWaiter);
        if !behind_debt && !behind_waiter && leaf.fits(cost, self.rules) {
            return Ok(Answer::Issued);
        }
        let room = QUEUE_ROOM - usize::from(self.rules.changed(Mutant::QueueOneLess));
        if leaf.queue.len() >= room {
            return Err(Refusal::QueueFull);
        }
        Ok(Answer::Waits)
    }

    pub(super) fn judge_forced(&self, leaf: &Leaf, cost: Absolute) -> Result<Answer, Refusal> {
        let behind_debt = leaf.owes() && !self.rules.changed(Mutant::ForcedPassesDebt);
        let behind_waiter =
            !leaf.queue.is_empty() && self.rules.changed(Mutant::ForcedBehindWaiters);
        if !behind_debt && !behind_waiter && leaf.fits(cost, self.rules) {
            return Ok(Answer::Issued);
        }
        if leaf.queue.len() == QUEUE_ROOM && self.rules.changed(Mutant::QueueForForced) {
            return Err(Refusal::QueueFull);
        }
        let mut debt = leaf.debt;
        if !self.rules.changed(Mutant::DebtLimitAlone) {
            debt += cost;
        }
        if debt.0
            > self.rules.limit(
                Mutant::DebtLimitOneLess,
                Mutant::DebtLimitOneMore,
                MAX_DEBT.0,
            )
        {
            return Err(Refusal::DebtLimit);
        }
        Ok(Answer::OnDebt)
    }

    /// A new active leaf starts with nothing and ends any donation.
    fn activate(&mut self, number: usize) {
        if self.rules.changed(Mutant::ActivationThroughBase) {
            self.return_to_base(number);
        }
        self.active |= 1 << number;
        let shares = self.base_shares(Call::Activation(number));
        let leaf = &mut self.leaves[number];
        let keeps = self.rules.changed(Mutant::InactiveKeepsBudget)
            || self.rules.changed(Mutant::InactiveGains);
        if !keeps {
            leaf.budget = Relative(0);
        }
        leaf.share = shares[number];
        self.aside.rest_of_leaves[number] = 0;
        self.donors = 0;
        if !self.rules.changed(Mutant::ActivationKeepsShares) {
            self.set_shares(&shares, Mutant::BudgetKeptAtActivation);
        }
    }

    /// Whether a bio with this answer ends the donation: a donor's that was
    /// not issued.
    fn ends_donation(&self, number: usize, answer: Answer, flush: bool) -> bool {
        let giver =
            is_member(self.donors, number) || self.rules.changed(Mutant::AnyWaitEndsDonation);
        let ends = match answer {
            Answer::Issued => {
                self.rules.changed(Mutant::DonorIssueEndsDonation)
                    || flush && self.rules.changed(Mutant::DonorFlushEndsDonation)
            }
            _ if flush && self.rules.changed(Mutant::DonorFlushKeepsDonation) => false,
            Answer::Waits => !self.rules.changed(Mutant::DonorWaitKeepsDonation),
            Answer::OnDebt => !self.rules.changed(Mutant::DonorDebtKeepsDonation),
        };
        giver && ends
    }

    /// Ends the donation, by what a leaf was answered.
    pub(super) fn return_to_base(&mut self, number: usize) {
        self.donors = 0;
        let shares = self.base_shares(Call::End(number));
        self.set_shares(&shares, Mutant::BudgetKeptAtEnd);
    }

    /// Each call sets shares at most once, so the share a leaf has here is
    /// the one it held before the call. `kept` is the mutant under which
    /// budgets stay at such a call.
    pub(super) fn set_shares(&mut self, shares: &Shares, kept: Mutant) {
        for number in members(self.active) {
            self.leaves[number].change_share(shares[number], kept, self.rules);
        }
    }

    /// Passes to a new time; refusals 9 to 13. The released ids are put at
    /// the front of `released`; the answer is their count.
    pub fn tick(&mut self, time: u64, released: &mut [u32]) -> Result<usize, Refusal> {
        let growth = match self.growth(time) {
            Ok(growth) => growth,
            Err(refusal) => {
                self.note_refused_tick(time, refusal);
                return Err(refusal);
            }
        };
        // A buffer for all that can wait is long enough, whatever waits.
        if released.len() < MAX_WAITING && released.len() < self.waiting() {
            return Err(Refusal::ReleaseBufferShort);
        }
        if time == self.time && self.rules.changed(Mutant::TickOfZeroSkipped) {
            return Ok(0);
        }
        let elapsed = time - self.time;
        self.advance(time, growth);
        let count = self.take_turns(growth.whole, released);
        self.note_accepted_tick(elapsed, count);
        Ok(count)
    }

    /// Each active leaf has its turn, by rising number. The answer is the
    /// count of released bios.
    pub(super) fn take_turns(&mut self, growth: u64, released: &mut [u32]) -> usize {
        let mut left = if self.rules.changed(Mutant::InactiveGains) {
            members(self.tree.leaves())
        } else {
            members(self.active)
        };
        let falling = self.rules.changed(Mutant::FallingTurns);
        let mut count = 0;
        while let Some(number) = if falling {
            left.next_back()
        } else {
            left.next()
        } {
            let gain = self.gain_of(number, growth);
            count += self.leaves[number].tick(gain, &mut released[count..], self.rules);
        }
        count
    }

    /// Bios waiting over all leaves; at an inactive leaf none waits.
    pub fn waiting(&self) -> usize {
        members(self.active)
            .map(|number| self.leaves[number].queue.len())
            .sum()
    }

    /// Plans the shares up to the next plan; refusal 14.
    pub fn plan(&mut self) -> Result<(), Refusal> {
        if self.remainder > 0 && self.rules.changed(Mutant::PlanOfBegun) {
            // Nothing may be divided by an E of 0.
            self.period = self.period.max(1);
        }
        if self.period == 0 {
            self.restart(Mutant::RefusedPlanUsage, Mutant::RefusedPlanAccepted);
            self.keep_remainder(Mutant::RestLostAtRefusedPlan);
            return Err(Refusal::PeriodEmpty);
        }
        let was_active = self.active;
        if self.rules.changed(Mutant::ForgiveByStaying) {
            self.retire_idle();
        }
        let usage = self.usage();
        for number in members(self.active) {
            if self.forgives(number, usage) {
                self.leaves[number].forgive(self.rules);
            }
        }
        self.retire_idle();
        let base = self.base_shares(Call::Plan(was_active));
        let mut shares = base;
        self.donors = self.donate(&mut shares, was_active);
        self.close_plan(&base, &shares, was_active);
        Ok(())
    }

    /// Budgets follow the shares; E and usages start at 0.
    fn close_plan(&mut self, base: &Shares, shares: &Shares, was_active: u64) {
        if self.rules.changed(Mutant::PlanThroughBase) {
            self.set_shares(base, Mutant::BudgetKeptAtPlan);
        }
        if self.rules.changed(Mutant::PlanFromBase) {
            for number in members(self.active) {
                self.leaves[number].share = base[number];
            }
        }
        let unmoved = self.donors == 0 && self.active == was_active;
        if !(unmoved && self.rules.changed(Mutant::HeldSharesStand)) {
            self.set_shares(shares, Mutant::BudgetKeptAtPlan);
        }
        for number in members(self.tree.leaves()) {
            let leaf = &mut self.leaves[number];
            if !self.rules.changed(Mutant::UsageKept) {
                leaf.usage = Absolute(0);
            }
            if !self.rules.changed(Mutant::AcceptedKept) {
                leaf.accepted = false;
            }
        }
        if !self.rules.changed(Mutant::PeriodKept) {
            self.period = 0;
        }
        self.aside.rest_of_period = 0;
        self.keep_remainder(Mutant::RestLostAtPlan);
    }

    /// Neither a refused plan nor a weight starts these anew, but under a
    /// mutant.
    pub(super) fn restart(&mut self, usage: Mutant, accepted: Mutant) {
        for leaf in &mut self.leaves {
            if self.rules.changed(usage) {
                leaf.usage = Absolute(0);
            }
            if self.rules.changed(accepted) {
                leaf.accepted = false;
            }
        }
    }

    /// The usage of all leaves since the last plan.
    pub fn usage(&self) -> Absolute {
        Absolute(
            members(self.active)
                .map(|number| self.leaves[number].usage.0)
                .sum(),
        )
    }

    /// Whether a leaf's debt is halved: only where the device, at this usage
    /// of all leaves, was less than half used.
    fn forgives(&self, number: usize, usage_of_all: Absolute) -> bool {
        let usage = if self.rules.changed(Mutant::ForgiveByOwnUsage) {
            self.leaves[number].usage
        } else {
            usage_of_all
        };
        let counted = if self.rules.changed(Mutant::ForgiveBelowE) {
            usage.0
        } else {
            2 * usage.0
        };
        counted < self.period
            || counted == self.period && self.rules.changed(Mutant::ForgiveAtHalf)
            || self.rules.changed(Mutant::ForgiveWhenBusy)
    }

    /// Leaves without a bio, waiter or debt since the last plan go inactive.
    fn retire_idle(&mut self) {
        for number in members(self.active) {
            let leaf = &mut self.leaves[number];
            let had_bio = if self.rules.changed(Mutant::InactiveByUsage) {
                leaf.usage != Absolute(0)
            } else {
                leaf.accepted && !self.rules.changed(Mutant::InactiveWithBio)
            };
            let waits = !leaf.queue.is_empty() && !self.rules.changed(Mutant::InactiveWithWaiter);
            let owes = leaf.owes() && !self.rules.changed(Mutant::InactiveWithDebt);
            if had_bio || waits || owes {
                continue;
            }
            self.active &= !(1 << number);
            leaf.share = 0;
            if self.rules.changed(Mutant::EndForgotten) {
                leaf.end = None;
            }
            if !self.rules.changed(Mutant::InactiveKeepsBudget) {
                leaf.budget = Relative(0);
            }
        }
    }

    /// The share a leaf of this usage would do with.
    pub fn target(&self, leaf: &Leaf) -> u64 {
        let usage = leaf.usage.0.min(self.period);
        let used = self
            .rules
            .ceil(Mutant::UsageRoundedDown, usage, WHOLE, self.period);
        let margin = if self.rules.changed(Mutant::TargetNoMargin) {
            0
        } else {
            self.rules.floor(Mutant::TargetMarginRoundedUp, used, 1, 4)
        };
        let least = if self.rules.changed(Mutant::TargetFloorOne) {
            1
        } else {
            SHARE_FLOOR - u64::from(self.rules.changed(Mutant::TargetFloorOneLess))
        };
        least.max(used + margin)
    }

    /// The active leaves that could do with less than their base share.
    fn find_donors(&self, base: &Shares, was_active: u64) -> u64 {
        let mut donors = 0;
        let compared = if self.rules.changed(Mutant::DonorByOldBase) {
            self.tree.base_shares(was_active, self.rules)
        } else {
            *base
        };
        for number in members(self.active) {
            let leaf = &self.leaves[number];
            let waits = !leaf.queue.is_empty() && !self.rules.changed(Mutant::WaitingLeafDonates);
            let owes = leaf.owes() && !self.rules.changed(Mutant::OwingLeafDonates);
            let own = if self.rules.changed(Mutant::DonorByHeld) {
                leaf.share
            } else {
                compared[number]
            };
            let target = self.target(leaf);
            let gives = target < own || target == own && self.rules.changed(Mutant::DonorAtBase);
            if !waits && !owes && gives {
                donors |= 1 << number;
            }
        }
        donors
    }

    /// Turns base shares into those of a donation and answers its donors,
    /// none if base shares stand.
    fn donate(&self, shares: &mut Shares, was_active: u64) -> u64 {
        let donors = self.find_donors(shares, was_active);
        let others = self.active & !donors;
        if donors == 0 || others == 0 && !self.rules.changed(Mutant::AllDonate) {
            return 0;
        }
        let base_of_all: u64 = members(self.active).map(|number| shares[number]).sum();
        let base_of_others: u64 = members(others).map(|number| shares[number]).sum();
        // S - T: what the targets leave of all base shares.
        let mut pool = if self.rules.changed(Mutant::PoolOfWhole) {
            WHOLE
        } else {
            base_of_all + self.share_of_others()
        };
        for number in members(donors) {
            shares[number] = self.target(&self.leaves[number]);
            // Only a mutant's targets may pass what there is.
            pool = pool.saturating_sub(shares[number]);
        }
        let given = pool.saturating_sub(base_of_others);
        let mut rest = pool;
        for number in members(others) {
            shares[number] = if self.rules.changed(Mutant::EvenSplit) {
                shares[number] + given / u64::from(others.count_ones())
            } else {
                floor(shares[number], pool, base_of_others)
            };
            rest = rest.saturating_sub(shares[number]);
        }
        if let Some(taker) = self.rest_taker(donors) {
            shares[taker] += rest;
        }
        donors
    }

    /// Who gets what remains: the lowest-numbered non-donor.
    fn rest_taker(&self, donors: u64) -> Option<usize> {
        let others = self.active & !donors;
        if self.rules.changed(Mutant::RemainderLost) {
            None
        } else if self.rules.changed(Mutant::RemainderToLast) {
            members(others).next_back()
        } else if self.rules.changed(Mutant::RemainderToDonor) {
            members(donors).next()
        } else if self.rules.changed(Mutant::RemainderToFirst) {
            members(self.active).next()
        } else {
            members(others).next()
        }
    }
}
