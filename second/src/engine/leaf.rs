//! One leaf: its share, budget, debt and waiting bios.

use crate::engine::numbers::{floor, Absolute, Relative, WHOLE};
use crate::engine::rules::{Mutant, Rules};

/// Waiting bios a leaf has room for.
pub const QUEUE_ROOM: usize = 8;
/// What a leaf may save while it owes nothing and nothing waits.
pub const IDLE_CAP: Relative = Relative(1 << 27);

#[derive(Clone, Copy, Debug, Default, PartialEq, Eq)]
pub struct Waiting {
    pub id: u32,
    pub cost: Absolute,
    /// The share its leaf had when it came; only a mutant looks at it.
    pub share: u64,
    /// Whether it is a flush; here too only a mutant asks.
    pub flush: bool,
}

/// The waiting bios of a leaf, oldest first, in a ring of fixed room.
#[derive(Clone, Debug, Default, PartialEq, Eq)]
pub struct Queue {
    places: [Waiting; QUEUE_ROOM],
    first: usize,
    count: usize,
}

impl Queue {
    pub fn len(&self) -> usize {
        self.count
    }

    pub fn is_empty(&self) -> bool {
        self.count == 0
    }

    pub fn oldest(&self) -> Option<Waiting> {
        self.iter().next()
    }

    pub fn iter(&self) -> impl Iterator<Item = Waiting> + '_ {
        (0..self.count).map(move |behind| self.places[(self.first + behind) % QUEUE_ROOM])
    }

    /// The caller has seen that there is room (refusal 7).
    fn push(&mut self, bio: Waiting) {
        self.places[(self.first + self.count) % QUEUE_ROOM] = bio;
        self.count += 1;
    }

    /// Takes the bio so many places behind the oldest; those before it move
    /// up by one place.
    fn take(&mut self, behind: usize) {
        for place in (0..behind).rev() {
            self.places[(self.first + place + 1) % QUEUE_ROOM] =
                self.places[(self.first + place) % QUEUE_ROOM];
        }
        self.first = (self.first + 1) % QUEUE_ROOM;
        self.count -= 1;
    }
}

/// CEIL(cost x WHOLE / share), the cost as seen from a leaf of that share.
pub fn relative_cost(cost: Absolute, share: u64, rules: Rules) -> Relative {
    Relative(rules.ceil(Mutant::RelativeRoundedDown, cost.0, WHOLE, share))
}

#[derive(Clone, Debug, Default, PartialEq, Eq)]
pub struct Leaf {
    /// The current share; 0 while the leaf is inactive.
    pub share: u64,
    pub budget: Relative,
    pub debt: Absolute,
    pub queue: Queue,
    /// Cost charged since the last plan: issued, released, repaid.
    pub usage: Absolute,
    /// Whether a bio was accepted since the last plan.
    pub accepted: bool,
    /// Where the last accepted bio that is no flush ended, if there was one.
    pub end: Option<u64>,
}

impl Leaf {
    pub fn owes(&self) -> bool {
        self.debt != Absolute(0)
    }

    /// Neither a debt nor a waiting bio.
    pub fn is_clear(&self) -> bool {
        !self.owes() && self.queue.is_empty()
    }

    /// Whether the budget covers `cost`. No cost is 0, so nothing fits an
    /// inactive leaf, whose budget becomes 0 with its first bio.
    pub fn fits(&self, cost: Absolute, rules: Rules) -> bool {
        self.share != 0 && self.covers(relative_cost(cost, self.share, rules), rules)
    }

    #[inline(always)]
    fn covers(&self, relative: Relative, rules: Rules) -> bool {
        relative < self.budget || relative == self.budget && !rules.changed(Mutant::FitsStrictly)
    }

    /// Charges a bio that is issued and so fits.
    pub fn issue(&mut self, cost: Absolute, flush: bool, rules: Rules) {
        let relative = relative_cost(cost, self.share, rules);
        let (free, no_usage) = if flush {
            let free = rules.changed(Mutant::IssuedFlushNoBudget);
            (free, Mutant::IssuedFlushNoUsage)
        } else {
            (false, Mutant::IssuedNoUsage)
        };
        self.charge(cost, relative, free, no_usage, rules);
    }

    #[inline(always)]
    fn charge(
        &mut self,
        cost: Absolute,
        relative: Relative,
        free: bool,
        no_usage: Mutant,
        rules: Rules,
    ) {
        if !free {
            // Only a mutant may ask for more than there is.
            self.budget.0 = self.budget.0.saturating_sub(relative.0);
        }
        if rules.changed(Mutant::UsageRelative) {
            self.usage.0 += relative.0;
        } else if !rules.changed(no_usage) {
            self.usage += cost;
        }
    }

    pub fn wait(&mut self, id: u32, cost: Absolute, flush: bool, rules: Rules) {
        // Only a mutant has a bio wait where there is no room; it is lost.
        if self.queue.len() < QUEUE_ROOM {
            self.queue.push(Waiting {
                id,
                cost,
                share: self.share,
                flush,
            });
        }
        if rules.changed(Mutant::WaitIsUsage) {
            self.usage += cost;
        }
    }

    /// The whole cost of a forced bio goes on debt; the budget stays.
    pub fn owe(&mut self, cost: Absolute, flush: bool, rules: Rules) {
        if !(flush && rules.changed(Mutant::FlushOwesNothing)) {
            self.debt += cost;
        }
        if rules.changed(Mutant::DebtIsUsage) {
            self.usage += cost;
        }
        if rules.changed(Mutant::DebtTakesBudget) {
            self.repay(rules);
        }
    }

    /// The tick of one active leaf: gain, repay, release, cap. The released
    /// ids are put at the front of `released`; the answer is their count.
    pub fn tick(&mut self, growth: u64, released: &mut [u32], rules: Rules) -> usize {
        // With the true rules as a constant, the compiler leaves out what
        // only mutants ask; ticks are most of the work.
        if rules == Rules::TRUE {
            self.turn(growth, released, Rules::TRUE)
        } else {
            self.turn(growth, released, rules)
        }
    }

    #[inline(always)]
    fn turn(&mut self, growth: u64, released: &mut [u32], rules: Rules) -> usize {
        let owed = self.owes();
        let gain = if rules.changed(Mutant::GainByShare) {
            floor(growth, self.share, WHOLE)
        } else {
            growth
        };
        let gain_late = rules.changed(Mutant::GainAfterRepayment);
        if !gain_late {
            self.budget.0 += gain;
        }
        if owed {
            self.repay(rules);
        }
        if gain_late {
            self.budget.0 += gain;
        }
        let cap_early = rules.changed(Mutant::CapBeforeRelease)
            || rules.changed(Mutant::CapWaiterBeforeRelease);
        if cap_early {
            self.cap(rules);
        }
        let held = self.owes() || owed && rules.changed(Mutant::ReleaseATickLater);
        let count = if held {
            0
        } else {
            self.release(released, rules)
        };
        if !cap_early {
            self.cap(rules);
        }
        count
    }

    fn repay(&mut self, rules: Rules) {
        if rules.changed(Mutant::CapBeforeRepayment) {
            self.budget = self.budget.min(IDLE_CAP);
        }
        let worth = rules.floor(Mutant::RepaymentRoundedUp, self.budget.0, self.share, WHOLE);
        let mut paid = self.debt.min(Absolute(worth));
        if paid < self.debt && rules.changed(Mutant::RepaymentInWhole) {
            paid = Absolute(0);
        }
        self.debt -= paid;
        let price = if rules.changed(Mutant::RepaymentAbsolute) {
            paid.0
        } else {
            rules.ceil(Mutant::RepaymentRoundedDown, paid.0, WHOLE, self.share)
        };
        // Only a mutant may ask for more than there is.
        self.budget.0 = self.budget.0.saturating_sub(price);
        if rules.changed(Mutant::UsageRelative) {
            self.usage.0 += price;
        } else if !rules.changed(Mutant::RepaymentNoUsage) {
            self.usage += paid;
        }
    }

    /// Releases waiting bios, oldest first, while they fit.
    #[inline(always)]
    fn release(&mut self, released: &mut [u32], rules: Rules) -> usize {
        let mut count = 0;
        while let Some((behind, bio)) = self.next_to_go(rules) {
            let relative = self.price(bio, rules);
            let one_only = count == 1 && rules.changed(Mutant::ReleaseOnlyOne);
            let anyway = bio.flush && rules.changed(Mutant::FlushReleasedAnyway);
            if !self.covers(relative, rules) && !anyway || one_only {
                break;
            }
            let (free, no_usage) = if bio.flush {
                let free = rules.changed(Mutant::ReleasedFlushNoBudget);
                (free, Mutant::ReleasedFlushNoUsage)
            } else {
                (false, Mutant::ReleasedNoUsage)
            };
            self.charge(bio.cost, relative, free, no_usage, rules);
            self.queue.take(behind);
            released[count] = bio.id;
            count += 1;
        }
        count
    }

    /// The bio to release next, if it fits, and its place behind the oldest:
    /// it is the oldest, and holds back all behind it.
    #[inline(always)]
    fn next_to_go(&self, rules: Rules) -> Option<(usize, Waiting)> {
        let mut waiting = self.queue.iter().enumerate();
        if rules.changed(Mutant::ReleaseNewestFirst) {
            waiting.last()
        } else if rules.changed(Mutant::FlushReleasedFirst) {
            waiting.min_by_key(|(behind, bio)| (!bio.flush, *behind))
        } else if rules.changed(Mutant::ReleasePassesOldest) {
            waiting.find(|(_, bio)| self.covers(self.price(*bio, rules), rules))
        } else {
            waiting.next()
        }
    }

    /// The relative cost of a waiting bio, worked out anew.
    #[inline(always)]
    fn price(&self, bio: Waiting, rules: Rules) -> Relative {
        let share = if rules.changed(Mutant::RelativeKept) {
            bio.share
        } else {
            self.share
        };
        relative_cost(bio.cost, share, rules)
    }

    #[inline(always)]
    fn cap(&mut self, rules: Rules) {
        let waiters_too =
            rules.changed(Mutant::CapWhileWaiting) || rules.changed(Mutant::CapWaiterBeforeRelease);
        let most = rules.limit(Mutant::CapOneLess, Mutant::CapOneMore, IDLE_CAP.0);
        if !self.owes() && (self.queue.is_empty() || waiters_too) {
            self.budget = self.budget.min(Relative(most));
        }
    }

    /// Gives the leaf a new share. Budget saved at a smaller share is worth
    /// less at a larger one, so it is scaled down; it is never scaled up.
    /// Under the mutant `kept`, which is that of the call, it stays.
    pub fn change_share(&mut self, share: u64, kept: Mutant, rules: Rules) {
        let scaled = share > self.share || rules.changed(Mutant::BudgetScaledAtFall);
        if scaled && !rules.changed(Mutant::BudgetKeptAtRise) && !rules.changed(kept) {
            self.budget.0 = if rules.changed(Mutant::BudgetHalvedAtRise) {
                self.budget.0 / 2
            } else {
                rules.floor(Mutant::BudgetRoundedUp, self.budget.0, self.share, share)
            };
        }
        if share > self.share && rules.changed(Mutant::DebtScaledAtRise) {
            self.debt.0 = floor(self.debt.0, self.share, share);
        }
        self.share = share;
    }

    /// FLOOR(d / 2) of the debt is forgiven.
    pub fn forgive(&mut self, rules: Rules) {
        let forgiven = rules.floor(Mutant::ForgivenRoundedUp, self.debt.0, 1, 2);
        self.debt -= Absolute(forgiven);
    }
}
