//! The controller's clock: how far virtual time grows at a tick, what is left
//! over for the next one, and the rate at which it goes.

use crate::engine::controller::Controller;
use crate::engine::refusal::Refusal;
use crate::engine::rules::{Mutant, Rules};

pub const MAX_ELAPSED: u64 = 1_000_000_000;
pub const MAX_VIRTUAL_TIME: u64 = 1 << 60;
pub const MAX_PERIOD: u64 = 1 << 33;
pub const FRESH_VRATE: u16 = 100;
pub const MAX_VRATE: u16 = 400;
/// So many hundredths, the unit of the remainder, are a nanosecond.
pub const HUNDREDTHS: u64 = 100;
/// At any rate, so long a time makes E pass its limit. The hundredths of it
/// still fit 64 bits.
pub const TOO_LONG: u64 = HUNDREDTHS * (MAX_PERIOD + 1);

/// What a time adds to virtual time.
#[derive(Clone, Copy, Debug, PartialEq, Eq)]
pub struct Growth {
    /// Whole nanoseconds.
    pub whole: u64,
    /// What is left over, in hundredths: the new remainder.
    pub remainder: u64,
}

impl Growth {
    /// Hundredths of a nanosecond, divided.
    pub fn of(hundredths: u64) -> Growth {
        Growth {
            whole: hundredths / HUNDREDTHS,
            remainder: hundredths % HUNDREDTHS,
        }
    }
}

/// A fresh remainder is 0, but under a mutant.
pub(super) fn fresh_remainder(rules: Rules) -> u64 {
    match rules.mutant() {
        Some(Mutant::RestStartsAt1) => 1,
        Some(Mutant::RestStartsAt50) => 50,
        Some(Mutant::RestStartsAt99) => 99,
        _ => 0,
    }
}

impl Controller {
    /// How far virtual time grows up to `time`; refusals 9 to 12.
    pub(super) fn growth(&self, time: u64) -> Result<Growth, Refusal> {
        if time < self.time {
            return Err(if self.rules.changed(Mutant::BackIsJump) {
                Refusal::TimeJump
            } else {
                Refusal::TimeBack
            });
        }
        let elapsed = time - self.time;
        let longest = self.rules.limit(
            Mutant::ElapsedLimitOneLess,
            Mutant::ElapsedLimitOneMore,
            MAX_ELAPSED,
        );
        let growth = self.grown(elapsed.min(TOO_LONG));
        if elapsed > longest {
            let late = self.period + growth.whole > MAX_PERIOD;
            if late && self.rules.changed(Mutant::PeriodBeforeJump) {
                return Err(Refusal::PeriodLimit);
            }
            return Err(Refusal::TimeJump);
        }
        if self.virtual_time + growth.whole > MAX_VIRTUAL_TIME {
            return Err(Refusal::VirtualTimeLimit);
        }
        if self.is_period_too_long(elapsed, growth) {
            return Err(Refusal::PeriodLimit);
        }
        Ok(growth)
    }

    /// Refusal 12.
    fn is_period_too_long(&self, elapsed: u64, growth: Growth) -> bool {
        let longest = self.rules.limit(
            Mutant::PeriodLimitOneLess,
            Mutant::PeriodLimitOneMore,
            MAX_PERIOD,
        );
        let judged = match self.rules.mutant() {
            Some(Mutant::PeriodLimitOfTickAlone) => Growth::of(self.hundredths(elapsed)).whole,
            Some(Mutant::PeriodLimitBegun) => growth.whole + u64::from(growth.remainder != 0),
            _ => growth.whole,
        };
        self.period + judged > longest
    }

    /// What an elapsed time is at the present rate, in hundredths. It is at
    /// most `TOO_LONG`.
    fn hundredths(&self, elapsed: u64) -> u64 {
        elapsed * u64::from(self.vrate)
    }

    /// What an elapsed time of at most `TOO_LONG` adds: FLOOR((elapsed x vrate
    /// + remainder) / 100), and what is left over.
    pub fn grown(&self, elapsed: u64) -> Growth {
        let own = self.hundredths(elapsed);
        let sum = own + self.remainder;
        match self.rules.mutant() {
            None => Growth::of(sum),
            Some(mutant) => self.grown_by(mutant, elapsed, own, sum),
        }
    }

    /// The same under a mutant; `own` are the tick's own hundredths, and `sum`
    /// those with the remainder.
    fn grown_by(&self, mutant: Mutant, elapsed: u64, own: u64, sum: u64) -> Growth {
        let held = self.remainder;
        let alone = Growth::of(own);
        let both = Growth::of(sum);
        let paid = both.whole > alone.whole;
        let (whole, remainder) = match mutant {
            Mutant::GrowthRoundedUp => {
                (both.whole + u64::from(both.remainder != 0), both.remainder)
            }
            Mutant::GrowthRoundedNear => (Growth::of(sum + 50).whole, both.remainder),
            Mutant::GrowthOfHundreds => (elapsed / 100 * u64::from(self.vrate), 0),
            Mutant::RestNeverKept => (alone.whole, 0),
            Mutant::RestPaidLate => {
                let late = Growth::of(held);
                (alone.whole + late.whole, alone.remainder + late.remainder)
            }
            Mutant::RestAsWhole => (alone.whole + held, alone.remainder),
            Mutant::RestTimesVrate => return Growth::of(self.hundredths(elapsed + held)),
            Mutant::RestTakenOff => return Growth::of(own.saturating_sub(held)),
            Mutant::RestOfLastTick => (both.whole, alone.remainder),
            Mutant::RestOnlyGrows => (both.whole, held + alone.remainder),
            Mutant::RestStaysWhenPaid if paid => (both.whole, held),
            Mutant::RestLostWhenPaid if paid => (both.whole, 0),
            Mutant::RestOnlyWithoutGrowth if both.whole > 0 => (both.whole, 0),
            Mutant::RestPaidOnlyAtZero if alone.whole > 0 => (alone.whole, both.remainder),
            Mutant::RestOnlyUpTo100 if self.vrate > 100 => (both.whole, 0),
            Mutant::RestModulo99 => (both.whole, sum % 99),
            Mutant::RestOfElapsed => {
                let vrate = u64::from(self.vrate);
                (both.whole, both.remainder / vrate * vrate)
            }
            Mutant::RestInTenths => (both.whole, both.remainder / 10 * 10),
            Mutant::RestFromStart => {
                return Growth::of(own + self.rest_of(self.time.abs_diff(self.aside.start)))
            }
            Mutant::RestOfTime => return Growth::of(own + self.rest_of(self.time)),
            _ => return both,
        };
        Growth { whole, remainder }
    }

    /// What a time, however long, leaves over at the present rate.
    fn rest_of(&self, time: u64) -> u64 {
        self.hundredths(time % HUNDREDTHS) % HUNDREDTHS
    }

    /// The clocks of an accepted tick.
    pub(super) fn advance(&mut self, time: u64, growth: Growth) {
        let elapsed = time - self.time;
        let own = self.hundredths(elapsed);
        self.period += match self.rules.mutant() {
            Some(Mutant::PeriodElapsed) => elapsed,
            Some(Mutant::PeriodOfTickAlone) => Growth::of(own).whole,
            Some(Mutant::RestOfPeriod) => {
                let grown = Growth::of(own + self.aside.rest_of_period);
                self.aside.rest_of_period = grown.remainder;
                grown.whole
            }
            _ => growth.whole,
        };
        if self.rules != Rules::TRUE {
            self.aside.hundredths = own;
        }
        if let Some(vrate) = self.aside.vrate.take() {
            self.vrate = vrate;
        }
        if self.rules.changed(Mutant::VrateOnce) {
            self.vrate = FRESH_VRATE;
        }
        self.time = time;
        self.virtual_time += growth.whole;
        self.remainder = growth.remainder;
    }

    /// What a leaf's budget gains at a tick: what virtual time grew by, but
    /// under a mutant.
    pub(super) fn gain_of(&mut self, number: usize, growth: u64) -> u64 {
        match self.rules.mutant() {
            Some(Mutant::GainOfTickAlone) => Growth::of(self.aside.hundredths).whole,
            Some(Mutant::RestOfLeaves) => {
                let rest = &mut self.aside.rest_of_leaves[number];
                let gain = Growth::of(self.aside.hundredths + *rest);
                *rest = gain.remainder;
                gain.whole
            }
            _ => growth,
        }
    }

    /// No call but an accepted tick moves the remainder. Under the mutant
    /// `lost`, which is that of the call, it is dropped.
    pub(super) fn keep_remainder(&mut self, lost: Mutant) {
        if self.rules.changed(lost) {
            self.remainder = 0;
        }
    }

    /// An accepted tick has moved the remainder by its time alone, but under a
    /// mutant.
    pub(super) fn note_accepted_tick(&mut self, elapsed: u64, released: usize) {
        if elapsed == 0 {
            self.keep_remainder(Mutant::RestLostAtTickOfZero);
        }
        if released > 0 {
            self.keep_remainder(Mutant::RestLostAtRelease);
        }
        if self.active == 0 {
            self.keep_remainder(Mutant::RestLostWithoutLeaf);
        }
    }

    /// A refused tick changes nothing, but under a mutant.
    pub(super) fn note_refused_tick(&mut self, time: u64, refusal: Refusal) {
        let (moved, lost) = match refusal {
            Refusal::TimeBack => (Mutant::RestMovedAtBack, Mutant::RestLostAtBack),
            Refusal::TimeJump => (Mutant::RestMovedAtJump, Mutant::RestLostAtJump),
            _ => (Mutant::RestMovedAtLimit, Mutant::RestLostAtLimit),
        };
        if self.rules.changed(moved) {
            let sum = self.rest_of(time.abs_diff(self.time)) + self.remainder;
            self.remainder = Growth::of(sum).remainder;
        }
        self.keep_remainder(lost);
        if self.rules.changed(Mutant::RefusedTickMovesTime) {
            self.time = time;
        }
    }

    /// Sets the rate of later ticks; refusal 15.
    pub fn set_vrate(&mut self, vrate: u16) -> Result<(), Refusal> {
        let least = u64::from(!self.rules.changed(Mutant::VrateZero));
        let most = self.rules.limit(
            Mutant::VrateOneLess,
            Mutant::VrateOneMore,
            u64::from(MAX_VRATE),
        );
        let good = (least..=most).contains(&u64::from(vrate));
        if good && self.rules.changed(Mutant::RestRescaled) {
            self.remainder = self.hundredths_at(vrate);
        }
        if good && self.rules.changed(Mutant::VrateLate) {
            self.aside.vrate = Some(vrate);
        } else if good || self.rules.changed(Mutant::RefusedVrateHolds) {
            self.vrate = vrate;
        }
        if good {
            self.keep_remainder(Mutant::RestLostAtVrate);
            Ok(())
        } else {
            self.keep_remainder(Mutant::RestLostAtRefusedVrate);
            Err(Refusal::VrateRange)
        }
    }

    /// The remainder as if the time behind it had passed at another rate.
    fn hundredths_at(&self, vrate: u16) -> u64 {
        self.remainder * u64::from(vrate) / u64::from(self.vrate)
    }
}
