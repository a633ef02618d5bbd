//! The sums of demand 3 and the ends of the last bios, kept beside a replay and
//! held against it.

use crate::engine::clock::HUNDREDTHS;
use crate::engine::controller::{Answer, Controller};
use crate::engine::leaf::Leaf;
use crate::engine::numbers::{is_member, members};
use crate::engine::rules::Rules;
use crate::engine::tree::MAX_NODES;
use crate::trace::record::Record;
use crate::trace::replay::{Outcome, Phase, Replay};
use crate::trace::stream::Reader;

/// What became of the cost of a leaf's accepted bios.
#[derive(Clone, Copy, Default)]
struct Account {
    accepted: u64,
    issued: u64,
    released: u64,
    repaid: u64,
    forgiven: u64,
}

struct Ledger {
    accounts: Vec<Account>,
    /// What the accepted ticks generated, in hundredths of a nanosecond.
    generated: u128,
    /// Virtual time at the last plan, or start.
    planned: u64,
    /// Where each leaf's last accepted bio that is no flush ended.
    ends: [Option<u64>; MAX_NODES],
}

fn waiting_cost(leaf: &Leaf) -> u64 {
    leaf.queue.iter().map(|bio| bio.cost.0).sum()
}

impl Ledger {
    fn book(&mut self, before: &Controller, record: &Record, outcome: Outcome, after: &Controller) {
        if let (Record::Bio(bio), Outcome::Answered(answer, _)) = (record, outcome) {
            let number = usize::from(bio.node);
            let cost = before.cost_of(number, bio).0;
            self.accounts[number].accepted += cost;
            if answer == Answer::Issued {
                self.accounts[number].issued += cost;
            }
            if bio.bytes > 0 {
                self.ends[number] = Some(bio.end());
            }
        }
        match (record, outcome) {
            (Record::Tick { .. }, Outcome::Released(_)) => {
                let elapsed = after.time - before.time;
                self.generated += u128::from(elapsed) * u128::from(before.vrate);
            }
            (Record::Plan, Outcome::Planned) => self.planned = after.virtual_time,
            _ => {}
        }
        for number in members(before.active) {
            let (old, new) = (&before.leaves[number], &after.leaves[number]);
            let account = &mut self.accounts[number];
            match outcome {
                Outcome::Released(_) => {
                    account.released += waiting_cost(old) - waiting_cost(new);
                    account.repaid += old.debt.0 - new.debt.0;
                }
                Outcome::Planned => account.forgiven += old.debt.0 - new.debt.0,
                _ => {}
            }
        }
    }

    /// What is wrong with the clocks, if anything is. Virtual time and the
    /// remainder have no other source than the time of accepted ticks.
    fn clock_fault(&self, after: &Controller) -> Option<&'static str> {
        let shown =
            u128::from(after.virtual_time) * u128::from(HUNDREDTHS) + u128::from(after.remainder);
        if after.remainder >= HUNDREDTHS {
            Some("the remainder is a nanosecond or more")
        } else if shown != self.generated {
            Some("virtual time and the remainder are not the time that passed")
        } else if after.virtual_time - self.planned != after.period {
            Some("E is not the virtual time since the last plan")
        } else {
            None
        }
    }

    /// The first broken promise of demand 3, if any is.
    fn fault(&self, after: &Controller) -> Option<&'static str> {
        let fault = self.clock_fault(after);
        if fault.is_some() {
            return fault;
        }
        let spent: u64 = self
            .accounts
            .iter()
            .map(|account| account.issued + account.released + account.repaid)
            .sum();
        if u128::from(spent) > self.generated / u128::from(HUNDREDTHS) {
            return Some("more spent than virtual time");
        }
        for (end, leaf) in self.ends.iter().zip(&after.leaves) {
            if leaf.end != *end {
                return Some("an end is not that of the last bio but flushes");
            }
        }
        for (account, leaf) in self.accounts.iter().zip(&after.leaves) {
            let heads = account.issued
                + account.released
                + account.repaid
                + account.forgiven
                + waiting_cost(leaf)
                + leaf.debt.0;
            if heads != account.accepted {
                return Some("a leaf's costs do not add up");
            }
        }
        share_fault(after)
    }
}

/// Shares sum to the base shares, and only donors are below theirs.
fn share_fault(after: &Controller) -> Option<&'static str> {
    let base = after.tree.base_shares(after.active, Rules::TRUE);
    let mut base_sum = 0;
    let mut sum = 0;
    for number in members(after.active) {
        let share = after.leaves[number].share;
        base_sum += base[number];
        sum += share;
        if share < base[number] && !is_member(after.donors, number) {
            return Some("a non-donor below its base share");
        }
    }
    if sum != base_sum {
        return Some("shares do not sum to the base shares");
    }
    None
}

/// Replays a trace by some rules and answers the first promise they break.
pub fn audit(trace: &[u8], rules: Rules) -> Option<&'static str> {
    let mut reader = Reader::new(trace);
    let mut replay = Replay::new(rules);
    let mut ledger = Ledger {
        accounts: vec![Account::default(); MAX_NODES],
        generated: 0,
        planned: 0,
        ends: [None; MAX_NODES],
    };
    while let Ok(Some(record)) = reader.next() {
        let before = replay.phase.clone();
        let outcome = replay.take(Ok(record));
        if let (Phase::Running(before), Some(after)) = (&before, replay.controller()) {
            if matches!(outcome, Outcome::Refused(_)) && before != after {
                return Some("a refused call changed the state");
            }
            ledger.book(before, &record, outcome, after);
            let fault = ledger.fault(after);
            if fault.is_some() {
                return fault;
            }
        }
        if replay.stopped() {
            break;
        }
    }
    None
}
