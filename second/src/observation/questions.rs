//! Events of questions: of which node one is asked, what it is answered, and
//! whether a share, a place or a cost that is not the bio's would be answered
//! otherwise. The question needs no outcome, so neither do its events.

use crate::engine::controller::{Answer, Controller, MAX_DEBT};
use crate::engine::cost::{Bio, FORCED, MAX_COST, NEAR_SECTORS};
use crate::engine::leaf::{relative_cost, QUEUE_ROOM};
use crate::engine::numbers::{is_member, Relative};
use crate::engine::question::{ask, Own};
use crate::engine::refusal::Refusal;
use crate::engine::rules::Rules;
use crate::engine::tree::MAX_NODES;
use crate::observation::events::Event;
use crate::trace::record::Record;
use crate::trace::replay::Phase;

/// A question, what it looks at and what it is answered.
struct Question<'a> {
    of: &'a Controller,
    bio: &'a Bio,
    own: Own,
    answer: Result<Answer, Refusal>,
}

/// What is told of each event, with whether it holds.
type When<'a> = dyn FnMut(bool, Event) + 'a;

/// Tells `hit` each event of the question before a record, if it is a bio.
pub fn observe(before: &Phase, record: &Record, hit: &mut dyn FnMut(Event)) {
    let (of, bio) = match (before, record) {
        (Phase::Running(controller), Record::Bio(bio)) => (controller, bio),
        _ => return,
    };
    let mut when = |holds: bool, event: Event| {
        if holds {
            hit(event);
        }
    };
    let question = Question {
        of,
        bio,
        own: of.own(bio),
        answer: of.ask(bio),
    };
    if !question.own.leaf {
        return question.of_no_leaf(&mut when);
    }
    if question.own.active {
        question.of_active(&mut when);
    } else {
        question.of_sleeper(&mut when);
    }
    question.of_place(&mut when);
    question.of_order(&mut when);
}

impl Question<'_> {
    /// What another bio of the same node would be answered, or the same with
    /// other values.
    fn other(&self, own: &Own, bio: &Bio) -> Result<Answer, Refusal> {
        ask(own, &self.of.model, bio)
    }

    /// Whether the answer would be another if the last bio had ended elsewhere.
    fn differs_behind(&self, end: Option<u64>) -> bool {
        let own = Own { end, ..self.own };
        self.other(&own, self.bio) != self.answer
    }

    fn cost(&self) -> u64 {
        self.of.cost_of(usize::from(self.bio.node), self.bio).0
    }

    fn of_no_leaf(&self, when: &mut When) {
        let node = usize::from(self.bio.node);
        let leaf = Own {
            leaf: true,
            ..self.own
        };
        let otherwise = self.other(&leaf, self.bio);
        let good = otherwise.is_ok();
        let inner = self.of.tree.is_inner(node);
        when(good && inner, Event::AskedInner);
        when(good && node == 0, Event::AskedRoot);
        when(good && !inner && node != 0, Event::AskedAbsent);
        let wrapped = node >= MAX_NODES && is_member(self.of.active, node % MAX_NODES);
        when(good && wrapped, Event::AskedWrapped);
        let dear = otherwise == Err(Refusal::CostLimit);
        when(dear, Event::NoLeafAndDearBio);
    }

    fn of_sleeper(&self, when: &mut When) {
        let answer = match self.answer {
            Ok(Answer::OnDebt) => Event::AskedSleeperOnDebt,
            Ok(_) => Event::AskedSleeperWaits,
            Err(Refusal::CostLimit) => Event::AskedSleeper6,
            Err(_) => Event::AskedSleeper5,
        };
        when(true, answer);
        let flush = self.bio.is_flush(Rules::TRUE);
        let first = flush && self.own.end.is_none();
        when(first, Event::AskedFirstFlush);
    }

    fn of_active(&self, when: &mut When) {
        let forced = self.bio.is_forced();
        let answer = match self.answer {
            Ok(Answer::Issued) if forced => Event::AskedForcedIssued,
            Ok(Answer::Issued) => Event::AskedIssued,
            Ok(Answer::Waits) => Event::AskedWaits,
            Ok(Answer::OnDebt) => Event::AskedOnDebt,
            Err(Refusal::BioRange) => Event::Asked5,
            Err(Refusal::CostLimit) => Event::Asked6,
            Err(Refusal::QueueFull) => Event::Asked7,
            Err(_) => Event::Asked8,
        };
        when(true, answer);
        self.of_share(when);
        let seven = self.own.waiting + 1 == QUEUE_ROOM;
        when(seven && self.answer == Ok(Answer::Waits), Event::AskedAt7);
        let full = self.own.waiting == QUEUE_ROOM;
        when(full && forced && self.answer.is_ok(), Event::AskedForcedAt8);
        let with_cost = self.own.debt.0 + self.cost();
        let owes = self.answer == Ok(Answer::OnDebt);
        when(owes && with_cost == MAX_DEBT.0, Event::AskedDebtMost);
        let deep = self.answer == Err(Refusal::DebtLimit);
        let one_above = with_cost == MAX_DEBT.0 + 1;
        when(deep && one_above, Event::AskedDebtOneAbove);
        let waits_there = self.answer == Ok(Answer::Waits) && with_cost > MAX_DEBT.0;
        when(waits_there, Event::AskedUnforcedAtDebtLimit);
    }

    /// Events of an active leaf's share.
    fn of_share(&self, when: &mut When) {
        if self.of.donors == 0 {
            return;
        }
        let number = usize::from(self.bio.node);
        let base = self.of.tree.base_shares(self.of.active, Rules::TRUE);
        let at_base = Own {
            share: base[number],
            ..self.own
        };
        let otherwise = self.other(&at_base, self.bio) != self.answer;
        let donor = is_member(self.of.donors, number);
        when(otherwise && donor, Event::AskedDonorOtherwise);
        when(otherwise && !donor, Event::AskedTakerOtherwise);
        let relative = relative_cost(
            self.of.cost_of(number, self.bio),
            self.own.share,
            Rules::TRUE,
        );
        let exact = relative == self.own.budget && self.answer == Ok(Answer::Issued);
        when(donor && exact, Event::AskedDonorExact);
        let one_short = relative == Relative(self.own.budget.0 + 1) && self.answer.is_ok();
        when(donor && one_short, Event::AskedDonorOneShort);
    }

    /// Events of the cost, and of where the bio lies.
    fn of_place(&self, when: &mut When) {
        let cost = self.cost();
        let accepted = self.answer.is_ok();
        when(accepted && cost == MAX_COST.0, Event::AskedCostMost);
        let dear = self.answer == Err(Refusal::CostLimit);
        when(dear && cost == MAX_COST.0 + 1, Event::AskedCostOneAbove);
        let (here, active) = (Some(self.bio.sector), self.own.active);
        match self.own.end {
            None => {
                let otherwise = self.differs_behind(here);
                when(active && otherwise, Event::AskedFirstOtherwise);
                let near_0 = self.bio.sector <= NEAR_SECTORS;
                when(active && otherwise && near_0, Event::AskedFirstNear0);
                when(!active && otherwise, Event::AskedSleeperFirst6);
            }
            Some(_) if active => {
                when(self.differs_behind(None), Event::AskedNearOtherwise);
                when(self.differs_behind(here), Event::AskedFarOtherwise);
            }
            Some(_) => {}
        }
        if self.bio.is_flush(Rules::TRUE) {
            let page = Bio {
                bytes: 512,
                ..*self.bio
            };
            let otherwise = self.other(&self.own, &page) != self.answer;
            when(otherwise, Event::AskedFlushOtherwise);
        }
    }

    /// Events of two refusals that hold at once.
    fn of_order(&self, when: &mut When) {
        // The same bio with the fault put right that it is refused for.
        let good = Bio {
            flags: self.bio.flags & FORCED,
            sector: 0,
            bytes: 512,
            ..*self.bio
        };
        let next = self.other(&self.own, &good);
        let dear = self.cost() > MAX_COST.0;
        let range = self.answer == Err(Refusal::BioRange);
        when(range && dear, Event::BadAndDearBio);
        let deep = next == Err(Refusal::DebtLimit);
        when(range && deep, Event::BadBioAndDebtLimit);
        let limit = self.answer == Err(Refusal::CostLimit);
        when(limit && deep, Event::DearBioAndDebtLimit);
    }
}
