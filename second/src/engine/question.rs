//! The question what a bio would be answered, asked before it is sent. `ask` is
//! handed a node's own values, the model and the bio, and sees no controller and
//! no other leaf; a shell on the controller hands them on. It reads the documents
//! by itself and takes no decision from submission, so that the two can be held
//! against each other.

use crate::engine::controller::{Answer, Controller, MAX_DEBT};
use crate::engine::cost::{Bio, Model, MAX_BYTES, MAX_COST, MAX_SECTOR, NEAR_SECTORS};
use crate::engine::cost::{FORCED, PAGE, SECTOR, WRITE};
use crate::engine::leaf::QUEUE_ROOM;
use crate::engine::numbers::{is_member, Absolute, Relative, WHOLE};
use crate::engine::refusal::Refusal;
use crate::engine::tree::MAX_NODES;

/// A node's own values: all that the question looks at beside the model and the
/// bio. A node that is no leaf has none.
#[derive(Clone, Copy, Debug, Default, PartialEq, Eq)]
pub struct Own {
    pub leaf: bool,
    pub active: bool,
    /// As it is held now: a donor's is the donated one.
    pub share: u64,
    pub budget: Relative,
    pub debt: Absolute,
    /// How many bios wait.
    pub waiting: usize,
    /// Where the last accepted bio that is no flush ended, if there was one.
    pub end: Option<u64>,
}

/// What a bio of a node would be answered; refusals 4 to 8.
pub fn ask(own: &Own, model: &Model, bio: &Bio) -> Result<Answer, Refusal> {
    let cost = cost(own.end, model, bio);
    let found = Found::new(own, bio, cost, fits(own, cost));
    found.answer(&found.refusals())
}

impl Controller {
    /// What `submit` would answer now. The controller is only lent, so the
    /// state stays whatever is asked.
    pub fn ask(&self, bio: &Bio) -> Result<Answer, Refusal> {
        match self.rules.mutant() {
            Some(mutant) if mutant.is_of_question() => self.ask_by(mutant, bio),
            _ => ask(&self.own(bio), &self.model, bio),
        }
    }

    /// The values of the bio's node, which may be no leaf or not there.
    pub fn own(&self, bio: &Bio) -> Own {
        let number = usize::from(bio.node);
        if number >= MAX_NODES || !is_member(self.tree.leaves(), number) {
            return Own::default();
        }
        let leaf = &self.leaves[number];
        Own {
            leaf: true,
            active: is_member(self.active, number),
            share: leaf.share,
            budget: leaf.budget,
            debt: leaf.debt,
            waiting: leaf.queue.len(),
            end: leaf.end,
        }
    }
}

/// Bytes, sector and flags as refusal 5 asks for them. Of 0 bytes is a flush.
pub(super) fn is_in_range(bio: &Bio) -> bool {
    let good_bytes = match bio.bytes {
        0 => bio.is_write(),
        bytes => bytes <= MAX_BYTES && u64::from(bytes) % SECTOR == 0,
    };
    good_bytes && bio.sector <= MAX_SECTOR && bio.flags <= WRITE | FORCED
}

/// The cost of a bio behind an end, not yet held to its limit. A flush costs a
/// page, wherever it lies.
pub(super) fn cost(end: Option<u64>, model: &Model, bio: &Bio) -> Absolute {
    let side = match bio.is_write() {
        true => &model.write,
        false => &model.read,
    };
    let near = end.map_or(false, |end| end.abs_diff(bio.sector) <= NEAR_SECTORS);
    Absolute(match (bio.bytes, near) {
        (0, _) => side.page,
        (bytes, true) => side.sequential_base + side.page * pages(bytes),
        (bytes, false) => side.random_base + side.page * pages(bytes),
    })
}

fn pages(bytes: u32) -> u64 {
    (u64::from(bytes) + PAGE - 1) / PAGE
}

/// Whether the relative cost is at most the budget. With both sides multiplied
/// by the share nothing is divided, and so nothing rounded.
pub(super) fn fits(own: &Own, cost: Absolute) -> bool {
    own.active && product(cost.0, WHOLE) <= product(own.budget.0, own.share)
}

pub(super) fn product(a: u64, b: u64) -> u128 {
    u128::from(a) * u128::from(b)
}

/// What is found of a bio, each by a sentence of the documents.
pub(super) struct Found {
    pub(super) leaf: bool,
    pub(super) in_range: bool,
    /// Its cost passes the limit.
    pub(super) dear: bool,
    pub(super) forced: bool,
    /// It would be issued, if it is not refused.
    pub(super) issued: bool,
    /// It would find no room to wait.
    pub(super) full: bool,
    /// The debt with its cost would pass the limit.
    pub(super) deep: bool,
}

/// The refusals of a bio in document 01's order, each with whether it holds.
pub(super) type Refusals = [(bool, Refusal); 5];

impl Found {
    /// Of an active leaf its budget, its debt and its waiters decide. Any other
    /// node has none of them: nothing fits, and neither 7 nor 8 can hold.
    pub(super) fn new(own: &Own, bio: &Bio, cost: Absolute, fits: bool) -> Found {
        let first = bio.is_forced() || own.waiting == 0;
        Found {
            leaf: own.leaf,
            in_range: is_in_range(bio),
            dear: cost > MAX_COST,
            forced: bio.is_forced(),
            issued: fits && first && own.debt == Absolute(0),
            full: own.waiting >= QUEUE_ROOM,
            deep: own.debt.0 + cost.0 > MAX_DEBT.0,
        }
    }

    pub(super) fn refusals(&self) -> Refusals {
        let would_wait = !self.issued && !self.forced;
        let would_owe = !self.issued && self.forced;
        [
            (!self.leaf, Refusal::NoLeaf),
            (!self.in_range, Refusal::BioRange),
            (self.dear, Refusal::CostLimit),
            (would_wait && self.full, Refusal::QueueFull),
            (would_owe && self.deep, Refusal::DebtLimit),
        ]
    }

    /// The first refusal that holds, and otherwise the answer: what is not
    /// issued waits or goes on debt, by the forced flag.
    pub(super) fn answer(&self, refusals: &Refusals) -> Result<Answer, Refusal> {
        match refusals.iter().find(|(holds, _)| *holds) {
            Some((_, refusal)) => Err(*refusal),
            None if self.issued => Ok(Answer::Issued),
            None if self.forced => Ok(Answer::OnDebt),
            None => Ok(Answer::Waits),
        }
    }
}
