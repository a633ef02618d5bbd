//! What the question says under its mutants. Each tells one lie: of whose values
//! it looks at, of the cost, of what it finds, or of the order of refusals.
//! Submission knows nothing of them.

use crate::engine::controller::{Answer, Controller, MAX_DEBT};
use crate::engine::cost::{Bio, Model, MAX_BYTES, MAX_COST, MAX_SECTOR, NEAR_SECTORS};
use crate::engine::cost::{FORCED, PAGE, SECTOR, WRITE};
use crate::engine::leaf::{Leaf, QUEUE_ROOM};
use crate::engine::numbers::{is_member, members, Absolute, Relative, WHOLE};
use crate::engine::question::{cost, fits, is_in_range, product, Found, Own, Refusals};
use crate::engine::refusal::Refusal;
use crate::engine::rules::{Mutant, Rules};
use crate::engine::tree::MAX_NODES;

impl Controller {
    /// The answer under a mutant of the question.
    pub(super) fn ask_by(&self, mutant: Mutant, bio: &Bio) -> Result<Answer, Refusal> {
        let mut own = self.own_by(mutant, bio);
        own.end = end_by(mutant, own.end, bio);
        let cost = cost_by(mutant, &own, &self.model, bio);
        let fits = fits_by(mutant, &own, cost);
        let mut found = Found::new(&own, bio, cost, fits);
        find_range_by(mutant, &own, bio, &mut found);
        find_limits_by(mutant, &own, cost, &mut found);
        decide_by(mutant, &own, fits, &mut found);
        let mut refusals = found.refusals();
        order_by(mutant, &found, &mut refusals);
        found.answer(&refusals)
    }

    /// The values looked at: those of the bio's node, but under a mutant.
    fn own_by(&self, mutant: Mutant, bio: &Bio) -> Own {
        let own = self.own(bio);
        if own.leaf {
            self.own_of_leaf(mutant, own, usize::from(bio.node))
        } else {
            self.own_of_other(mutant, own, bio)
        }
    }

    /// The values of a node that is no leaf.
    fn own_of_other(&self, mutant: Mutant, own: Own, bio: &Bio) -> Own {
        let number = usize::from(bio.node);
        let leaf = match mutant {
            Mutant::AskInner => self.tree.is_inner(number),
            Mutant::AskRoot => number == 0,
            Mutant::AskAbsent => number >= self.tree.count(),
            _ => false,
        };
        if mutant == Mutant::AskWraps {
            return self.own(&Bio {
                node: bio.node % MAX_NODES as u8,
                ..*bio
            });
        }
        Own { leaf, ..own }
    }

    /// The values of a leaf.
    fn own_of_leaf(&self, mutant: Mutant, own: Own, number: usize) -> Own {
        let other = self.neighbour(number);
        let donates = is_member(self.donors, number);
        match mutant {
            Mutant::AskSleeperNoLeaf => Own {
                leaf: own.active,
                ..own
            },
            Mutant::AskLastNode => Own {
                leaf: !self.tree.is_last(number),
                ..own
            },
            Mutant::AskDonorBase if donates => self.with_base(own, number, self.active),
            Mutant::AskTakerBase if !donates => self.with_base(own, number, self.active),
            Mutant::AskShareOfAll => self.with_base(own, number, self.tree.leaves()),
            Mutant::AskQueueOfAll => Own {
                waiting: self.waiting(),
                ..own
            },
            _ => own_of(mutant, own, other),
        }
    }

    /// A leaf's values at the base share of a set of active leaves.
    fn with_base(&self, own: Own, number: usize, active: u64) -> Own {
        let share = self.tree.base_shares(active, Rules::TRUE)[number];
        Own { share, ..own }
    }

    /// The active leaf behind a leaf, the first behind the last; the leaf
    /// itself if it is alone.
    fn neighbour(&self, number: usize) -> &Leaf {
        let behind = members(self.active).find(|&other| other > number);
        let first = members(self.active).next();
        &self.leaves[behind.or(first).unwrap_or(number)]
    }
}

/// The values of a leaf, one of them taken from another under a mutant.
fn own_of(mutant: Mutant, own: Own, other: &Leaf) -> Own {
    match mutant {
        Mutant::AskShareOfOther => Own {
            share: other.share,
            ..own
        },
        Mutant::AskBudgetOfOther => Own {
            budget: other.budget,
            ..own
        },
        Mutant::AskDebtOfOther => Own {
            debt: other.debt,
            ..own
        },
        Mutant::AskQueueOfOther => Own {
            waiting: other.queue.len(),
            ..own
        },
        Mutant::AskEndOfOther => Own {
            end: other.end,
            ..own
        },
        _ => own,
    }
}

/// The end that the bio lies behind: the leaf's, but under a mutant. A bio is
/// sequential to an end at its own sector, and random to none.
fn end_by(mutant: Mutant, end: Option<u64>, bio: &Bio) -> Option<u64> {
    let here = Some(bio.sector);
    let distance = end.map(|end| end.abs_diff(bio.sector));
    let behind = end > here;
    match mutant {
        Mutant::AskFirstSequential => end.or(here),
        Mutant::AskFirstAt0 => end.or(Some(0)),
        Mutant::AskAlwaysRandom => None,
        Mutant::AskAlwaysSequential => here,
        Mutant::AskNearOneLess if distance == Some(NEAR_SECTORS) => None,
        Mutant::AskNearOneMore if distance == Some(NEAR_SECTORS + 1) => here,
        Mutant::AskAheadOnly if behind => None,
        _ => end,
    }
}

/// The cost, but under a mutant.
fn cost_by(mutant: Mutant, own: &Own, model: &Model, bio: &Bio) -> Absolute {
    let truth = cost(own.end, model, bio);
    let price = |flags: u8, bytes: u32| {
        let other = Bio {
            flags,
            bytes,
            ..*bio
        };
        cost(own.end, model, &other).0
    };
    let page = price(bio.flags, 0);
    let first_page = price(bio.flags, SECTOR as u32);
    let whole_pages = u64::from(bio.bytes) / PAGE;
    Absolute(match (mutant, bio.bytes) {
        (Mutant::AskFlushAsBio, 0) => first_page - page,
        (Mutant::AskFlushWithBase, 0) => first_page,
        (Mutant::AskFlushAsRead, 0) => model.read.page,
        (_, 0) => truth.0,
        (Mutant::AskSmallWriteFlushes, 512) if bio.is_write() => page,
        (Mutant::AskWriteAsRead, bytes) => price(bio.flags & !WRITE, bytes),
        (Mutant::AskOnePage, _) => first_page,
        (Mutant::AskPagesRoundedDown, _) => first_page - page + page * whole_pages,
        _ => truth.0,
    })
}

/// Whether the cost fits, but under a mutant.
fn fits_by(mutant: Mutant, own: &Own, cost: Absolute) -> bool {
    let with_budget = |budget: u64| {
        let other = Own {
            budget: Relative(budget),
            ..*own
        };
        fits(&other, cost)
    };
    let budget = own.budget.0;
    match mutant {
        Mutant::AskAbsolute => own.active && cost.0 <= budget,
        Mutant::AskFitsStrictly => budget > 0 && with_budget(budget - 1),
        Mutant::AskOneTooFew => with_budget(budget + 1),
        Mutant::AskRelativeRoundedDown => {
            own.active && product(cost.0, WHOLE) < product(budget + 1, own.share)
        }
        _ => fits(own, cost),
    }
}

/// What refusal 5 asks for, but under a mutant.
fn find_range_by(mutant: Mutant, own: &Own, bio: &Bio, found: &mut Found) {
    // The bio that refusal 5 sees, with one thing put right or wrong.
    let good = Bio {
        flags: bio.flags & (WRITE | FORCED),
        sector: bio.sector.min(MAX_SECTOR),
        bytes: SECTOR as u32,
        ..*bio
    };
    let mut seen = *bio;
    match mutant {
        Mutant::AskRangeForgotten if own.active => seen = good,
        Mutant::AskSleeperRangeForgotten if !own.active => seen = good,
        Mutant::AskBytesIgnored => seen.bytes = good.bytes,
        Mutant::AskSectorIgnored => seen.sector = good.sector,
        Mutant::AskFlagsIgnored => seen.flags = good.flags,
        Mutant::AskBytesOfPages if u64::from(bio.bytes) % PAGE != 0 => seen.bytes = 1,
        Mutant::AskBytesOneLess if bio.bytes == MAX_BYTES => seen.bytes += 1,
        Mutant::AskBytesOneMore if bio.bytes == MAX_BYTES + SECTOR as u32 => seen.bytes = MAX_BYTES,
        Mutant::AskSectorOneLess if bio.sector == MAX_SECTOR => seen.sector += 1,
        Mutant::AskSectorOneMore if bio.sector == MAX_SECTOR + 1 => seen.sector = MAX_SECTOR,
        Mutant::AskFlushRefused if bio.bytes == 0 => seen.bytes = 1,
        Mutant::AskFlushSectorIgnored if bio.bytes == 0 => seen.sector = good.sector,
        Mutant::AskReadOfZero if bio.bytes == 0 => seen.flags |= WRITE,
        _ => {}
    }
    found.in_range = is_in_range(&seen);
}

/// What refusals 6 to 8 ask for, but under a mutant.
fn find_limits_by(mutant: Mutant, own: &Own, cost: Absolute, found: &mut Found) {
    let owed = own.debt.0 + cost.0;
    let room = MAX_DEBT.0 - own.debt.0;
    match mutant {
        Mutant::AskCostForgotten if own.active => found.dear = false,
        Mutant::AskSleeperCostForgotten if !own.active => found.dear = false,
        Mutant::AskCostLimitOneLess => found.dear = cost >= MAX_COST,
        Mutant::AskCostLimitOneMore => found.dear = cost.0 > MAX_COST.0 + 1,
        Mutant::AskQueueForgotten => found.full = false,
        Mutant::AskQueueOneLess => found.full = own.waiting + 1 >= QUEUE_ROOM,
        Mutant::AskDebtForgotten => found.deep = false,
        Mutant::AskDebtLimitOneLess => found.deep = owed >= MAX_DEBT.0,
        Mutant::AskDebtLimitOneMore => found.deep = owed > MAX_DEBT.0 + 1,
        Mutant::AskDebtRelative if own.active => {
            found.deep = product(cost.0, WHOLE) > product(room, own.share)
        }
        _ => {}
    }
}

/// Whether a bio is issued, and which answer it has if not, but under a mutant.
fn decide_by(mutant: Mutant, own: &Own, fits: bool, found: &mut Found) {
    let owes = own.debt != Absolute(0);
    let waiters = own.waiting > 0;
    let (forced, issued) = (found.forced, found.issued);
    let asleep = own.leaf && !own.active;
    match mutant {
        Mutant::AskSleeperIssued if asleep && !forced => found.issued = true,
        Mutant::AskSleeperForcedIssued if asleep && forced => found.issued = true,
        Mutant::AskSleeperForcedWaits if asleep => found.forced = false,
        Mutant::AskSleeperOwes if asleep => found.forced = true,
        Mutant::AskPassesWaiter if !forced => found.issued = fits && !owes,
        Mutant::AskPassesDebt if !forced => found.issued = fits && !waiters,
        Mutant::AskForcedPassesDebt if forced => found.issued = fits,
        Mutant::AskForcedWaitsBehind if forced && waiters => {
            found.issued = false;
            found.forced = false;
        }
        Mutant::AskForcedOwesBehind if forced && waiters => found.issued = false,
        Mutant::AskForcedNeverIssued if forced => found.issued = false,
        Mutant::AskForcedWaits if !issued => found.forced = false,
        Mutant::AskUnforcedOwes if !issued => found.forced = true,
        _ => {}
    }
}

/// The order of the refusals and which of them a bio can have, but under a
/// mutant. Their places are those of 4, 5, 6, 7 and 8.
fn order_by(mutant: Mutant, found: &Found, refusals: &mut Refusals) {
    match mutant {
        Mutant::AskRangeBeforeLeaf => refusals[..2].rotate_right(1),
        Mutant::AskCostBeforeLeaf => refusals[..3].rotate_right(1),
        Mutant::AskCostBeforeRange => refusals[1..3].rotate_right(1),
        Mutant::AskQueueBeforeRange => refusals[1..4].rotate_right(1),
        Mutant::AskDebtBeforeRange => refusals[1..5].rotate_right(1),
        Mutant::AskQueueBeforeCost => refusals[2..4].rotate_right(1),
        Mutant::AskDebtBeforeCost => refusals[2..5].rotate_right(1),
        Mutant::AskQueueForForced => refusals[3].0 = !found.issued && found.full,
        Mutant::AskDebtForUnforced => refusals[4].0 = !found.issued && found.deep,
        _ => {}
    }
}
