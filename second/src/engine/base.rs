//! Base shares as the controller's calls take them: activation, the end of a
//! donation, plan and weight each have them worked out in one pass.

use crate::engine::controller::Controller;
use crate::engine::numbers::{members, WHOLE};
use crate::engine::rules::{Mutant, Rules};
use crate::engine::shares::{Shares, Sums};
use crate::engine::tree::Tree;

/// A call that works base shares out anew, and what a mutant may confuse there.
#[derive(Clone, Copy)]
pub(super) enum Call<'a> {
    /// Of a leaf.
    Activation(usize),
    /// Of a donation, by a leaf.
    End(usize),
    /// With the leaves that were active before it.
    Plan(u64),
    /// Of a node, with the tree before it.
    Weight(usize, &'a Tree),
}

/// What the passes so far have left behind. No rule looks at it, but a mutant
/// does.
#[derive(Clone, Debug, PartialEq, Eq)]
pub(super) struct Passes {
    /// The share of each node when it was last worked out.
    shares: Shares,
    /// The nodes that were active at any of them.
    active: u64,
    /// The leaves that the last plan made inactive.
    retired: u64,
}

impl Passes {
    /// Start has all shares worked out once, to see whether the tree is thin.
    pub(super) fn new(tree: &Tree) -> Passes {
        Passes {
            shares: tree.base_shares(tree.leaves(), Rules::TRUE),
            active: 0,
            retired: 0,
        }
    }
}

impl Controller {
    /// The base shares of the active leaves by the tree in force.
    pub(super) fn base_shares(&mut self, call: Call) -> Shares {
        match self.rules.mutant() {
            None => self.tree.base_shares(self.active, self.rules),
            Some(mutant) => self.base_shares_by(mutant, call),
        }
    }

    /// The same under a mutant.
    fn base_shares_by(&mut self, mutant: Mutant, call: Call) -> Shares {
        let tree = match (mutant, call) {
            (Mutant::ActivationBySetup, Call::Activation(_))
            | (Mutant::EndBySetup, Call::End(_))
            | (Mutant::PlanBySetup, Call::Plan(_)) => &self.aside.tree,
            _ => &self.tree,
        };
        let sums = self.sums_by(mutant, call, tree);
        let mut shares = match mutant {
            Mutant::ParentsByLastPass => tree.falling_pass(&sums, &self.aside.passes.shares),
            Mutant::RoundedAtLeafAlone => tree.late_pass(&sums),
            _ => tree.pass(&sums, self.rules),
        };
        if mutant == Mutant::LastShareKept {
            let last = tree.count() - 1;
            shares[last] = self.aside.passes.shares[last];
        }
        for number in members(self.active & !self.moved_by(mutant, call, tree)) {
            shares[number] = self.leaves[number].share;
        }
        for number in members(self.active) {
            // A lie may come to 0, by which nothing could be divided, or to
            // more than there is.
            shares[number] = shares[number].clamp(1, WHOLE);
        }
        self.keep(call, &sums, &shares);
        shares
    }

    /// The sums are those of the tree and of the active leaves as they are
    /// now, but under a mutant.
    fn sums_by(&self, mutant: Mutant, call: Call, tree: &Tree) -> Sums {
        let now = tree.sums(self.active, self.rules);
        let other = match (mutant, call) {
            (Mutant::ActivationByOldSums, Call::Activation(number)) => {
                tree.sums(self.active & !(1 << number), self.rules)
            }
            (Mutant::EndCountsRetired, Call::End(_)) => {
                tree.sums(self.active | self.aside.passes.retired, self.rules)
            }
            (Mutant::PlanCountsRetired, Call::Plan(was_active)) => {
                tree.sums(was_active, self.rules)
            }
            (Mutant::WeightByOldSums, Call::Weight(_, old)) => old.sums(self.active, self.rules),
            (Mutant::InnerStaysActive, _) => {
                let inner = self.aside.passes.active & !tree.leaves();
                tree.sums(self.active | inner, self.rules)
            }
            _ => return now,
        };
        Sums {
            active: now.active | other.active,
            ..other
        }
    }

    /// The leaves whose shares a call sets: all of them, but under a mutant
    /// that leaves those which lie below another node than the parent.
    fn moved_by(&self, mutant: Mutant, call: Call, tree: &Tree) -> u64 {
        match (mutant, call) {
            (Mutant::ActivationOfBranch, Call::Activation(node))
            | (Mutant::EndOfBranch, Call::End(node))
            | (Mutant::WeightOfBranch, Call::Weight(node, _)) => tree.leaves_of(tree.parent(node)),
            _ => u64::MAX,
        }
    }

    /// Notes what a pass has worked out.
    fn keep(&mut self, call: Call, sums: &Sums, shares: &Shares) {
        let passes = &mut self.aside.passes;
        for node in members(sums.active) {
            passes.shares[node] = shares[node];
        }
        passes.active |= sums.active;
        if let Call::Plan(was_active) = call {
            passes.retired = was_active & !self.active;
        }
    }

    /// What other nodes than the active leaves add to the sum of base shares:
    /// nothing, but under a mutant.
    pub(super) fn share_of_others(&self) -> u64 {
        let leaves = self.tree.leaves();
        let counted = match self.rules.mutant() {
            Some(Mutant::InactiveCountsInPool) => leaves & !self.active,
            Some(Mutant::InnerCountsInPool) => self.active_inner(),
            _ => return 0,
        };
        let shares = &self.aside.passes.shares;
        members(counted).map(|node| shares[node]).sum()
    }

    /// The active nodes between the root and the leaves.
    pub fn active_inner(&self) -> u64 {
        self.tree.sums(self.active, self.rules).active & !self.tree.leaves() & !1
    }
}
