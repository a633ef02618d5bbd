//! Base shares: a walk by falling number finds the active nodes and sums their
//! weights, and one pass by rising number works their shares out. Whether a
//! tree is thin is judged by the same pass.

use crate::engine::numbers::{floor, is_member, members, WHOLE};
use crate::engine::refusal::Refusal;
use crate::engine::rules::{Mutant, Rules};
use crate::engine::tree::{Tree, MAX_NODES};

/// A leaf's share below this makes the tree thin; a donor keeps this much.
pub const SHARE_FLOOR: u64 = 1_024;

/// Shares by node number; only those of active nodes have a meaning.
pub type Shares = [u64; MAX_NODES];

/// The active nodes, and by node number the sum of the weights of the active
/// children.
#[derive(Clone, Debug, PartialEq, Eq)]
pub struct Sums {
    pub active: u64,
    pub(super) of: [u64; MAX_NODES],
}

impl Tree {
    /// The base shares for a set of active leaves.
    pub fn base_shares(&self, active_leaves: u64, rules: Rules) -> Shares {
        self.pass(&self.sums(active_leaves, rules), rules)
    }

    /// The walk. A parent has a smaller number than its children, so it is
    /// marked before its turn comes.
    pub fn sums(&self, active_leaves: u64, rules: Rules) -> Sums {
        let mut active = active_leaves;
        let mut of = [0; MAX_NODES];
        for node in (1..self.count()).rev() {
            let parent = self.parent(node);
            let is_active = is_member(active, node);
            let (marks, counts, summed) = match rules.mutant() {
                None => (is_active, is_active, parent),
                Some(mutant) => (
                    is_active && self.marks_by(mutant, node, active_leaves),
                    self.counts_by(mutant, node, is_active),
                    self.summed_by(mutant, node),
                ),
            };
            if marks {
                active |= 1 << parent;
            }
            if counts {
                of[summed] += u64::from(self.weight(node));
            }
        }
        Sums { active, of }
    }

    /// The pass. A parent's share is worked out before its children take it.
    pub fn pass(&self, sums: &Sums, rules: Rules) -> Shares {
        let mut shares = [0; MAX_NODES];
        shares[0] = WHOLE;
        let mut before = 0;
        for node in members(sums.active & !1) {
            let parent = self.parent(node);
            let (share, sum) = match rules.mutant() {
                None => (shares[parent], sums.of[parent]),
                Some(mutant) => self.divided_by(mutant, node, before, &shares, sums),
            };
            let weight = u64::from(self.weight(node));
            // The weights of a tree that is only tried may sum to 0.
            shares[node] = rules.floor(Mutant::ShareRoundedUp, share, weight, sum.max(1));
            before = node;
        }
        shares
    }

    /// Whether an active node makes its parent active: each does, but under a
    /// mutant.
    fn marks_by(&self, mutant: Mutant, node: usize, active_leaves: u64) -> bool {
        match mutant {
            Mutant::MarkedOneStep => is_member(active_leaves, node),
            Mutant::LastNodeMarksNothing => !self.is_last(node),
            _ => true,
        }
    }

    /// Whether a node's weight is in a sum: that of an active one is, but
    /// under a mutant.
    fn counts_by(&self, mutant: Mutant, node: usize, active: bool) -> bool {
        match mutant {
            Mutant::SumOfAllChildren => true,
            Mutant::InactiveInnerCounts => active || self.is_inner(node),
            Mutant::InactiveLeafCounts => active || !self.is_inner(node),
            Mutant::LastNodeNotSummed => active && !self.is_last(node),
            Mutant::Node63NotSummed => active && node + 1 < MAX_NODES,
            _ => active,
        }
    }

    /// The node to whose sum a weight goes: the parent, but under a mutant.
    fn summed_by(&self, mutant: Mutant, node: usize) -> usize {
        match mutant {
            Mutant::WeightSummedBefore => self.parent(node - 1),
            _ => self.parent(node),
        }
    }

    /// The share that a node has a part of, and the sum that its weight is
    /// part of: its parent's, but under a mutant. `before` is the node worked
    /// out before it.
    fn divided_by(
        &self,
        mutant: Mutant,
        node: usize,
        before: usize,
        shares: &Shares,
        sums: &Sums,
    ) -> (u64, u64) {
        let parent = self.parent(node);
        let above = self.parent(parent);
        let (share, sum) = (shares[parent], sums.of[parent]);
        match mutant {
            Mutant::ShareOfWhole => (WHOLE, sum),
            Mutant::ShareOfNodeBefore if parent != 0 => (shares[before], sum),
            Mutant::ShareOfGrandparent => (shares[above], sum),
            Mutant::SumOfRoot => (share, sums.of[0]),
            Mutant::SumOfGrandparent => (share, sums.of[above]),
            Mutant::SumOfNodeBefore => (share, sums.of[self.parent(before)]),
            Mutant::SumUpToNode => (share, self.sum_up_to(node, sums.active)),
            _ => (share, sum),
        }
    }

    /// The weights of a node and of its active siblings before it.
    fn sum_up_to(&self, node: usize, active: u64) -> u64 {
        (1..=node)
            .filter(|&other| is_member(active, other) && self.parent(other) == self.parent(node))
            .map(|other| u64::from(self.weight(other)))
            .sum()
    }

    /// A pass by falling number over an old table, as a mutant makes it: each
    /// node takes the share that its parent had.
    pub fn falling_pass(&self, sums: &Sums, old: &Shares) -> Shares {
        let mut shares = *old;
        for node in members(sums.active & !1).rev() {
            let parent = self.parent(node);
            let weight = u64::from(self.weight(node));
            shares[node] = floor(shares[parent], weight, sums.of[parent].max(1));
        }
        shares
    }

    /// A pass that rounds down once, at the end, as a mutant makes it: shares
    /// are carried with so many bits more.
    pub fn late_pass(&self, sums: &Sums) -> Shares {
        const MORE: u32 = 24;
        let mut fine = [0; MAX_NODES];
        fine[0] = WHOLE << MORE;
        for node in members(sums.active & !1) {
            let parent = self.parent(node);
            let weight = u64::from(self.weight(node));
            fine[node] = floor(fine[parent], weight, sums.of[parent].max(1));
        }
        fine.map(|share| share >> MORE)
    }

    /// Refusal 2.
    pub fn check_thin(&self, rules: Rules) -> Result<(), Refusal> {
        self.judge_thin(self.smallest_share(rules), rules)
    }

    /// Refusal 2 at start.
    pub fn check_thin_at_start(&self, rules: Rules) -> Result<(), Refusal> {
        let smallest = match rules.mutant() {
            Some(Mutant::StartThinOfLastNode) => {
                self.base_shares(self.leaves(), rules)[self.count() - 1]
            }
            Some(Mutant::StartThinByLeafSums) => {
                let mut sums = self.sums(self.leaves(), rules);
                for inner in members(sums.active & !self.leaves() & !1) {
                    sums.of[self.parent(inner)] -= u64::from(self.weight(inner));
                }
                self.smallest_by(&sums, rules)
            }
            _ => self.smallest_share(rules),
        };
        self.judge_thin(smallest, rules)
    }

    fn judge_thin(&self, smallest: u64, rules: Rules) -> Result<(), Refusal> {
        let least = rules.limit(Mutant::ThinOneLess, Mutant::ThinOneMore, SHARE_FLOOR);
        if smallest < least {
            return Err(Refusal::Thin);
        }
        Ok(())
    }

    /// The smallest share of a leaf with all leaves active.
    pub fn smallest_share(&self, rules: Rules) -> u64 {
        self.smallest_of(self.leaves(), self.leaves(), rules)
    }

    /// The smallest share of some leaves with a set of leaves active.
    pub fn smallest_of(&self, some: u64, active: u64, rules: Rules) -> u64 {
        smallest(some, &self.base_shares(active, rules))
    }

    /// The smallest share of a leaf by sums that only a mutant takes.
    pub fn smallest_by(&self, sums: &Sums, rules: Rules) -> u64 {
        smallest(self.leaves(), &self.pass(sums, rules))
    }
}

fn smallest(some: u64, shares: &Shares) -> u64 {
    members(some).map(|leaf| shares[leaf]).fold(WHOLE, u64::min)
}
