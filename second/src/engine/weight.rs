//! The controller's last call: a weight that changes after start.

use std::mem;

use crate::engine::base::Call;
use crate::engine::clock::FRESH_VRATE;
use crate::engine::controller::{Controller, MAX_WAITING};
use crate::engine::leaf::Queue;
use crate::engine::numbers::{is_member, members, Absolute, Relative};
use crate::engine::refusal::Refusal;
use crate::engine::rules::Mutant;
use crate::engine::shares::{Shares, SHARE_FLOOR};
use crate::engine::tree::{Tree, MAX_NODES};

impl Controller {
    /// Sets the weight of one node; refusals 19, 22 and 2. Any donation ends,
    /// and budgets follow the shares, which are base shares of the new tree.
    pub fn set_weight(&mut self, node: u8, weight: u16) -> Result<(), Refusal> {
        let node = usize::from(node);
        let tree = match self.reweighted(node, weight) {
            Ok(tree) => tree,
            Err(refusal) => {
                self.note_refused_weight(node, weight, refusal);
                self.keep_remainder(Mutant::RestLostAtRefusedWeight);
                return Err(refusal);
            }
        };
        if self.ignores_weight(node, weight) {
            return Ok(());
        }
        let old = self.tree.base_shares(self.active, self.rules);
        let before = mem::replace(&mut self.tree, tree);
        let new = self.base_shares(Call::Weight(node, &before));
        if !self.keeps_shares(&old, &new) {
            self.donors = 0;
            self.take_held(node, &old, &new);
            self.set_shares(&new, Mutant::BudgetKeptAtWeight);
        }
        self.take_by_mutant();
        Ok(())
    }

    /// The tree with the new weight; refusals 19, 22 and 2, in this order.
    fn reweighted(&self, node: usize, weight: u16) -> Result<Tree, Refusal> {
        if self.rules.changed(Mutant::WeightBeforeNode) {
            self.tree.check_weight(node, weight, self.rules)?;
        }
        self.check_named(node)?;
        let tree = if self.rules.changed(Mutant::WeightsOneByOne) {
            self.aside.tree.with_weight(node, weight)
        } else {
            self.tree.with_weight(node, weight)
        };
        if self.rules.changed(Mutant::ThinBeforeWeight) {
            self.check_new_tree(&tree, node)?;
        }
        self.tree.check_weight(node, weight, self.rules)?;
        self.check_new_tree(&tree, node)?;
        Ok(tree)
    }

    /// A refused weight changes nothing, but under a mutant.
    fn note_refused_weight(&mut self, node: usize, weight: u16, refusal: Refusal) {
        if self.rules.changed(Mutant::RefusedWeightEnds) {
            self.return_to_base(0);
        }
        if refusal == Refusal::Thin && self.rules.changed(Mutant::RefusedWeightStays) {
            let tree = self.tree.with_weight(node, weight);
            // A share of 0 would be divided by.
            if tree.smallest_share(self.rules) > 0 {
                self.tree = tree;
            }
        }
    }

    /// Refusal 19: every node but the root may be named, active or not.
    fn check_named(&self, node: usize) -> Result<(), Refusal> {
        let first = usize::from(!self.rules.changed(Mutant::RootWeight));
        let count = self.rules.limit(
            Mutant::LastNodeWeight,
            Mutant::AbsentWeight,
            self.tree.count() as u64,
        );
        let passed_over = self.tree.is_inner(node) && self.rules.changed(Mutant::InnerWeight)
            || self.is_inactive_leaf(node) && self.rules.changed(Mutant::InactiveWeight);
        if (first..count as usize).contains(&node) && !passed_over {
            Ok(())
        } else {
            Err(Refusal::NoWeight)
        }
    }

    fn is_inactive_leaf(&self, node: usize) -> bool {
        node < MAX_NODES && is_member(self.tree.leaves() & !self.active, node)
    }

    /// Refusal 2 for the tree with the new weight, all leaves active.
    fn check_new_tree(&self, tree: &Tree, node: usize) -> Result<(), Refusal> {
        // By no mutant either: nothing could be divided by a share of 0.
        if tree.smallest_share(self.rules) == 0 {
            return Err(Refusal::Thin);
        }
        if self.rules.changed(Mutant::NewThinAccepted) {
            return Ok(());
        }
        if self.rules.changed(Mutant::NewThinOfOldTree) {
            return self.tree.check_thin(self.rules);
        }
        let smallest = if self.rules.changed(Mutant::NewThinOfActive) {
            tree.smallest_of(self.active, self.active, self.rules)
        } else if self.rules.changed(Mutant::NewThinOfNamed) {
            tree.smallest_of(tree.leaves_of(node), tree.leaves(), self.rules)
        } else if self.rules.changed(Mutant::NewThinByOldSums) {
            let sums = self.tree.sums(self.tree.leaves(), self.rules);
            tree.smallest_by(&sums, self.rules)
        } else {
            return tree.check_thin(self.rules);
        };
        if smallest < SHARE_FLOOR {
            Err(Refusal::Thin)
        } else {
            Ok(())
        }
    }

    /// No accepted weight is ignored, but under a mutant.
    fn ignores_weight(&self, node: usize, weight: u16) -> bool {
        self.tree.is_inner(node) && self.rules.changed(Mutant::WeightOfInnerIgnored)
            || self.is_inactive_leaf(node) && self.rules.changed(Mutant::WeightOfInactiveIgnored)
            || self.rules.changed(Mutant::EqualWeightIgnored) && self.tree.weight(node) == weight
    }

    /// An accepted weight works the shares out anew, but under a mutant.
    fn keeps_shares(&self, old: &Shares, new: &Shares) -> bool {
        self.rules.changed(Mutant::WeightMovesNoShare)
            || self.donors != 0 && self.rules.changed(Mutant::WeightKeepsDonation)
            || self.rules.changed(Mutant::UnmovedKeepsDonation)
                && members(self.active).all(|number| old[number] == new[number])
    }

    /// Budgets are scaled from the shares held, but under a mutant.
    fn take_held(&mut self, node: usize, old: &Shares, new: &Shares) {
        if self.rules.changed(Mutant::WeightThroughBase) {
            self.set_shares(old, Mutant::BudgetKeptAtWeight);
        }
        for number in members(self.active) {
            if self.rules.changed(Mutant::WeightFromBase) {
                self.leaves[number].share = old[number];
            }
            if number != node && self.rules.changed(Mutant::BudgetOfOthersKept) {
                self.leaves[number].share = new[number];
            }
        }
    }

    /// A weight leaves all but shares and budgets, but under a mutant.
    fn take_by_mutant(&mut self) {
        self.restart(Mutant::WeightTakesUsages, Mutant::WeightTakesAccepted);
        for leaf in &mut self.leaves {
            if self.rules.changed(Mutant::WeightTakesBudgets) {
                leaf.budget = Relative(0);
            }
            if self.rules.changed(Mutant::WeightTakesDebts) {
                leaf.debt = Absolute(0);
            }
            if self.rules.changed(Mutant::WeightTakesWaiters) {
                leaf.queue = Queue::default();
            }
            if self.rules.changed(Mutant::WeightTakesEnds) {
                leaf.end = None;
            }
        }
        if self.rules.changed(Mutant::WeightTakesPeriod) {
            self.period = 0;
        }
        if self.rules.changed(Mutant::WeightTakesTime) {
            self.time = 0;
        }
        if self.rules.changed(Mutant::WeightTakesVrate) {
            self.vrate = FRESH_VRATE;
        }
        self.keep_remainder(Mutant::RestLostAtWeight);
        if self.rules.changed(Mutant::WeightTicks) {
            self.take_turns(0, &mut [0; MAX_WAITING]);
        }
    }
}
