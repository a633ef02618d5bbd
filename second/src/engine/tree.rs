//! The weight tree, and what is wrong with one. Its base shares are next door.

use crate::engine::numbers::is_member;
use crate::engine::refusal::{Fault, Refusal};
use crate::engine::rules::{Mutant, Rules};

/// The fewest and the most nodes, counting the root.
const MIN_NODES: u64 = 2;
pub const MAX_NODES: usize = 64;
pub const MAX_LEVEL: u8 = 8;
pub const MAX_WEIGHT: u16 = 10_000;

/// The mutants under which 0, not 10,000 and also 10,001 is a weight.
struct WeightMutants {
    zero: Mutant,
    one_less: Mutant,
    one_more: Mutant,
}

const NODE_RECORD: WeightMutants = WeightMutants {
    zero: Mutant::WeightZero,
    one_less: Mutant::WeightOneLess,
    one_more: Mutant::WeightOneMore,
};

const WEIGHT_RECORD: WeightMutants = WeightMutants {
    zero: Mutant::NewWeightZero,
    one_less: Mutant::NewWeightOneLess,
    one_more: Mutant::NewWeightOneMore,
};

/// Whether a weight is one that a node may have.
fn in_range(weight: u16, of: &WeightMutants, rules: Rules) -> bool {
    let lightest = u64::from(!rules.changed(of.zero));
    let heaviest = rules.limit(of.one_less, of.one_more, u64::from(MAX_WEIGHT));
    (lightest..=heaviest).contains(&u64::from(weight))
}

/// A mutant, a fault, and the one that the mutant tells in its place.
type Told = (Mutant, Fault, Fault);

const NODE_TOLD: &[Told] = &[
    (Mutant::CountAsParent, Fault::Count, Fault::Parent),
    (Mutant::ParentAsCount, Fault::Parent, Fault::Count),
    (Mutant::ParentAsWeight, Fault::Parent, Fault::Weight),
    (Mutant::ParentAsLevel, Fault::Parent, Fault::Level),
    (Mutant::WeightAsCount, Fault::Weight, Fault::Count),
    (Mutant::WeightAsParent, Fault::Weight, Fault::Parent),
    (Mutant::WeightAsLevel, Fault::Weight, Fault::Level),
    (Mutant::LevelAsCount, Fault::Level, Fault::Count),
    (Mutant::LevelAsParent, Fault::Level, Fault::Parent),
    (Mutant::LevelAsWeight, Fault::Level, Fault::Weight),
    (Mutant::NodeGivesOne, Fault::Count, Fault::Unsplit),
    (Mutant::NodeGivesOne, Fault::Parent, Fault::Unsplit),
    (Mutant::NodeGivesOne, Fault::Weight, Fault::Unsplit),
    (Mutant::NodeGivesOne, Fault::Level, Fault::Unsplit),
];

const START_TOLD: &[Told] = &[(Mutant::StartGivesOne, Fault::Count, Fault::Unsplit)];

const NEW_WEIGHT_TOLD: &[Told] = &[
    (Mutant::WeightGivesOne, Fault::Weight, Fault::Unsplit),
    (Mutant::NewWeightAsParent, Fault::Weight, Fault::Parent),
    (Mutant::NewWeightAsLevel, Fault::Weight, Fault::Level),
];

/// A fault is told as it is, but under a mutant.
fn told(fault: Fault, by_mutants: &[Told], rules: Rules) -> Fault {
    by_mutants
        .iter()
        .find(|(mutant, found, _)| rules.changed(*mutant) && *found == fault)
        .map_or(fault, |(_, _, told)| *told)
}

/// The refusal of a node record. A bad node is named by the number that it
/// would get, and 20 names the root.
fn refused_node(fault: Fault, node: u8, parent: u8, rules: Rules) -> Refusal {
    let named = match fault {
        Fault::Count if rules.changed(Mutant::CountNamesNext) => node,
        Fault::Count if rules.changed(Mutant::CountNamesLast) => node - 1,
        Fault::Count => 0,
        _ if rules.changed(Mutant::NodeBeforeNamed) => node - 1,
        _ if rules.changed(Mutant::NodeBehindNamed) => node + 1,
        _ if rules.changed(Mutant::ParentNamed) => parent,
        _ if rules.changed(Mutant::RootNamed) => 0,
        _ => node,
    };
    Refusal::Tree(told(fault, NODE_TOLD, rules), named)
}

/// The parent and the weight of a node.
pub type Node = (u8, u16);

#[derive(Clone, Debug, PartialEq, Eq)]
pub struct Tree {
    count: usize,
    parents: [usize; MAX_NODES],
    weights: [u64; MAX_NODES],
    levels: [u8; MAX_NODES],
    leaves: u64,
}

impl Tree {
    /// A tree of the root only.
    pub fn new() -> Tree {
        Tree {
            count: 1,
            parents: [0; MAX_NODES],
            weights: [0; MAX_NODES],
            levels: [0; MAX_NODES],
            leaves: 0,
        }
    }

    /// Nodes, counting the root.
    pub fn count(&self) -> usize {
        self.count
    }

    /// The leaves as a set.
    pub fn leaves(&self) -> u64 {
        self.leaves
    }

    pub fn level(&self, node: usize) -> u8 {
        self.levels[node]
    }

    /// The parent of a node; the root counts as its own.
    pub fn parent(&self, node: usize) -> usize {
        self.parents[node]
    }

    /// The child of the root that a node is or lies below.
    pub fn branch_of(&self, node: usize) -> usize {
        let mut top = node;
        while self.parents[top] != 0 {
            top = self.parents[top];
        }
        top
    }

    /// Whether no node has a higher number.
    pub fn is_last(&self, node: usize) -> bool {
        node + 1 == self.count
    }

    /// The tree of a list with the root in front, where nothing is looked at;
    /// refusals 20 to 23.
    pub fn of(nodes: &[Node], rules: Rules) -> Result<Tree, Refusal> {
        if !(MIN_NODES..=MAX_NODES as u64).contains(&(nodes.len() as u64)) {
            return Err(Refusal::COUNT);
        }
        let mut tree = Tree::new();
        for &(parent, weight) in &nodes[1..] {
            tree.add(parent, weight, rules)?;
        }
        Ok(tree)
    }

    /// Adds the next node below `parent`; refusals 20 to 23.
    pub fn add(&mut self, parent: u8, weight: u16, rules: Rules) -> Result<(), Refusal> {
        let node = self.count;
        if let Some(fault) = self.fault_of_next(parent, weight, rules) {
            return Err(refused_node(fault, node as u8, parent, rules));
        }
        let parent = usize::from(parent);
        self.parents[node] = parent;
        self.weights[node] = u64::from(weight);
        self.levels[node] = self.levels[parent] + 1;
        // A parent stops being a leaf; the root never was one.
        self.leaves = self.leaves & !(1 << parent) | 1 << node;
        self.count += 1;
        Ok(())
    }

    /// The first thing that is wrong with the next node, if any is.
    fn fault_of_next(&self, parent: u8, weight: u16, rules: Rules) -> Option<Fault> {
        let node = self.count;
        let room = MAX_NODES - usize::from(rules.changed(Mutant::NodesOneLess));
        let bad_parent = usize::from(parent) >= node;
        let mut faults = [
            (node >= room, Fault::Count),
            (bad_parent, Fault::Parent),
            (!in_range(weight, &NODE_RECORD, rules), Fault::Weight),
            // A parent that is not there has no level.
            (!bad_parent && self.is_deepest(parent, rules), Fault::Level),
        ];
        if rules.changed(Mutant::WeightBeforeParent) {
            faults.swap(1, 2);
        }
        if rules.changed(Mutant::LevelBeforeWeight) {
            faults.swap(2, 3);
        }
        if rules.changed(Mutant::CountLast) {
            faults.rotate_left(1);
        }
        let first = faults.iter().find(|(holds, _)| *holds);
        first.map(|(_, fault)| *fault)
    }

    /// Whether no node may lie below this parent.
    fn is_deepest(&self, parent: u8, rules: Rules) -> bool {
        let deepest = rules.limit(
            Mutant::LevelOneLess,
            Mutant::LevelOneMore,
            u64::from(MAX_LEVEL),
        );
        let above = if rules.changed(Mutant::LevelOfLast) {
            self.count - 1
        } else {
            usize::from(parent)
        };
        u64::from(self.levels[above]) >= deepest
    }

    /// Refusal 22 for the weight of a weight record, which names its node.
    pub fn check_weight(&self, node: usize, weight: u16, rules: Rules) -> Result<(), Refusal> {
        if in_range(weight, &WEIGHT_RECORD, rules) {
            return Ok(());
        }
        let named = if rules.changed(Mutant::NewWeightNamesRoot) {
            0
        } else if rules.changed(Mutant::NewWeightNamesBefore) {
            node.saturating_sub(1)
        } else if rules.changed(Mutant::NewWeightNamesBehind) {
            node + 1
        } else if rules.changed(Mutant::NewWeightNamesLast) {
            self.count - 1
        } else {
            node
        };
        let fault = told(Fault::Weight, NEW_WEIGHT_TOLD, rules);
        Err(Refusal::Tree(fault, named as u8))
    }

    /// The same tree with another weight of one node. Only a mutant asks for
    /// a node that is not there.
    pub fn with_weight(&self, node: usize, weight: u16) -> Tree {
        let mut tree = self.clone();
        if let Some(place) = tree.weights.get_mut(node) {
            *place = u64::from(weight);
        }
        tree
    }

    /// The weight of a node; the root has none.
    pub fn weight(&self, node: usize) -> u16 {
        self.weights[node] as u16
    }

    /// Whether a node is there, is not the root and has a child.
    pub fn is_inner(&self, node: usize) -> bool {
        (1..self.count).contains(&node) && !is_member(self.leaves, node)
    }

    /// The leaves that a node is or has below it.
    pub fn leaves_of(&self, node: usize) -> u64 {
        let mut below = 1 << node;
        for other in node + 1..self.count {
            if is_member(below, self.parents[other]) {
                below |= 1 << other;
            }
        }
        below & self.leaves
    }

    /// Refusals 20 for too few nodes and 2 for a thin tree.
    pub fn check(&self, rules: Rules) -> Result<(), Refusal> {
        let least = rules.limit(Mutant::NoNodeAccepted, Mutant::OneNodeRefused, MIN_NODES);
        if (self.count as u64) < least {
            let fault = told(Fault::Count, START_TOLD, rules);
            let named = u8::from(rules.changed(Mutant::StartNamesFirst));
            return Err(Refusal::Tree(fault, named));
        }
        self.check_thin_at_start(rules)
    }
}
