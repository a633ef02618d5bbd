//! The trees on which times are measured: so many leaves, spread over so many
//! levels.

use crate::engine::cost::Rates;
use crate::engine::tree::{MAX_LEVEL, MAX_NODES};
use crate::generator::setup::{setup_on, Nodes};
use crate::trace::record::Record;

/// The chain weighs this much and a leaf that much, so that no leaf is thin
/// where all of them lie below the chain or beside it.
const CHAIN_WEIGHT: u16 = 10_000;
const LEAF_WEIGHT: u16 = 100;

/// A chain from the root down to the level above the deepest one, and leaves
/// behind it. The first leaf lies at the deepest level, the next one a level
/// above it, and so on in turn: no two that follow each other have the same
/// parent, unless there is but one level.
#[derive(Clone, Copy, Debug)]
pub struct Shape {
    pub leaves: u64,
    pub levels: u64,
}

impl Shape {
    /// The shape, or why there is none.
    pub fn new(leaves: u64, levels: u64) -> Result<Shape, String> {
        if !(1..=u64::from(MAX_LEVEL)).contains(&levels) {
            return Err(format!("there are 1 to {} levels", MAX_LEVEL));
        }
        let most = Shape::most_leaves(levels);
        if !(1..=most).contains(&leaves) {
            let on = match levels {
                1 => String::new(),
                _ => format!(" on {} levels", levels),
            };
            return Err(format!("there are 1 to {} leaves{}", most, on));
        }
        Ok(Shape { leaves, levels })
    }

    /// The root and the chain take a node for each level.
    pub fn most_leaves(levels: u64) -> u64 {
        MAX_NODES as u64 - levels
    }

    /// The numbers of the leaves.
    pub fn numbers(self) -> std::ops::Range<u64> {
        self.levels..self.levels + self.leaves
    }

    /// The number of the leaf whose turn it is.
    pub fn in_turn(self, turn: u64) -> u64 {
        self.levels + turn % self.leaves
    }

    /// The setup records of such a tree.
    pub fn setup(self, rates: Rates) -> Vec<Record> {
        let chain = (1..self.levels).map(|node| (node - 1, CHAIN_WEIGHT));
        let leaves = (0..self.leaves).map(|k| (self.levels - 1 - k % self.levels, LEAF_WEIGHT));
        let nodes: Nodes = chain
            .chain(leaves)
            .map(|(parent, weight)| (parent as u8, weight))
            .collect();
        setup_on(rates, &nodes)
    }
}
