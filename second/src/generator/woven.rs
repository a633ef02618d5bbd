//! Deep trees in which numbers say little of places: branches grow in turn, so
//! that a node's parent is hardly ever the node before it.

use crate::engine::rules::Rules;
use crate::engine::tree::{Tree, MAX_LEVEL, MAX_NODES};
use crate::generator::random::Random;
use crate::generator::setup::{any_weight, assemble, is_good, Nodes, BENCH, LINUX, PAPER};
use crate::trace::record::Record;

/// The setup records of such a tree. Now and then its leaves on level 8 are at
/// the edge of thin, or just beyond it.
pub fn woven_setup(random: &mut Random) -> Vec<Record> {
    let nodes = match random.below(12) {
        0 => edge_tree_of_8(1_001),
        1 => edge_tree_of_8(1_000),
        2 | 3 => woven_tree(random, MAX_NODES as u64 - 1),
        _ => {
            let count = random.between(12, 40);
            woven_tree(random, count)
        }
    };
    let (_, fast) = LINUX[3];
    let rates = random.pick(&[BENCH, BENCH, PAPER, fast]);
    assemble(nodes, rates, random)
}

/// A branch goes down to the deepest level, and others a part of the way. Where
/// a branch does not grow, a leaf joins any of them.
fn woven_tree(random: &mut Random, count: u64) -> Nodes {
    let depths = [
        u64::from(MAX_LEVEL) - 1,
        random.between(1, u64::from(MAX_LEVEL) - 1),
        random.between(1, 3),
    ];
    let mut tips = [0; 3];
    let mut tree = Tree::new();
    let mut nodes = Nodes::new();
    while (nodes.len() as u64) < count {
        let branch = nodes.len() % tips.len();
        let grows = u64::from(tree.level(tips[branch])) < depths[branch];
        let (parent, weight) = if grows {
            (tips[branch], random.between(200, 800))
        } else {
            (any_parent(&tree, &tips, random), random.between(20, 200))
        };
        // Those chosen here are sound.
        let _ = tree.add(parent as u8, weight as u16, Rules::TRUE);
        nodes.push((parent as u8, weight as u16));
        if grows {
            tips[branch] = nodes.len();
        }
    }
    with_odd_weights(nodes, random)
}

/// A node of a branch, or the root, but not the last node. The deepest level
/// gets its part too.
fn any_parent(tree: &Tree, tips: &[usize], random: &mut Random) -> usize {
    let mut parent = random.pick(tips);
    if random.once_in(4) {
        parent = tips[0];
    } else {
        for _ in 0..random.below(u64::from(tree.level(parent)) + 1) {
            parent = tree.parent(parent);
        }
    }
    if tree.is_last(parent) {
        parent = tree.parent(parent);
    }
    parent
}

/// Some weights anywhere in their range, unless that makes the tree thin.
fn with_odd_weights(nodes: Nodes, random: &mut Random) -> Nodes {
    let mut odd = nodes.clone();
    for node in &mut odd {
        if random.once_in(6) {
            node.1 = any_weight(random);
        }
    }
    if is_good(&odd) {
        odd
    } else {
        nodes
    }
}

/// Six times an eighth and twice a half: with 1,000 for the last leaf it and
/// the one beside it have 1,024 on level 8, with 1,001 the other has 1,023.
fn edge_tree_of_8(last: u16) -> Nodes {
    let mut nodes = Nodes::new();
    let mut parent = 0;
    for level in 1..MAX_LEVEL {
        nodes.push((parent, 1_000));
        let below = nodes.len() as u8;
        nodes.push((parent, if level <= 6 { 7_000 } else { 1_000 }));
        parent = below;
    }
    nodes.push((parent, 1_000));
    nodes.push((parent, last));
    nodes
}
