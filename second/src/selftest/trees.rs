//! What is wrong with a tree, asked by direct call: which fault is told, of
//! which node, and that exactly the trees are refused that document 01's
//! refusal 1 refused.

use crate::engine::controller::Controller;
use crate::engine::cost::{Model, Rates};
use crate::engine::refusal::{Fault, Refusal};
use crate::engine::rules::{Mutant, Rules};
use crate::engine::tree::{Node, Tree, MAX_LEVEL, MAX_NODES, MAX_WEIGHT};
use crate::generator::random::Random;
use crate::generator::setup::BENCH;
use crate::selftest::{weight_changes, Checks};

/// What a call answers of a tree, whatever it hands back.
type Said = Result<(), Refusal>;

fn checked(nodes: &[Node]) -> Said {
    Tree::of(nodes, Rules::TRUE).map(|_| ())
}

fn started(nodes: &[Node], rates: &Rates) -> Said {
    Controller::start_of(nodes, rates, 0, Rules::TRUE).map(|_| ())
}

/// The tree's check and start say the same of a bad tree, also where a rate
/// is bad too.
fn both_say(checks: &mut Checks, name: &str, nodes: &[Node], wanted: Said) {
    checks.equal(name, checked(nodes), wanted);
    checks.equal(name, started(nodes, &BENCH), wanted);
    if wanted.is_err() {
        checks.equal(name, started(nodes, &BAD_RATES), wanted);
    }
}

const BAD_RATES: Rates = Rates { rbps: 0, ..BENCH };

/// The root's place, with numbers that no other node could have.
const ROOT: Node = (255, 0);

/// So many nodes in all: a chain down to the deepest level, then leaves below
/// the root.
fn tall(count: usize) -> Vec<Node> {
    let mut nodes = vec![ROOT; count.min(1)];
    for node in 1..count {
        let parent = if node <= usize::from(MAX_LEVEL) {
            node as u8 - 1
        } else {
            0
        };
        nodes.push((parent, 100));
    }
    nodes
}

/// The number of nodes goes before all that is wrong with one of them.
pub fn counts(checks: &mut Checks) -> Said {
    for count in [0, 1, 65, 66, 100, 255, 256, 257, 1_000] {
        let name = format!("tree of {} nodes", count);
        let mut nodes = tall(count);
        both_say(checks, &name, &nodes, Err(Refusal::COUNT));
        for place in [1, 63, 64] {
            if place < count {
                nodes[place] = (255, 0);
            }
        }
        both_say(checks, &name, &nodes, Err(Refusal::COUNT));
    }
    for count in [2, 3, 63, 64] {
        let name = format!("tree of {} nodes", count);
        both_say(checks, &name, &tall(count), Ok(()));
    }
    let empty = Controller::start(
        Tree::new(),
        Model::new(&BENCH, Rules::TRUE)?,
        0,
        Rules::TRUE,
    );
    checks.equal("the root alone", empty.map(|_| ()), Err(Refusal::COUNT));
    Ok(())
}

/// Bad parents, weights and levels of a node in a tree of some 60, as what is
/// put in its place.
fn bad_nodes(node: u8) -> Vec<(Node, Fault)> {
    let mut bad = Vec::new();
    for parent in [node, node + 1, 59, 60, 63, 64, 255] {
        if parent >= node {
            bad.push(((parent, 100), Fault::Parent));
            // The weight is not looked at behind the parent.
            bad.push(((parent, 0), Fault::Parent));
            bad.push(((parent, MAX_WEIGHT + 1), Fault::Parent));
        }
    }
    for weight in [0, MAX_WEIGHT + 1, u16::MAX] {
        bad.push(((0, weight), Fault::Weight));
        bad.push(((node - 1, weight), Fault::Weight));
    }
    if node > MAX_LEVEL {
        bad.push(((MAX_LEVEL, 100), Fault::Level));
        bad.push(((MAX_LEVEL, 0), Fault::Weight));
        bad.push(((MAX_LEVEL, MAX_WEIGHT + 1), Fault::Weight));
    }
    bad
}

/// One bad node, at the first place, in the middle and at the last place.
pub fn single_faults(checks: &mut Checks) -> Said {
    for node in [1, 2, 8, 9, 10, 37, 58, 59] {
        for (bad, fault) in bad_nodes(node) {
            let mut nodes = tall(60);
            nodes[usize::from(node)] = bad;
            let name = format!("node {} as {:?}", node, bad);
            both_say(checks, &name, &nodes, Err(Refusal::Tree(fault, node)));
        }
    }
    Ok(())
}

/// Of two bad nodes the first is named, whatever is wrong with the other; the
/// second may hang below it.
pub fn faults_of_two(checks: &mut Checks) -> Said {
    for (first, second) in [(1, 2), (1, 59), (9, 10), (20, 40), (58, 59)] {
        for (bad, fault) in bad_nodes(first) {
            let wanted = Err(Refusal::Tree(fault, first));
            let name = format!("nodes {} as {:?} and {}", first, bad, second);
            let same = bad_nodes(second).iter().all(|(other, _)| {
                let mut nodes = tall(60);
                nodes[usize::from(first)] = bad;
                nodes[usize::from(second)] = *other;
                checked(&nodes) == wanted && started(&nodes, &BENCH) == wanted
            });
            checks.equal(&name, same, true);
        }
    }
    Ok(())
}

/// What is at a limit is accepted, and the root's place is not looked at.
pub fn sound_trees(checks: &mut Checks) -> Said {
    let chain: Vec<Node> = (0..=8).map(|node: u8| (node.max(1) - 1, 100)).collect();
    both_say(checks, "a chain of 8", &chain, Ok(()));
    for weight in [1, MAX_WEIGHT] {
        let name = format!("a weight of {}", weight);
        both_say(checks, &name, &[ROOT, (0, weight)], Ok(()));
    }
    // Each node below the one before it, as far as that goes, then anew.
    let combs: Vec<Node> = (0..64_u8)
        .map(|node| if node % 8 == 1 { 0 } else { node.max(1) - 1 })
        .map(|parent| (parent, MAX_WEIGHT))
        .collect();
    both_say(checks, "eight chains", &combs, Ok(()));
    Ok(())
}

/// 20 to 23 before 2 before 3.
pub fn tree_refusal_order(checks: &mut Checks) -> Said {
    let thin = [ROOT, (0, 1), (0, 1_023), (1, 1), (1, 1_024)];
    let order = |nodes: &[Node]| (checked(nodes), started(nodes, &BAD_RATES));
    let wanted = (Ok(()), Err(Refusal::Thin));
    checks.equal("2 before 3", order(&thin), wanted);
    let sound = [ROOT, (0, 1)];
    let wanted = (Ok(()), Err(Refusal::Rate));
    checks.equal("3", order(&sound), wanted);
    for (bad, fault) in [
        ((5, 100), Fault::Parent),
        ((0, 0), Fault::Weight),
        ((0, 10_001), Fault::Weight),
    ] {
        let mut nodes = thin.to_vec();
        nodes.push(bad);
        let refusal = Err(Refusal::Tree(fault, 5));
        let name = format!("{:?} before 2", fault);
        both_say(checks, &name, &nodes, refusal);
    }
    // A chain with a heavy leaf beside each node: thin from the third on.
    let mut nodes = vec![ROOT];
    for level in 0..MAX_LEVEL {
        let parent = (2 * level).saturating_sub(1);
        nodes.push((parent, 1));
        nodes.push((parent, MAX_WEIGHT));
    }
    both_say_thin(checks, &nodes);
    nodes.push((15, 100));
    let refusal = Err(Refusal::Tree(Fault::Level, 17));
    both_say(checks, "Level before 2", &nodes, refusal);
    Ok(())
}

fn both_say_thin(checks: &mut Checks, nodes: &[Node]) {
    checks.equal("thin is no fault of a node", checked(nodes), Ok(()));
    let thin = started(nodes, &BENCH);
    checks.equal("thin at start", thin, Err(Refusal::Thin));
}

/// A node that is added alone is named by the number that it would get, and a
/// refused one leaves the tree. With no room left nothing else counts.
pub fn added_nodes(checks: &mut Checks) -> Said {
    let mut tree = Tree::new();
    for node in 1..MAX_NODES as u8 {
        for (bad, fault) in bad_nodes(node) {
            let before = tree.clone();
            let added = tree.add(bad.0, bad.1, Rules::TRUE);
            let name = format!("node {} added as {:?}", node, bad);
            let wanted = (Err(Refusal::Tree(fault, node)), true);
            checks.equal(&name, (added, tree == before), wanted);
        }
        let parent = if node <= MAX_LEVEL { node - 1 } else { 0 };
        tree.add(parent, 100, Rules::TRUE)?;
    }
    for parent in [0, MAX_LEVEL, 63, 64, 255] {
        for weight in [0, 100, MAX_WEIGHT + 1] {
            let added = tree.add(parent, weight, Rules::TRUE);
            let name = format!("a 64th node {} {}", parent, weight);
            checks.equal(&name, added, Err(Refusal::COUNT));
        }
    }
    Ok(())
}

/// A weight names the record's node: an inner node, a leaf, active or not. The
/// tree is B7's, just not thin, so that 2 holds for some of the weights too.
pub fn bad_new_weights(checks: &mut Checks) -> Said {
    let nodes = [ROOT, (0, 1), (0, 1_023), (1, 1), (1, 1_023)];
    let mut controller = Controller::start_of(&nodes, &BENCH, 0, Rules::TRUE)?;
    controller.submit(&super::read(2, 0))?;
    for weight in [0, MAX_WEIGHT + 1, u16::MAX] {
        for node in 1..5 {
            let refused = weight_changes(&mut controller, node, weight);
            let wanted = (Err(Refusal::Tree(Fault::Weight, node)), false);
            checks.equal(&format!("weight {} {}", node, weight), refused, wanted);
        }
        for node in [0, 5, 63, 64, 255] {
            let refused = weight_changes(&mut controller, node, weight);
            let wanted = (Err(Refusal::NoWeight), false);
            checks.equal(&format!("weight {} {}", node, weight), refused, wanted);
        }
    }
    for (node, weight) in [(2, 1_024), (2, MAX_WEIGHT), (4, MAX_WEIGHT)] {
        let refused = weight_changes(&mut controller, node, weight);
        let wanted = (Err(Refusal::Thin), false);
        checks.equal(&format!("weight {} {}", node, weight), refused, wanted);
    }
    Ok(())
}

/// How many levels a node lies below the root, by climbing; none if a parent
/// on the way is none.
fn climbed(nodes: &[Node], node: usize) -> Option<usize> {
    let mut levels = 0;
    let mut place = node;
    while place != 0 {
        let parent = usize::from(nodes[place].0);
        if parent >= place {
            return None;
        }
        levels += 1;
        place = parent;
    }
    Some(levels)
}

/// Document 01's refusal 1, which knew neither what is wrong nor where.
fn breaks_the_tree_rules(nodes: &[Node]) -> bool {
    let good_node = |node: usize| {
        let (parent, weight) = nodes[node];
        let levels = climbed(nodes, node);
        usize::from(parent) < node && (1..=10_000).contains(&weight) && levels <= Some(8)
    };
    nodes.len() < 2 || nodes.len() > 64 || !(1..nodes.len()).all(good_node)
}

/// All that is wrong with one node, those before it being sound, first things
/// first.
fn faults_of(nodes: &[Node], node: usize) -> Vec<Fault> {
    let mut faults = Vec::new();
    let (parent, weight) = nodes[node];
    if usize::from(parent) >= node {
        faults.push(Fault::Parent);
    }
    if weight == 0 || weight > 10_000 {
        faults.push(Fault::Weight);
    }
    if climbed(nodes, node) > Some(8) {
        faults.push(Fault::Level);
    }
    faults
}

/// Whether what was said of a tree names its first bad node by that node's
/// first fault, or the count and no node.
fn is_first(nodes: &[Node], said: Said) -> bool {
    let bad_count = nodes.len() < 2 || nodes.len() > 64;
    match said {
        Ok(()) => true,
        Err(Refusal::Tree(Fault::Count, node)) => bad_count && node == 0,
        Err(Refusal::Tree(fault, node)) => {
            let node = usize::from(node);
            !bad_count
                && (1..node).all(|sound| faults_of(nodes, sound).is_empty())
                && faults_of(nodes, node).first() == Some(&fault)
        }
        Err(_) => false,
    }
}

/// A tree that is sound or broken at a place or two, some deep and some wide.
fn any_tree(random: &mut Random) -> Vec<Node> {
    let count = match random.below(8) {
        0 => random.below(2),
        1 => random.between(65, 80),
        2 => 64,
        _ => random.between(2, 64),
    };
    let deep = random.between(1, 4);
    let mut nodes: Vec<Node> = vec![ROOT; count.min(1) as usize];
    for node in 1..count {
        let parent = if random.below(deep) == 0 {
            random.below(node)
        } else {
            node - 1 - random.below(2).min(node - 1)
        };
        nodes.push((parent as u8, random.spread(1, 10_000) as u16));
    }
    // Down to the eighth level, a sound tree stays one.
    if random.once_in(2) {
        for node in 1..nodes.len() {
            if climbed(&nodes, node) > Some(8) {
                nodes[node].0 = 0;
            }
        }
    }
    for _ in 0..random.below(3) {
        if count > 1 {
            let node = random.between(1, count - 1);
            let bad_parent = random.between(node, 255.max(node)) as u8;
            let bad_weight = random.pick(&[0, 10_001, u16::MAX]);
            match random.below(3) {
                0 => nodes[node as usize].0 = bad_parent,
                1 => nodes[node as usize].1 = bad_weight,
                _ => nodes[node as usize] = (bad_parent, bad_weight),
            }
        }
    }
    nodes
}

/// Whether a tree is refused as it was before, and its first fault named.
fn is_told_well(nodes: &[Node], said: Said) -> bool {
    said.is_err() == breaks_the_tree_rules(nodes) && is_first(nodes, said)
}

/// The comparison over generated trees can fail: it notices these mutants.
pub fn noticed_trees(checks: &mut Checks) -> Said {
    for mutant in [
        Mutant::NodesOneLess,
        Mutant::WeightZero,
        Mutant::WeightOneMore,
        Mutant::LevelOneLess,
        Mutant::LevelOneMore,
        Mutant::ParentAsWeight,
        Mutant::WeightAsParent,
        Mutant::WeightAsLevel,
        Mutant::LevelAsWeight,
        Mutant::LevelAsCount,
        Mutant::WeightBeforeParent,
        Mutant::LevelBeforeWeight,
        Mutant::LevelOfLast,
        Mutant::NodeBeforeNamed,
        Mutant::NodeBehindNamed,
        Mutant::ParentNamed,
        Mutant::RootNamed,
        Mutant::NodeGivesOne,
    ] {
        let mut random = Random::new(0);
        let noticed = (0..TREES).any(|_| {
            let nodes = any_tree(&mut random);
            let said = Tree::of(&nodes, Rules::with(mutant)).map(|_| ());
            !is_told_well(&nodes, said)
        });
        checks.equal(mutant.name(), noticed, true);
    }
    Ok(())
}

/// So many trees of a seed.
const TREES: u64 = 2_000;

/// Over many trees: refused is what was refused before, the first fault of the
/// first bad node is named, and no fault comes too seldom to tell.
pub fn generated_trees(checks: &mut Checks) -> Said {
    for seed in 0..10 {
        let mut random = Random::new(seed);
        let (mut told_well, mut started_alike) = (0, 0);
        let mut seen = [0; 5];
        for _ in 0..TREES {
            let nodes = any_tree(&mut random);
            let said = checked(&nodes);
            told_well += u64::from(is_told_well(&nodes, said));
            let start = started(&nodes, &BENCH);
            let alike = start == said || said.is_ok() && start == Err(Refusal::Thin);
            started_alike += u64::from(alike);
            seen[match said {
                Err(Refusal::Tree(fault, _)) => usize::from(fault as u8 - 19),
                _ => 0,
            }] += 1;
        }
        let name = format!("trees of seed {}", seed);
        checks.equal(&name, told_well, TREES);
        checks.equal(&name, started_alike, TREES);
        checks.equal(&name, seen.iter().all(|&count| count > 100), true);
    }
    Ok(())
}
