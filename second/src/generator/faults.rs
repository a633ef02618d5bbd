//! Setups with a fault: in the tree, in the rates or in the order of records.

use crate::engine::cost::{MAX_BPS, MAX_IOPS, MIN_BPS};
use crate::engine::rules::Rules;
use crate::engine::tree::{Tree, MAX_LEVEL, MAX_NODES, MAX_WEIGHT};
use crate::generator::random::Random;
use crate::generator::setup::{
    any_rates, assemble, edge_tree, good_setup, good_tree, tall_tree, Nodes, BENCH,
};
use crate::trace::record::Record;

/// Setup records with a fault.
pub fn bad_setup(random: &mut Random) -> Vec<Record> {
    match random.below(3) {
        0 => bad_tree(random),
        1 => bad_rates(random),
        _ => bad_order(random),
    }
}

/// A setup whose tree is refused, at a node or at start.
pub fn bad_tree(random: &mut Random) -> Vec<Record> {
    let nodes = match random.below(16) {
        0 => edge_tree(random.spread(1_024, u64::from(MAX_WEIGHT)) as u16),
        1 | 2 => Vec::new(),
        3..=5 => crowded(random),
        _ => spoiled(random),
    };
    let mut records = assemble(nodes, BENCH, random);
    // A bad node is refused at once: neither a start nor a model is needed.
    match random.below(6) {
        0 => {
            records.pop();
        }
        1 => records.retain(|record| !matches!(record, Record::Model(_))),
        _ => {}
    }
    records
}

const MOST_RECORDS: u64 = MAX_NODES as u64 - 1;

/// A node more than there may be, and often something else wrong with it.
fn crowded(random: &mut Random) -> Nodes {
    let mut nodes = tall_tree(random, MOST_RECORDS);
    nodes.push((0, 100));
    let last = nodes.len() - 1;
    match random.below(4) {
        0 => {}
        1 => spoil_parent(&mut nodes, last, random),
        2 => spoil_weight(&mut nodes, last, random),
        _ => {
            spoil_level(&mut nodes, last, random);
        }
    }
    if random.once_in(4) {
        spoil_weight(&mut nodes, last, random);
    }
    if random.once_in(4) {
        nodes.push((0, 0));
    }
    nodes
}

/// A tree with a bad node: the first, the last or any; in every third tree
/// another one behind it.
fn spoiled(random: &mut Random) -> Nodes {
    let mut nodes = match random.below(6) {
        0 => good_tree(random),
        1 => {
            let count = random.between(55, MOST_RECORDS);
            tall_tree(random, count)
        }
        2..=4 => tall_tree(random, MOST_RECORDS),
        _ => {
            let count = random.between(u64::from(MAX_LEVEL) + 1, MOST_RECORDS);
            tall_tree(random, count)
        }
    };
    let last = nodes.len() - 1;
    let place = match random.below(4) {
        0 => 0,
        1 => last,
        _ => random.below(last as u64 + 1) as usize,
    };
    let bad = spoil(&mut nodes, place, random);
    if random.once_in(3) {
        let other = random.between(bad as u64, nodes.len() as u64 - 1);
        spoil(&mut nodes, other as usize, random);
    }
    nodes
}

/// One fault of a node, or two of them. The answer is where it is.
fn spoil(nodes: &mut Nodes, place: usize, random: &mut Random) -> usize {
    let mut bad = place;
    let fault = random.below(8);
    match fault {
        0..=2 => spoil_parent(nodes, place, random),
        3 | 4 => {}
        _ => bad = spoil_level(nodes, place, random),
    }
    if (2..=5).contains(&fault) {
        spoil_weight(nodes, bad, random);
    }
    bad
}

fn spoil_parent(nodes: &mut Nodes, place: usize, random: &mut Random) {
    let own_number = place as u64 + 1;
    let above = random.between(own_number + 1, 255);
    nodes[place].0 = random.pick(&[own_number, own_number + 1, above, 255]) as u8;
}

fn spoil_weight(nodes: &mut Nodes, place: usize, random: &mut Random) {
    let above = random.between(u64::from(MAX_WEIGHT) + 1, u64::from(u16::MAX)) as u16;
    nodes[place].1 = random.pick(&[0, 0, MAX_WEIGHT + 1, u16::MAX, above]);
}

/// Hangs a node below one of the deepest before it; where there is none, the
/// tree becomes a chain that is one too long. The answer is the bad place.
fn spoil_level(nodes: &mut Nodes, place: usize, random: &mut Random) -> usize {
    let mut tree = Tree::new();
    for &(parent, weight) in &nodes[..place] {
        if tree.add(parent, weight, Rules::TRUE).is_err() {
            break;
        }
    }
    let deepest: Vec<usize> = (1..tree.count())
        .filter(|node| tree.level(*node) == MAX_LEVEL)
        .collect();
    if deepest.is_empty() {
        *nodes = (0..=MAX_LEVEL).map(|parent| (parent, 100)).collect();
        return usize::from(MAX_LEVEL);
    }
    nodes[place].0 = random.pick(&deepest) as u8;
    place
}

fn bad_rates(random: &mut Random) -> Vec<Record> {
    let mut rates = any_rates(random);
    let bps = random.pick(&[
        0,
        MIN_BPS - 1,
        MIN_BPS - 1,
        MAX_BPS + 1,
        MAX_BPS + 1,
        u64::MAX,
    ]);
    let iops = random.pick(&[0, MAX_IOPS + 1, u64::MAX]);
    match random.below(6) {
        0 => rates.rbps = bps,
        1 => rates.rseqiops = iops,
        2 => rates.rrandiops = iops,
        3 => rates.wbps = bps,
        4 => rates.wseqiops = iops,
        _ => rates.wrandiops = iops,
    }
    let nodes = good_tree(random);
    assemble(nodes, rates, random)
}

/// A good setup with a record lost, doubled or out of its phase.
fn bad_order(random: &mut Random) -> Vec<Record> {
    let mut records = good_setup(random);
    let place = random.below(records.len() as u64) as usize;
    match random.below(8) {
        0 => records.retain(|record| !matches!(record, Record::Model(_))),
        1 => {
            let last = records.len() - 1;
            records.insert(last, Record::Model(BENCH));
            records.insert(last, Record::Model(BENCH));
        }
        2 => records.insert(place, Record::Plan),
        3 => records.insert(place, Record::Vrate { vrate: 100 }),
        4 => records.insert(place, Record::Tick { time: 0 }),
        5 => {
            let node = random.pick(&[0, 1, 1, 2, 255]);
            let weight = random.pick(&[0, 100, MAX_WEIGHT]);
            records.insert(place, Record::Weight { node, weight });
        }
        // No fault of a record: the trace ends before it starts.
        6 => records.truncate(place),
        _ => records.clear(),
    }
    records
}
