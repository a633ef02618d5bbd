//! The setup part of generated traces: trees and models.

use crate::engine::cost::{Rates, MAX_BPS, MAX_COST, MAX_IOPS, MIN_BPS};
use crate::engine::numbers::ceil;
use crate::engine::rules::Rules;
use crate::engine::tree::{Node, Tree, MAX_LEVEL, MAX_NODES, MAX_WEIGHT};
use crate::generator::random::Random;
use crate::trace::record::Record;

/// The model of document 01's bench.
pub const BENCH: Rates = Rates {
    rbps: 409_600_000,
    rseqiops: 50_000,
    rrandiops: 10_000,
    wbps: 204_800_000,
    wseqiops: 25_000,
    wrandiops: 5_000,
};

/// Rates of which no two prices are the same: pages of 10,000 and 25,000, read
/// bases of 30,000 and 90,000, write bases of 55,000 and 225,000.
pub const PRICES: Rates = Rates {
    rbps: 409_600_000,
    rseqiops: 25_000,
    rrandiops: 10_000,
    wbps: 163_840_000,
    wseqiops: 12_500,
    wrandiops: 4_000,
};

/// The example configuration printed in the IOCost paper, figure 6.
pub const PAPER: Rates = Rates {
    rbps: 488_636_629,
    rseqiops: 8_932,
    rrandiops: 8_518,
    wbps: 427_891_549,
    wseqiops: 28_755,
    wrandiops: 21_940,
};

/// The presets of Linux 6.1's block/blk-iocost.c by name. That of an SSD with
/// many requests is the paper's.
pub const LINUX: [(&str, Rates); 4] = [
    (
        "hdd",
        Rates {
            rbps: 174_019_176,
            rseqiops: 41_708,
            rrandiops: 370,
            wbps: 178_075_866,
            wseqiops: 42_705,
            wrandiops: 378,
        },
    ),
    (
        "ssd_qd1",
        Rates {
            rbps: 245_855_193,
            rseqiops: 61_575,
            rrandiops: 6_946,
            wbps: 141_365_009,
            wseqiops: 33_716,
            wrandiops: 26_796,
        },
    ),
    ("ssd_dfl", PAPER),
    (
        "ssd_fast",
        Rates {
            rbps: 3_102_524_156,
            rseqiops: 724_816,
            rrandiops: 778_122,
            wbps: 1_742_780_862,
            wseqiops: 425_702,
            wrandiops: 443_193,
        },
    ),
];

/// The nodes from 1 on.
pub type Nodes = Vec<Node>;

/// The setup records of a trace that starts.
pub fn good_setup(random: &mut Random) -> Vec<Record> {
    let nodes = good_tree(random);
    let rates = any_rates(random);
    assemble(nodes, rates, random)
}

/// The setup records for the debt limit: a model with a bio of exactly the
/// highest cost, since only such costs reach that limit in 512 steps.
pub fn dearest_setup(random: &mut Random) -> Vec<Record> {
    let nodes = good_tree(random);
    let rates = dearest_rates(random);
    assemble(nodes, rates, random)
}

/// The setup records for questions: a small tree, mostly with inner nodes. Where
/// a debt is to climb to its limit, costs come to their limit and one above it.
pub fn asked_setup(random: &mut Random, climb: bool) -> Vec<Record> {
    let count = random.between(4, 9);
    let nodes = scattered_tree(random, count);
    let rates = match random.below(6) {
        _ if climb => limit_rates(random),
        0 => limit_rates(random),
        1 => any_rates(random),
        2 => BENCH,
        _ => PRICES,
    };
    assemble(nodes, rates, random)
}

/// Two leaves on the bench's model.
pub fn few_setup() -> Vec<Record> {
    setup_on_bench(&[(0, 100), (0, 300)])
}

/// 63 leaves right below the root.
pub fn wide_setup(random: &mut Random) -> Vec<Record> {
    let nodes: Nodes = (1..MAX_NODES)
        .map(|_| (0, random.between(50, 400) as u16))
        .collect();
    setup_on_bench(&nodes)
}

/// A chain of 7 inner nodes with 7 leaves below each of them and below the
/// root: 63 nodes, and 56 leaves at all 8 levels. The chain weighs more than
/// the leaves beside it, or the tree would be thin.
pub fn deep_setup(random: &mut Random) -> Vec<Record> {
    let mut nodes = Nodes::new();
    let mut parent = 0;
    for level in 1..=MAX_LEVEL {
        for _ in 0..7 {
            nodes.push((parent, random.between(20, 60) as u16));
        }
        if level < MAX_LEVEL {
            nodes.push((parent, 400));
            parent = nodes.len() as u8;
        }
    }
    setup_on_bench(&nodes)
}

fn setup_on_bench(nodes: &[Node]) -> Vec<Record> {
    setup_on(BENCH, nodes)
}

/// The model first, then the nodes, and a start at 0.
pub fn setup_on(rates: Rates, nodes: &[Node]) -> Vec<Record> {
    let mut records = vec![Record::Model(rates)];
    records.extend(
        nodes
            .iter()
            .map(|&(parent, weight)| Record::Node { parent, weight }),
    );
    records.push(Record::Start { time: 0 });
    records
}

/// Nodes, model and start, the model at any place before the start.
pub fn assemble(nodes: Nodes, rates: Rates, random: &mut Random) -> Vec<Record> {
    let mut records: Vec<Record> = nodes
        .iter()
        .map(|&(parent, weight)| Record::Node { parent, weight })
        .collect();
    let place = random.below(records.len() as u64 + 1) as usize;
    records.insert(place, Record::Model(rates));
    records.push(Record::Start {
        time: start_time(random),
    });
    records
}

/// Seldom a time so late that the clock comes to its end.
fn start_time(random: &mut Random) -> u64 {
    match random.below(16) {
        0 => u64::MAX - random.spread(0, 1 << 40),
        1..=4 => random.number() / 2,
        _ => 0,
    }
}

pub fn good_tree(random: &mut Random) -> Nodes {
    let nodes = match random.below(9) {
        0 => vec![(0, 100), (0, 300)],
        1 => vec![(0, 100); 3],
        2 => flat_tree(random),
        3 => comb_tree(random),
        4 => {
            let count = random.between(2, 16);
            scattered_tree(random, count)
        }
        5 => scattered_tree(random, MAX_NODES as u64 - 1),
        6 => edge_tree(1_023),
        7 => vec![(0, any_weight(random))],
        _ => flat_tree(random),
    };
    if is_good(&nodes) {
        return nodes;
    }
    // Equal weights keep the same shape from being thin.
    nodes.iter().map(|&(parent, _)| (parent, 100)).collect()
}

pub fn is_good(nodes: &[Node]) -> bool {
    let mut tree = Tree::new();
    nodes
        .iter()
        .all(|&(parent, weight)| tree.add(parent, weight, Rules::TRUE).is_ok())
        && tree.check(Rules::TRUE).is_ok()
}

pub fn any_weight(random: &mut Random) -> u16 {
    match random.below(6) {
        0 => 1,
        1 => MAX_WEIGHT,
        _ => random.spread(1, u64::from(MAX_WEIGHT)) as u16,
    }
}

fn flat_tree(random: &mut Random) -> Nodes {
    let count = random.between(2, 8);
    (0..count).map(|_| (0, any_weight(random))).collect()
}

/// A chain with a leaf beside each of its nodes, down to the deepest level.
fn comb_tree(random: &mut Random) -> Nodes {
    let depth = random.between(2, u64::from(MAX_LEVEL));
    let mut nodes = Vec::new();
    let mut parent = 0;
    for _ in 0..depth {
        nodes.push((parent, random.between(1, 4) as u16));
        nodes.push((parent, random.between(1, 4) as u16));
        parent = nodes.len() as u8;
    }
    nodes
}

fn scattered_tree(random: &mut Random, count: u64) -> Nodes {
    let mut nodes = Vec::new();
    scatter_to(&mut nodes, random, count);
    nodes
}

/// Adds nodes at any place below the root, up to so many.
fn scatter_to(nodes: &mut Nodes, random: &mut Random, count: u64) {
    let mut tree = Tree::new();
    for &(parent, weight) in nodes.iter() {
        // Those given are sound.
        let _ = tree.add(parent, weight, Rules::TRUE);
    }
    while (nodes.len() as u64) < count {
        let parent = random.below(nodes.len() as u64 + 1) as u8;
        let weight = random.between(50, 400) as u16;
        if tree.add(parent, weight, Rules::TRUE).is_ok() {
            nodes.push((parent, weight));
        }
    }
}

/// A chain down to the deepest level, and the other nodes anywhere.
pub fn tall_tree(random: &mut Random, count: u64) -> Nodes {
    let mut nodes: Nodes = (0..MAX_LEVEL)
        .map(|parent| (parent, random.between(50, 400) as u16))
        .collect();
    scatter_to(&mut nodes, random, count);
    nodes
}

/// Weights 1 and 1,023 below the root, 1 and `inner` below the first: at
/// 1,023 just not thin, at 1,024 just thin.
pub fn edge_tree(inner: u16) -> Nodes {
    vec![(0, 1), (0, 1_023), (1, 1), (1, inner)]
}

pub fn any_rates(random: &mut Random) -> Rates {
    match random.below(10) {
        0 => PAPER,
        1 => same_rates(MAX_BPS, MAX_IOPS),
        2 => same_rates(MIN_BPS, 1),
        3 => dearest_rates(random),
        4 => Rates {
            rseqiops: 200_000,
            wrandiops: MAX_IOPS,
            ..BENCH
        },
        5 => Rates {
            rbps: random.spread(MIN_BPS, MAX_BPS),
            rseqiops: random.spread(1, MAX_IOPS),
            rrandiops: random.spread(1, MAX_IOPS),
            wbps: random.spread(MIN_BPS, MAX_BPS),
            wseqiops: random.spread(1, MAX_IOPS),
            wrandiops: random.spread(1, MAX_IOPS),
        },
        _ => BENCH,
    }
}

/// The same rates for reading and writing.
pub fn same_rates(bps: u64, iops: u64) -> Rates {
    Rates {
        rbps: bps,
        rseqiops: iops,
        rrandiops: iops,
        wbps: bps,
        wseqiops: iops,
        wrandiops: iops,
    }
}

/// Rates with a random bio of exactly the highest cost.
fn dearest_rates(random: &mut Random) -> Rates {
    let (bps, iops) = random.pick(&rates_of(MAX_COST.0));
    Rates {
        rseqiops: 1_000,
        wseqiops: 1_000,
        ..same_rates(bps, iops)
    }
}

/// Rates with a random read of exactly the highest cost, and a random write of
/// one more.
fn limit_rates(random: &mut Random) -> Rates {
    let (rbps, rrandiops) = random.pick(&rates_of(MAX_COST.0));
    let (wbps, wrandiops) = random.pick(&rates_of(MAX_COST.0 + 1));
    Rates {
        rbps,
        rseqiops: 1_000,
        rrandiops,
        wbps,
        wseqiops: 1_000,
        wrandiops,
    }
}

/// Each bps and iops with a random bio of exactly this cost. Cost is the time
/// of one bio plus that of its pages behind the first, so for each iops and
/// number of pages one page cost is left, which some bps must give.
fn rates_of(cost: u64) -> Vec<(u64, u64)> {
    let mut found = Vec::new();
    for iops in 1..100 {
        let first = ceil(1_000_000_000, 1, iops);
        for more_pages in 1..256 {
            let page = (cost - first) / more_pages;
            let bps = ceil(1_000_000_000, 4_096, page);
            let exact = first + page * more_pages == cost;
            if exact && page <= first && ceil(1_000_000_000, 4_096, bps) == page {
                found.push((bps, iops));
            }
        }
    }
    found
}
