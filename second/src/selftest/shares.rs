//! Document 01's share rule in its own form, a call on the parent with a sum of
//! its own at each step, held against the one pass: on all small trees, on many
//! large ones, and behind every call of generated traces.

use std::io;

use super::Checks;
use crate::engine::controller::Controller;
use crate::engine::numbers::{members, WHOLE};
use crate::engine::refusal::Refusal;
use crate::engine::rules::{Mutant, Rules};
use crate::engine::shares::SHARE_FLOOR;
use crate::engine::tree::{Tree, MAX_NODES, MAX_WEIGHT};
use crate::generator::generate::generate;
use crate::generator::random::Random;
use crate::generator::style::Style;
use crate::trace::record::Record;
use crate::trace::replay::{Outcome, Replay};
use crate::trace::stream::Reader;

/// The rule for a tree and a set of active leaves.
struct Rule<'a> {
    tree: &'a Tree,
    active: u64,
}

impl Rule<'_> {
    /// An inner node is active when a leaf below it is.
    fn is_active(&self, node: usize) -> bool {
        members(self.active).any(|leaf| self.lies_below(leaf, node))
    }

    /// Whether a node is another one or lies below it.
    fn lies_below(&self, node: usize, other: usize) -> bool {
        node == other || node != 0 && self.lies_below(self.tree.parent(node), other)
    }

    /// The share of an active node.
    fn share(&self, node: usize) -> u64 {
        if node == 0 {
            return WHOLE;
        }
        let parent = self.tree.parent(node);
        let sum: u64 = (1..self.tree.count())
            .filter(|&child| self.tree.parent(child) == parent && self.is_active(child))
            .map(|child| u64::from(self.tree.weight(child)))
            .sum();
        self.share(parent) * u64::from(self.tree.weight(node)) / sum
    }

    /// Whether a pass gives each active node its share.
    fn holds_for(&self, rules: Rules) -> bool {
        let shares = self.tree.base_shares(self.active, rules);
        (0..self.tree.count())
            .filter(|&node| self.is_active(node))
            .all(|node| shares[node] == self.share(node))
    }
}

/// Every tree of so many nodes below the root, by its parents.
fn all_parents(nodes: usize) -> Vec<Vec<usize>> {
    let mut trees = vec![Vec::new()];
    for node in 1..=nodes {
        let longer = |parents: &Vec<usize>| -> Vec<Vec<usize>> {
            (0..node)
                .map(|parent| parents.iter().copied().chain([parent]).collect())
                .collect()
        };
        trees = trees.iter().flat_map(longer).collect();
    }
    trees
}

/// All subsets of a set but the empty one.
fn subsets(set: u64) -> impl Iterator<Item = u64> {
    let mut next = set;
    std::iter::from_fn(move || {
        let this = next;
        next = next.wrapping_sub(1) & set;
        Some(this).filter(|&subset| subset != 0)
    })
}

/// On all trees of up to six nodes, with all sets of active leaves: how many
/// tables were compared, and how many were as the rule has them.
fn small_tables() -> Result<(u64, u64), Refusal> {
    let weights: [fn(usize) -> u16; 3] = [
        |_| 100,
        |node| 100 * node as u16 + 7,
        |node| MAX_WEIGHT / node as u16,
    ];
    let (mut made, mut held) = (0, 0);
    for parents in (1..=6).flat_map(all_parents) {
        for weight in weights {
            let mut nodes = vec![(0, 0)];
            for parent in &parents {
                nodes.push((*parent as u8, weight(nodes.len())));
            }
            let tree = &Tree::of(&nodes, Rules::TRUE)?;
            for active in subsets(tree.leaves()) {
                made += 1;
                held += u64::from(Rule { tree, active }.holds_for(Rules::TRUE));
            }
        }
    }
    Ok((made, held))
}

/// Any tree: its nodes hang anywhere, often deep, with weights of all sizes.
fn any_tree(random: &mut Random) -> Tree {
    let count = random.pick(&[5, 12, 30, MAX_NODES as u64]);
    let most = random.pick(&[4, 400, u64::from(MAX_WEIGHT)]);
    let mut tree = Tree::new();
    while (tree.count() as u64) < count {
        let known = tree.count() as u64;
        let parent = match random.below(3) {
            0 => known - 1,
            1 => known.saturating_sub(random.between(2, 6)),
            _ => random.below(known),
        };
        let weight = random.spread(1, most);
        // One that would lie too deep is left out.
        let _ = tree.add(parent as u8, weight as u16, Rules::TRUE);
    }
    tree
}

/// On many trees, each with all leaves active, with each leaf alone and with
/// other sets: the tables compared, and those as the rule has them.
fn large_tables(rules: Rules, trees: u64) -> (u64, u64) {
    let mut random = Random::new(5);
    let (mut made, mut held) = (0, 0);
    for _ in 0..trees {
        let tree = &any_tree(&mut random);
        let leaves = tree.leaves();
        let last = 1 << (tree.count() - 1);
        let mut sets = vec![leaves, last, leaves & !last];
        sets.extend((0..4).map(|_| leaves & random.number()));
        sets.extend((0..3).map(|_| leaves & random.number() & random.number()));
        for active in sets {
            made += 1;
            held += u64::from(Rule { tree, active }.holds_for(rules));
        }
    }
    (made, held)
}

/// The pass gives what the rule gives.
pub fn passes(checks: &mut Checks) -> Result<(), Refusal> {
    let (made, held) = small_tables()?;
    checks.equal("shares on small trees", held, made);
    checks.equal("sets on small trees", made, SMALL_TABLES);
    let (made, held) = large_tables(Rules::TRUE, 600);
    checks.equal("shares on large trees", held, made);
    checks.equal("sets on large trees", made, 6_000);
    Ok(())
}

/// How many sets of active leaves all trees of one to six nodes have, by three
/// kinds of weights.
const SMALL_TABLES: u64 = 3 * 9_759;

/// Thin is what the rule says of the smallest leaf.
pub fn thin_trees(checks: &mut Checks) -> Result<(), Refusal> {
    let mut random = Random::new(6);
    let (mut thin, mut as_said) = (0, 0);
    for _ in 0..600 {
        let tree = any_tree(&mut random);
        let rule = Rule {
            tree: &tree,
            active: tree.leaves(),
        };
        let below = members(rule.active).any(|leaf| rule.share(leaf) < SHARE_FLOOR);
        thin += u64::from(below);
        let at_start = tree.check(Rules::TRUE) == Err(Refusal::Thin);
        let at_weight = tree.check_thin(Rules::TRUE) == Err(Refusal::Thin);
        as_said += u64::from(at_start == below && at_weight == below);
    }
    checks.equal("thin trees", as_said, 600);
    checks.equal("some are thin", (100..500).contains(&thin), true);
    Ok(())
}

/// The comparison can fail: it notices these changed rules.
pub fn noticed(checks: &mut Checks) -> Result<(), Refusal> {
    for mutant in [
        Mutant::ShareRoundedUp,
        Mutant::ShareOfWhole,
        Mutant::SumOfAllChildren,
        Mutant::ShareOfNodeBefore,
        Mutant::ShareOfGrandparent,
        Mutant::SumOfRoot,
        Mutant::SumOfGrandparent,
        Mutant::SumOfNodeBefore,
        Mutant::SumUpToNode,
        Mutant::WeightSummedBefore,
        Mutant::LastNodeNotSummed,
        Mutant::LastNodeMarksNothing,
        Mutant::Node63NotSummed,
        Mutant::MarkedOneStep,
        Mutant::InactiveInnerCounts,
        Mutant::InactiveLeafCounts,
    ] {
        let (made, held) = large_tables(Rules::with(mutant), 60);
        checks.equal(mutant.name(), held < made, true);
    }
    Ok(())
}

/// Whether the leaves hold what the rule gives them. While a donation stands,
/// only their sum does.
fn holds(controller: &Controller) -> bool {
    let rule = Rule {
        tree: &controller.tree,
        active: controller.active,
    };
    let leaves = || members(controller.active);
    let held = |leaf: usize| controller.leaves[leaf].share;
    if controller.donors == 0 {
        leaves().all(|leaf| held(leaf) == rule.share(leaf))
    } else {
        leaves().map(held).sum::<u64>() == leaves().map(|leaf| rule.share(leaf)).sum()
    }
}

/// Of a trace: how often shares were worked out anew by an activation, the end
/// of a donation, a plan and a weight, and whether all held behind each.
fn calls(trace: &[u8], rules: Rules) -> ([u64; 4], bool) {
    let mut reader = Reader::new(trace);
    let mut replay = Replay::new(rules);
    let (mut counts, mut all_hold) = ([0; 4], true);
    while let (false, Ok(Some(record))) = (replay.stopped(), reader.next()) {
        let before = replay.controller().map(|c| (c.active, c.donors));
        let outcome = replay.take(Ok(record));
        let (controller, (active, donors)) = match (replay.controller(), before) {
            (Some(controller), Some(before)) => (controller, before),
            _ => continue,
        };
        let call = match outcome {
            Outcome::Answered(..) if controller.active != active => 0,
            Outcome::Answered(..) if donors != 0 && controller.donors == 0 => 1,
            Outcome::Planned => 2,
            Outcome::Quiet if matches!(record, Record::Weight { .. }) => 3,
            _ => continue,
        };
        counts[call] += 1;
        all_hold = all_hold && holds(controller);
    }
    (counts, all_hold)
}

/// The traces on which the calls are tried: a style, and how many.
const TRACES: &[(Style, u64)] = &[(Style::Shares, 40), (Style::Deep, 2), (Style::Weights, 2)];

/// All of them together, under some rules.
fn calls_of_traces(rules: Rules) -> io::Result<([u64; 4], bool)> {
    let (mut counts, mut all_hold) = ([0; 4], true);
    for &(style, traces) in TRACES {
        for seed in 0..traces {
            let mut trace = Vec::new();
            generate(seed, 200, style, &mut trace)?;
            let (of_trace, hold) = calls(&trace, rules);
            for (count, more) in counts.iter_mut().zip(of_trace) {
                *count += more;
            }
            all_hold = all_hold && hold;
        }
    }
    Ok((counts, all_hold))
}

/// Behind each of the four calls the leaves hold what the rule gives, and under
/// these changed rules they do not.
pub fn generated(checks: &mut Checks) -> io::Result<()> {
    let (counts, all_hold) = calls_of_traces(Rules::TRUE)?;
    checks.equal("shares behind each call", all_hold, true);
    let many = counts.iter().all(|&count| count >= 80);
    checks.equal("calls that work shares out", many, true);
    for mutant in [
        Mutant::ActivationByOldSums,
        Mutant::ActivationOfBranch,
        Mutant::EndOfBranch,
        Mutant::EndCountsRetired,
        Mutant::PlanCountsRetired,
        Mutant::InactiveCountsInPool,
        Mutant::InnerCountsInPool,
        Mutant::WeightByOldSums,
        Mutant::WeightOfBranch,
        Mutant::ParentsByLastPass,
        Mutant::RoundedAtLeafAlone,
        Mutant::LastShareKept,
        Mutant::InnerStaysActive,
    ] {
        let (_, hold) = calls_of_traces(Rules::with(mutant))?;
        checks.equal(mutant.name(), hold, false);
    }
    Ok(())
}
