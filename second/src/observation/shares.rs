//! Events of shares that are worked out anew: by which call, how deep, and what
//! became active or inactive with it.

use crate::engine::controller::Controller;
use crate::engine::numbers::{is_member, members};
use crate::engine::refusal::Refusal;
use crate::engine::rules::Rules;
use crate::engine::shares::SHARE_FLOOR;
use crate::engine::tree::{Tree, MAX_LEVEL, MAX_NODES};
use crate::observation::events::Event;
use crate::trace::record::Record;
use crate::trace::replay::{Outcome, Phase};

/// What is kept of a replay's shares.
pub struct PassEvents {
    /// Whether the last plan made a leaf inactive.
    retired: bool,
}

/// What is told of each event, with whether it holds.
type When<'a> = dyn FnMut(bool, Event) + 'a;

impl PassEvents {
    pub fn new() -> PassEvents {
        PassEvents { retired: false }
    }

    /// Tells `hit` each event of a record that has to do with shares.
    pub fn observe(
        &mut self,
        before: &Phase,
        record: &Record,
        outcome: Outcome,
        after: &Phase,
        hit: &mut dyn FnMut(Event),
    ) {
        let mut when = |holds: bool, event: Event| {
            if holds {
                hit(event);
            }
        };
        match (before, after) {
            (Phase::Setup { tree, .. }, _) => {
                if let Record::Start { .. } = record {
                    started(tree, outcome, &mut when);
                }
            }
            (Phase::Running(before), Phase::Running(after)) => {
                self.ran(before, record, outcome, after, &mut when);
            }
            (Phase::Running(_), Phase::Setup { .. }) => {}
        }
    }

    fn ran(
        &mut self,
        before: &Controller,
        record: &Record,
        outcome: Outcome,
        after: &Controller,
        when: &mut When,
    ) {
        match (record, outcome) {
            (Record::Bio(bio), Outcome::Answered(..)) => {
                let number = usize::from(bio.node);
                if !is_member(before.active, number) {
                    activated(before, number, after, when);
                } else if before.donors != 0 && after.donors == 0 {
                    let moved = held_moved(before, after);
                    when(on_level_8(&after.tree, moved), Event::Level8AtEnd);
                    when(self.retired, Event::EndBehindRetired);
                    let elsewhere = moved & !siblings(&after.tree, number) != 0;
                    when(elsewhere, Event::EndMovesElsewhere);
                }
            }
            (Record::Plan, Outcome::Planned) => {
                self.retired = before.active & !after.active != 0;
                planned(before, after, when);
            }
            (Record::Weight { node, .. }, Outcome::Quiet) => {
                weighed(before, usize::from(*node), after, when);
            }
            (Record::Weight { node, weight }, Outcome::Refused(Refusal::Thin)) => {
                let tree = before.tree.with_weight(usize::from(*node), *weight);
                when(is_thin_on_level_8(&tree), Event::WeightThinOnLevel8);
            }
            _ => {}
        }
    }
}

/// The leaves that stay active and of which a call moves the share held.
fn held_moved(before: &Controller, after: &Controller) -> u64 {
    members(before.active & after.active)
        .filter(|&leaf| before.leaves[leaf].share != after.leaves[leaf].share)
        .fold(0, |set, leaf| set | 1 << leaf)
}

/// The leaves that stay active and of which a call moves the base share.
fn base_moved(before: &Controller, after: &Controller) -> u64 {
    let base = |of: &Controller| of.tree.base_shares(of.active, Rules::TRUE);
    let (old, new) = (base(before), base(after));
    members(before.active & after.active)
        .filter(|&leaf| old[leaf] != new[leaf])
        .fold(0, |set, leaf| set | 1 << leaf)
}

fn on_level_8(tree: &Tree, leaves: u64) -> bool {
    members(leaves).any(|leaf| tree.level(leaf) == MAX_LEVEL)
}

/// The leaves below a node's parent.
fn siblings(tree: &Tree, node: usize) -> u64 {
    tree.leaves_of(tree.parent(node))
}

fn started(tree: &Tree, outcome: Outcome, when: &mut When) {
    match outcome {
        Outcome::Quiet => {
            let edge = highest_below(tree, SHARE_FLOOR + 1) == Some(MAX_LEVEL);
            when(edge, Event::Share1024OnLevel8);
        }
        Outcome::Refused(Refusal::Thin) => {
            when(is_thin_on_level_8(tree), Event::ThinOnLevel8);
        }
        _ => {}
    }
}

fn is_thin_on_level_8(tree: &Tree) -> bool {
    highest_below(tree, SHARE_FLOOR) == Some(MAX_LEVEL)
}

/// The level nearest to the root on which a leaf has less than this share with
/// all leaves active.
fn highest_below(tree: &Tree, share: u64) -> Option<u8> {
    let shares = tree.base_shares(tree.leaves(), Rules::TRUE);
    members(tree.leaves())
        .filter(|&leaf| shares[leaf] < share)
        .map(|leaf| tree.level(leaf))
        .min()
}

fn activated(before: &Controller, number: usize, after: &Controller, when: &mut When) {
    let tree = &after.tree;
    let moved = held_moved(before, after);
    when(on_level_8(tree, moved), Event::Level8AtActivation);
    when(on_level_8(tree, 1 << number), Event::Level8Activated);
    let elsewhere = moved & !siblings(tree, number) != 0;
    when(elsewhere, Event::ActivationMovesElsewhere);
    let woken = after.active_inner() & !before.active_inner();
    when(woken != 0, Event::InnerBecomesActive);
    let all_above = woken.count_ones() + 1 == u32::from(MAX_LEVEL);
    when(all_above, Event::AllAboveBecomeActive);
    let branch = tree.leaves_of(tree.branch_of(number));
    let alone = before.active & branch == 0 && before.active != 0;
    let last = tree.is_last(number) && tree.level(number) > 1;
    when(last && alone, Event::LastNodeAlone);
}

fn planned(before: &Controller, after: &Controller, when: &mut When) {
    let tree = &after.tree;
    let moved = base_moved(before, after);
    when(on_level_8(tree, moved), Event::Level8AtPlan);
    let (was, inner) = (before.active_inner(), after.active_inner());
    when(was & !inner != 0, Event::InnerGoesInactive);
    let begins = after.donors != 0 && before.active & !after.active != 0;
    when(begins, Event::DonationBesideRetired);
    when(is_member(after.active, MAX_NODES - 1), Event::Node63Planned);
    let nodes = after.active | inner;
    let strangers = members(after.active).any(|leaf| {
        let (parent, other) = (tree.parent(leaf), leaf - 1);
        is_member(nodes, other) && parent != other && parent != tree.parent(other)
    });
    when(strangers, Event::ParentNotBefore);
    for node in members(inner | 1) {
        one_kind(tree, node, nodes, when);
    }
}

/// Events of a node with leaves and inner nodes below it, of which only the
/// ones or the others are active.
fn one_kind(tree: &Tree, node: usize, active: u64, when: &mut When) {
    // By whether they are inner nodes and whether they are active.
    let mut seen = [[false; 2]; 2];
    for child in (1..tree.count()).filter(|&child| tree.parent(child) == node) {
        let (inner, awake) = (tree.is_inner(child), is_member(active, child));
        seen[usize::from(inner)][usize::from(awake)] = true;
    }
    let (all_sleep, all_wake) = ([true, false], [false, true]);
    when(seen == [all_sleep, all_wake], Event::OnlyInnerActive);
    when(seen == [all_wake, all_sleep], Event::OnlyLeavesActive);
}

fn weighed(before: &Controller, node: usize, after: &Controller, when: &mut When) {
    let tree = &after.tree;
    let deep = on_level_8(tree, base_moved(before, after));
    let high_up = tree.is_inner(node) && tree.level(node) <= 2;
    when(deep && high_up, Event::Level8AtHighWeight);
    let there = tree.level(node) == MAX_LEVEL;
    when(deep && there, Event::Level8AtDeepWeight);
    let elsewhere = held_moved(before, after) & !siblings(tree, node) != 0;
    when(elsewhere, Event::WeightMovesElsewhere);
}
