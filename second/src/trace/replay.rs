//! The replay: a trace's records handed to the controller one by one.

use std::io::{self, Read, Write};

use crate::engine::controller::{Answer, Controller, MAX_WAITING};
use crate::engine::cost::Model;
use crate::engine::numbers::members;
use crate::engine::refusal::{Fault, Refusal};
use crate::engine::rules::{Mutant, Rules};
use crate::engine::tree::Tree;
use crate::trace::record::{Record, START};
use crate::trace::stream::Stream;

/// What the records so far have built. A replay has one phase at a time and
/// keeps it in place, so the size of the larger one costs nothing.
#[allow(clippy::large_enum_variant)]
#[derive(Clone, Debug, PartialEq, Eq)]
pub enum Phase {
    Setup { tree: Tree, model: Option<Model> },
    Running(Controller),
}

/// What one record led to.
#[derive(Clone, Copy, Debug, PartialEq, Eq)]
pub enum Outcome {
    /// Accepted, and nothing to print.
    Quiet,
    Answered(Answer, u32),
    /// So many ids are in the buffer of released bios.
    Released(usize),
    Planned,
    Refused(Refusal),
}

#[derive(Clone)]
pub struct Replay {
    pub phase: Phase,
    rules: Rules,
    released: [u32; MAX_WAITING],
    stopped: bool,
    aside: Aside,
}

/// What no replay keeps, but a mutant does.
#[derive(Clone, Default)]
struct Aside {
    /// The refusal of a bad node that start is still to give.
    late: Option<Refusal>,
    /// The node of the last weight.
    node: u8,
}

impl Replay {
    pub fn new(rules: Rules) -> Replay {
        Replay {
            phase: Phase::Setup {
                tree: Tree::new(),
                model: None,
            },
            rules,
            released: [0; MAX_WAITING],
            stopped: false,
            aside: Aside::default(),
        }
    }

    /// Whether a refusal ended the replay.
    pub fn stopped(&self) -> bool {
        self.stopped
    }

    /// The controller, once started.
    pub fn controller(&self) -> Option<&Controller> {
        match &self.phase {
            Phase::Setup { .. } => None,
            Phase::Running(controller) => Some(controller),
        }
    }

    /// Takes the next record, or the refusal the reader gave for it.
    pub fn take(&mut self, next: Result<Record, Refusal>) -> Outcome {
        let taken = next.and_then(|record| match self.phase {
            Phase::Setup { .. } => self.set_up(&record),
            Phase::Running(_) => self.run(&record),
        });
        match taken {
            Ok(outcome) => outcome,
            Err(refusal) => {
                let in_setup = self.controller().is_none();
                let goes_on = if refusal.ends_trace() {
                    !in_setup
                        && refusal == Refusal::WrongPhase
                        && self.rules.changed(Mutant::PhaseGoesOn)
                } else {
                    in_setup && self.rules.changed(Mutant::SetupGoesOn)
                };
                let stops = in_setup || refusal.ends_trace() || self.stops_by_mutant(refusal);
                self.stopped = stops && !goes_on;
                Outcome::Refused(refusal)
            }
        }
    }

    /// After start only 16 to 18 stop a replay, but under a mutant.
    fn stops_by_mutant(&self, refusal: Refusal) -> bool {
        let mutant = match refusal {
            Refusal::NoWeight => Mutant::NodeStops,
            Refusal::Tree(..) | Refusal::Thin => Mutant::TreeStops,
            _ => Mutant::RefusalStops,
        };
        self.rules.changed(mutant) || self.rules.changed(Mutant::RefusalStops)
    }

    /// A cut record is refused 17 whatever its phase, but under the mutant
    /// that first looks at the phase of its kind.
    fn phase_first(
        &self,
        next: Result<Record, Refusal>,
        kind: Option<u8>,
    ) -> Result<Record, Refusal> {
        let for_setup = kind.map_or(false, |kind| kind <= START);
        let out_of_phase = for_setup == self.controller().is_some();
        match next {
            Err(Refusal::CutRecord)
                if out_of_phase && self.rules.changed(Mutant::PhaseBeforeCut) =>
            {
                Err(Refusal::WrongPhase)
            }
            _ => next,
        }
    }

    fn set_up(&mut self, record: &Record) -> Result<Outcome, Refusal> {
        let (tree, model) = match &mut self.phase {
            Phase::Setup { tree, model } => (tree, model),
            Phase::Running(_) => return Err(Refusal::WrongPhase),
        };
        match (record, *model) {
            (Record::Node { parent, weight }, _) => {
                let added = tree.add(*parent, *weight, self.rules);
                self.aside.judge(added, tree, model.is_some(), self.rules)?;
                if self.rules.changed(Mutant::ThinAtNode) {
                    tree.check_thin(self.rules)?;
                }
            }
            (Record::Model(rates), None) => *model = Some(Model::new(rates, self.rules)?),
            (Record::Model(rates), Some(_)) if self.rules.changed(Mutant::SecondModel) => {
                *model = Some(Model::new(rates, self.rules)?)
            }
            (Record::Model(rates), Some(_)) if self.rules.changed(Mutant::RatesBeforePhase) => {
                Model::new(rates, self.rules)?;
                return Err(Refusal::WrongPhase);
            }
            (Record::Start { time }, Some(given)) => {
                self.aside.late.map_or(Ok(()), Err)?;
                let controller = Controller::start(tree.clone(), given, *time, self.rules)?;
                self.phase = Phase::Running(controller);
            }
            (Record::Start { .. }, None) if self.rules.changed(Mutant::TreeBeforePhase) => {
                tree.check(self.rules)?;
                return Err(Refusal::WrongPhase);
            }
            (Record::Weight { node, weight }, _) => {
                let node = usize::from(*node);
                let absent = !(1..tree.count()).contains(&node);
                if absent && self.rules.changed(Mutant::NodeBeforePhase) {
                    return Err(Refusal::NoWeight);
                }
                if absent || !self.rules.changed(Mutant::WeightInSetup) {
                    return Err(Refusal::WrongPhase);
                }
                *tree = tree.with_weight(node, *weight);
            }
            _ => return Err(Refusal::WrongPhase),
        }
        Ok(Outcome::Quiet)
    }

    fn run(&mut self, record: &Record) -> Result<Outcome, Refusal> {
        let controller = match &mut self.phase {
            Phase::Setup { .. } => return Err(Refusal::WrongPhase),
            Phase::Running(controller) => controller,
        };
        match record {
            Record::Bio(bio) => Ok(Outcome::Answered(controller.submit(bio)?, bio.id)),
            Record::Tick { time } => {
                let count = controller.tick(*time, &mut self.released)?;
                Ok(Outcome::Released(count))
            }
            Record::Plan => {
                controller.plan()?;
                Ok(Outcome::Planned)
            }
            Record::Vrate { vrate } => {
                controller.set_vrate(*vrate)?;
                Ok(Outcome::Quiet)
            }
            Record::Weight { node, weight } => {
                self.aside.node = *node;
                controller.set_weight(*node, *weight)?;
                Ok(if self.rules.changed(Mutant::WeightPrints) {
                    Outcome::Planned
                } else {
                    Outcome::Quiet
                })
            }
            Record::Start { time } if self.rules.changed(Mutant::SecondStart) => {
                let tree = controller.tree.clone();
                *controller = Controller::start(tree, controller.model, *time, self.rules)?;
                Ok(Outcome::Quiet)
            }
            Record::Node { parent, weight } if self.rules.changed(Mutant::FaultBeforePhase) => {
                controller.tree.clone().add(*parent, *weight, self.rules)?;
                Err(Refusal::WrongPhase)
            }
            Record::Node { .. } | Record::Model(_) | Record::Start { .. } => {
                Err(Refusal::WrongPhase)
            }
        }
    }

    /// How many lines the last outcome prints.
    pub fn line_count(&self, outcome: Outcome) -> u64 {
        match outcome {
            Outcome::Quiet => 0,
            Outcome::Answered(..) | Outcome::Refused(_) => 1,
            Outcome::Released(count) => count as u64,
            Outcome::Planned => self
                .controller()
                .map_or(0, |c| u64::from(c.active.count_ones())),
        }
    }

    /// Prints the lines of the last outcome.
    pub fn print(&self, outcome: Outcome, out: &mut impl Write) -> io::Result<()> {
        match outcome {
            Outcome::Quiet => Ok(()),
            Outcome::Answered(Answer::Issued, id) => print_line(out, b'I', &[u64::from(id)]),
            Outcome::Answered(Answer::Waits, id) => print_line(out, b'W', &[u64::from(id)]),
            Outcome::Answered(Answer::OnDebt, id) => print_line(out, b'D', &[u64::from(id)]),
            Outcome::Released(count) => {
                for id in &self.released[..count] {
                    print_line(out, b'r', &[u64::from(*id)])?;
                }
                Ok(())
            }
            Outcome::Planned => self.print_shares(out),
            Outcome::Refused(refusal) => self.print_refusal(refusal, out),
        }
    }

    /// The number of a refusal, and the node that is named with it.
    fn print_refusal(&self, refusal: Refusal, out: &mut impl Write) -> io::Result<()> {
        let number = u64::from(refusal.number());
        match self.node_named(refusal) {
            None => print_line(out, b'R', &[number]),
            Some(node) => {
                let mut numbers = [number, u64::from(node)];
                if self.rules.changed(Mutant::NodeFirst) {
                    numbers.reverse();
                }
                print_line(out, b'R', &numbers)
            }
        }
    }

    /// The node that a line names. A mutant leaves it out, or names one where
    /// none belongs.
    fn node_named(&self, refusal: Refusal) -> Option<u8> {
        let running = self.controller().is_some();
        let named_by = match refusal {
            Refusal::Thin => Mutant::NodeWithThin,
            Refusal::Rate => Mutant::NodeWithRate,
            Refusal::NoWeight => Mutant::NodeWithNoWeight,
            _ => Mutant::NodeWithOthers,
        };
        match refusal.node() {
            Some(_) if self.rules.changed(Mutant::NodeLeftOut) => None,
            Some(0) if self.rules.changed(Mutant::RootLeftOut) => None,
            Some(_) if running && self.rules.changed(Mutant::NewWeightNodeLeftOut) => None,
            None if self.rules.changed(named_by) => Some(self.aside.node),
            named => named,
        }
    }

    fn print_shares(&self, out: &mut impl Write) -> io::Result<()> {
        if let Some(controller) = self.controller() {
            let mut left = members(match self.rules.mutant() {
                Some(Mutant::LinesOfInactive) => controller.tree.leaves(),
                Some(Mutant::LinesOfInner) => controller.active | controller.active_inner(),
                _ => controller.active,
            });
            let falling = self.rules.changed(Mutant::FallingLines);
            while let Some(number) = if falling {
                left.next_back()
            } else {
                left.next()
            } {
                let share = controller.leaves[number].share;
                print_line(out, b'P', &[number as u64, share])?;
            }
        }
        Ok(())
    }
}

impl Aside {
    /// A bad node is refused at its record and by its own number, but under a
    /// mutant.
    fn judge(
        &mut self,
        added: Result<(), Refusal>,
        tree: &mut Tree,
        after_model: bool,
        rules: Rules,
    ) -> Result<(), Refusal> {
        let refusal = match added {
            Ok(()) => return Ok(()),
            Err(refusal) => refusal,
        };
        let first = rules.changed(Mutant::NodeFaultAtStart);
        if first || rules.changed(Mutant::LastBadNode) {
            if self.late.is_none() || !first {
                self.late = Some(refusal);
            }
            // With a node in its place the next ones keep their numbers.
            return tree.add(0, 1, rules).or(Ok(()));
        }
        match refusal {
            Refusal::Tree(fault, node)
                if after_model && fault != Fault::Count && rules.changed(Mutant::ModelCounted) =>
            {
                Err(Refusal::Tree(fault, node + 1))
            }
            _ => Err(refusal),
        }
    }
}

/// The longest line: a letter, two numbers with a space before each, and the
/// newline.
const LONGEST_LINE: usize = 1 + 2 * 21 + 1;

/// Prints a letter and one or two numbers. The line is made from its end, where
/// a number's last digit is; formatting by the library takes far longer.
fn print_line(out: &mut impl Write, letter: u8, numbers: &[u64]) -> io::Result<()> {
    let mut line = [b' '; LONGEST_LINE];
    let mut first = LONGEST_LINE - 1;
    line[first] = b'\n';
    for number in numbers.iter().rev() {
        let mut left = *number;
        loop {
            first -= 1;
            line[first] = b'0' + (left % 10) as u8;
            left /= 10;
            if left == 0 {
                break;
            }
        }
        // Here the space stands already.
        first -= 1;
    }
    first -= 1;
    line[first] = letter;
    out.write_all(&line[first..])
}

/// Replays a whole trace and prints what it leads to.
pub fn replay(input: impl Read, out: &mut impl Write, rules: Rules) -> io::Result<()> {
    let mut stream = Stream::new(input);
    let mut replay = Replay::new(rules);
    while !replay.stopped() {
        match stream.next()? {
            None => break,
            Some(next) => {
                let outcome = replay.take(replay.phase_first(next, stream.next_kind()));
                replay.print(outcome, out)?;
            }
        }
    }
    out.flush()
}
