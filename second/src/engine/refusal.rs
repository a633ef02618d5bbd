//! The numbered refusals of document 01, and of document 02 as far as it is
//! built.

/// What is wrong with a tree, by the numbers that request Two gives.
#[derive(Clone, Copy, Debug, PartialEq, Eq)]
pub enum Fault {
    /// Document 01's refusal 1, which is split. Only a mutant gives it.
    Unsplit = 1,
    Count = 20,
    Parent = 21,
    Weight = 22,
    Level = 23,
}

#[derive(Clone, Copy, Debug, PartialEq, Eq)]
pub enum Refusal {
    /// 20 to 23, and the number of the first bad node.
    Tree(Fault, u8),
    Thin,
    Rate,
    NoLeaf,
    BioRange,
    CostLimit,
    QueueFull,
    DebtLimit,
    TimeBack,
    TimeJump,
    VirtualTimeLimit,
    PeriodLimit,
    ReleaseBufferShort,
    PeriodEmpty,
    VrateRange,
    UnknownKind,
    CutRecord,
    WrongPhase,
    /// The root and absent nodes have no weight to set.
    NoWeight,
    RecordBufferShort,
}

/// The highest number of a refusal.
pub const LAST_NUMBER: u8 = 28;

impl Refusal {
    /// The wrong count of nodes is no node's fault, so it names the root.
    pub const COUNT: Refusal = Refusal::Tree(Fault::Count, 0);

    /// All numbers that are given, rising.
    pub fn numbers() -> impl Iterator<Item = u8> {
        (Refusal::Thin.number()..=Fault::Level as u8).chain([LAST_NUMBER])
    }

    /// The number the documents give it.
    pub fn number(self) -> u8 {
        match self {
            Refusal::Tree(fault, _) => fault as u8,
            Refusal::Thin => 2,
            Refusal::Rate => 3,
            Refusal::NoLeaf => 4,
            Refusal::BioRange => 5,
            Refusal::CostLimit => 6,
            Refusal::QueueFull => 7,
            Refusal::DebtLimit => 8,
            Refusal::TimeBack => 9,
            Refusal::TimeJump => 10,
            Refusal::VirtualTimeLimit => 11,
            Refusal::PeriodLimit => 12,
            Refusal::ReleaseBufferShort => 13,
            Refusal::PeriodEmpty => 14,
            Refusal::VrateRange => 15,
            Refusal::UnknownKind => 16,
            Refusal::CutRecord => 17,
            Refusal::WrongPhase => 18,
            Refusal::NoWeight => 19,
            Refusal::RecordBufferShort => LAST_NUMBER,
        }
    }

    /// The node that is named with the number: only 20 to 23 name one.
    pub fn node(self) -> Option<u8> {
        match self {
            Refusal::Tree(Fault::Unsplit, _) => None,
            Refusal::Tree(_, node) => Some(node),
            _ => None,
        }
    }

    /// 16 to 18 are faults of the trace itself; nothing behind one can be
    /// trusted, so a replay stops at them in either phase.
    pub fn ends_trace(self) -> bool {
        matches!(
            self,
            Refusal::UnknownKind | Refusal::CutRecord | Refusal::WrongPhase
        )
    }
}
