//! The mutants of the comparison of two traces: one rule of it changed.

use crate::engine::clock::MAX_VRATE;
use crate::engine::refusal::Refusal;
use crate::trace::record::{record_length, START, VRATE, WEIGHT};

named_list! {
    /// One rule changed, each consulted where that rule applies.
    Change {
        // Errors
        SecondErrorFirst = "two traces: the second's error told first",
        EarlierErrorFirst = "two traces: the error at the smaller place told first",
        SecondErrorIgnored = "two traces: errors of the second not counted",
        ErrorBehindEndIgnored = "two traces: an error behind the other's end not counted",
        ErrorBehindDifferenceIgnored = "two traces: an error behind a difference not counted",
        CutAtItsEnd = "two traces: 17 told at the place where the trace ends",
        UnknownBehindIt = "two traces: 16 told behind the unknown byte",
        ErrorAtLastWhole = "two traces: an error told at the record before it",
        ErrorAtNumber = "two traces: an error told with the record's number as its place",
        ErrorSideSwapped = "two traces: an error told of the other side",
        ErrorsSwapped = "two traces: 16 told as 17 and 17 as 16",
        CutAsUnknown = "two traces: a cut record told as 16",
        UnknownAsCut = "two traces: an unknown kind told as 17",
        PhaseCounts = "two traces: a record out of phase told as 18",
        RangeCounts = "two traces: a vrate out of range told as 15",
        Kind0Known = "two traces: kind 0 known, without a body",
        Kind9Known = "two traces: kind 9 known, without a body",
        Kind255Known = "two traces: kind 255 known, without a body",
        WeightUnknown = "two traces: kind 8 unknown",
        // Differences
        BehindEndDiffers = "two traces: a record that only one has counted as a difference",
        CountedFrom1 = "two traces: records numbered from 1",
        KindsOnly = "two traces: only kinds compared",
        LastByteIgnored = "two traces: the last byte of a record not compared",
        FirstByteIgnored = "two traces: the first byte of a body not compared",
        BodiesOnly = "two traces: kinds not compared where the lengths are the same",
        SidesSwapped = "two traces: the sides of a difference swapped",
        FirstTwice = "two traces: the first's record told on both sides",
        PlacesSwapped = "two traces: the places of a difference swapped",
        FirstPlaceTwice = "two traces: the first's place told for both",
        SecondPlaceTwice = "two traces: the second's place told for both",
        FirstOnly = "two traces: only the first difference told",
        AskedSkipped = "two traces: the record asked for passed over",
        AskedIgnored = "two traces: searched from record 0 whatever was asked",
        LastFound = "two traces: the last difference told in place of the first",
        // Ends
        EndsSwapped = "two traces: the longer one ends first",
        CountOfLonger = "two traces: the count of the longer one told",
        CountOneMore = "two traces: a count that is one more",
        EndsByBytes = "two traces: the one with fewer bytes ends first",
        CountOfNeither0 = "two traces: no count told where neither ends first",
        CountInBytes = "two traces: the end told in bytes",
        CountFromAsked = "two traces: the count begins at the number asked",
        // Likeness
        EqualFromAsked = "two traces: equal if nothing differs from the number asked on",
        PrefixFromAsked = "two traces: a prefix if nothing differs from the number asked on",
        EmptyNoPrefix = "two traces: the empty trace no prefix",
        PrefixDifferent = "two traces: a prefix told as different",
        PrefixEqual = "two traces: a prefix told as equal",
        EqualPrefix = "two traces: equal told as a prefix",
        SecondNoPrefix = "two traces: only the first can be a prefix",
        FirstNoPrefix = "two traces: only the second can be a prefix",
        SameLengthEqual = "two traces: equal if they have as many bytes",
        ShorterPrefix = "two traces: the one that ends first always a prefix",
        // The rest
        RestOfShorter = "two traces: the rest of the shorter one handed back",
        RestOfEqual = "two traces: equal ones hand back the whole first",
        RestOfDifferent = "two traces: different ones have a rest too",
        EmptyRestSecond = "two traces: the empty rest is the second's",
        RestNamedFirst = "two traces: the rest always named the first's",
        RestOneShort = "two traces: a rest without its first record",
        RestOneMore = "two traces: a rest with the last common record",
        RestInRecords = "two traces: a rest counted in records",
        RestFromAsked = "two traces: a rest that begins at the number asked",
    }
}

/// The changed rule, if one is.
pub type Lie = Option<Change>;

/// The two ways in which this program compares.
#[derive(Clone, Copy, Debug, PartialEq, Eq)]
pub enum Way {
    Pair,
    Lent,
}

impl Way {
    pub fn name(self) -> &'static str {
        match self {
            Way::Pair => "pair",
            Way::Lent => "lent",
        }
    }
}

impl Change {
    /// The ways whose answers it changes. Places are in `pair` alone, and a
    /// number asked is in `lent` alone; so is a rest record by record.
    pub fn ways(self) -> &'static [Way] {
        match self {
            Change::PlacesSwapped
            | Change::FirstPlaceTwice
            | Change::SecondPlaceTwice
            | Change::FirstOnly
            | Change::EmptyRestSecond
            | Change::RestNamedFirst => &[Way::Pair],
            Change::ErrorBehindDifferenceIgnored
            | Change::AskedSkipped
            | Change::AskedIgnored
            | Change::LastFound
            | Change::CountFromAsked
            | Change::EqualFromAsked
            | Change::PrefixFromAsked
            | Change::RestOneShort
            | Change::RestOneMore
            | Change::RestFromAsked => &[Way::Lent],
            _ => &[Way::Pair, Way::Lent],
        }
    }
}

/// The length of a record with this kind; refusal 16.
pub fn length_of(kind: u8, lie: Lie) -> Result<usize, Refusal> {
    match (kind, lie) {
        (0, Some(Change::Kind0Known))
        | (9, Some(Change::Kind9Known))
        | (255, Some(Change::Kind255Known)) => Ok(1),
        (WEIGHT, Some(Change::WeightUnknown)) => Err(Refusal::UnknownKind),
        _ => record_length(kind),
    }
}

/// What only a mutant finds wrong with a whole record: that it is out of
/// phase, or its number out of range.
pub fn strict(record: &[u8], started: bool, lie: Lie) -> Option<Refusal> {
    let for_setup = record[0] <= START;
    match lie {
        Some(Change::PhaseCounts) if for_setup == started => Some(Refusal::WrongPhase),
        Some(Change::RangeCounts) if record[0] == VRATE => {
            let vrate = u16::from_le_bytes([record[1], record[2]]);
            let in_range = (1..=MAX_VRATE).contains(&vrate);
            (!in_range).then_some(Refusal::VrateRange)
        }
        _ => None,
    }
}
