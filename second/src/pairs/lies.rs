//! What a mutant says in place of the truth: the answer of either way, turned
//! by the one rule that is changed. Without a lie all is handed on as it is.

use crate::pairs::answer::{Ends, Likeness, Side, Survey, TraceError};
use crate::pairs::changes::{Change, Lie};

/// The error that is told. The first difference between whole records is given
/// where it is known.
pub fn error(
    truth: Option<TraceError>,
    surveys: &[Survey; 2],
    difference: Option<u64>,
    lie: Lie,
) -> Option<TraceError> {
    let change = match lie {
        None => return truth,
        Some(change) => change,
    };
    let of = |side| TraceError::of(side, surveys);
    let chosen = match change {
        Change::SecondErrorFirst => of(Side::Second).or(truth),
        Change::EarlierErrorFirst => {
            let errors = Side::BOTH.iter().filter_map(|side| of(*side));
            errors.min_by_key(|error| error.place)
        }
        Change::SecondErrorIgnored => of(Side::First),
        Change::ErrorBehindEndIgnored => truth.filter(|error| !is_behind_end(error, surveys)),
        Change::ErrorBehindDifferenceIgnored => truth.filter(|_| difference.is_none()),
        _ => truth,
    };
    chosen.map(|error| told(error, surveys, change))
}

/// Whether the other trace, without an error of its own, ends before it.
fn is_behind_end(error: &TraceError, surveys: &[Survey; 2]) -> bool {
    let other = error.side.other().of(surveys);
    other.error.is_none() && other.records <= error.side.of(surveys).records
}

/// An error as a mutant tells it.
fn told(error: TraceError, surveys: &[Survey; 2], change: Change) -> TraceError {
    let survey = error.side.of(surveys);
    let TraceError {
        mut side,
        mut number,
        mut place,
    } = error;
    match (change, number) {
        (Change::CutAtItsEnd, 17) => place += survey.cut,
        (Change::UnknownBehindIt, 16) => place += 1,
        (Change::ErrorAtLastWhole, _) => place = survey.last,
        (Change::ErrorAtNumber, _) => place = survey.records,
        (Change::ErrorSideSwapped, _) => side = side.other(),
        (Change::ErrorsSwapped | Change::CutAsUnknown, 17) => number = 16,
        (Change::ErrorsSwapped | Change::UnknownAsCut, 16) => number = 17,
        _ => {}
    }
    TraceError {
        side,
        number,
        place,
    }
}

/// Whether two records differ. The truth compares all of their bytes.
pub fn differ(first: &[u8], second: &[u8], lie: Lie) -> bool {
    let kinds = first[0] != second[0];
    let same_length = first.len() == second.len();
    let last = first.len() - 1;
    match lie {
        Some(Change::KindsOnly) => kinds,
        Some(Change::BodiesOnly) => first.len() != second.len() || first[1..] != second[1..],
        Some(Change::LastByteIgnored) if same_length => first[..last] != second[..last],
        Some(Change::FirstByteIgnored) if same_length && last > 0 => {
            kinds || first[2..] != second[2..]
        }
        _ => first != second,
    }
}

/// The number under which a record is told.
pub fn number(truth: u64, lie: Lie) -> u64 {
    truth + u64::from(lie == Some(Change::CountedFrom1))
}

/// The two sides of a difference, in the order in which they are told.
pub fn sides<T: Copy>(truth: [T; 2], lie: Lie) -> [T; 2] {
    match lie {
        Some(Change::SidesSwapped) => [truth[1], truth[0]],
        Some(Change::FirstTwice) => [truth[0], truth[0]],
        _ => truth,
    }
}

/// The two places of a difference.
pub fn places(truth: [u64; 2], lie: Lie) -> [u64; 2] {
    match lie {
        Some(Change::PlacesSwapped) => [truth[1], truth[0]],
        Some(Change::FirstPlaceTwice) => [truth[0], truth[0]],
        Some(Change::SecondPlaceTwice) => [truth[1], truth[1]],
        _ => truth,
    }
}

/// The number from which a difference is searched.
pub fn asked(truth: u64, lie: Lie) -> u64 {
    match lie {
        Some(Change::AskedSkipped) => truth.saturating_add(1),
        Some(Change::AskedIgnored) => 0,
        _ => truth,
    }
}

pub fn ends(truth: Ends, surveys: &[Survey; 2], lie: Lie) -> Ends {
    let [one, other] = surveys;
    let Ends {
        mut first,
        mut after,
    } = truth;
    match lie {
        Some(Change::EndsSwapped) => first = first.map(Side::other),
        Some(Change::CountOfLonger) => after = one.records.max(other.records),
        Some(Change::CountOneMore) => after += 1,
        Some(Change::CountOfNeither0) if first.is_none() => after = 0,
        Some(Change::CountInBytes) => after = one.bytes.min(other.bytes),
        Some(Change::EndsByBytes) if one.bytes == other.bytes => first = None,
        Some(Change::EndsByBytes) if one.bytes < other.bytes => first = Some(Side::First),
        Some(Change::EndsByBytes) => first = Some(Side::Second),
        _ => {}
    }
    Ends { first, after }
}

pub fn likeness(truth: Likeness, ends: Ends, surveys: &[Survey; 2], lie: Lie) -> Likeness {
    let same_length = surveys[0].bytes == surveys[1].bytes;
    match (lie, truth) {
        (Some(Change::EmptyNoPrefix), Likeness::Prefix) if ends.after == 0 => Likeness::Different,
        (Some(Change::SecondNoPrefix), Likeness::Prefix) if ends.first == Some(Side::Second) => {
            Likeness::Different
        }
        (Some(Change::FirstNoPrefix), Likeness::Prefix) if ends.first == Some(Side::First) => {
            Likeness::Different
        }
        (Some(Change::PrefixDifferent), Likeness::Prefix) => Likeness::Different,
        (Some(Change::PrefixEqual), Likeness::Prefix) => Likeness::Equal,
        (Some(Change::EqualPrefix), Likeness::Equal) => Likeness::Prefix,
        (Some(Change::SameLengthEqual), Likeness::Different) if same_length => Likeness::Equal,
        (Some(Change::ShorterPrefix), Likeness::Different) if ends.first.is_some() => {
            Likeness::Prefix
        }
        _ => truth,
    }
}

/// Whether a rest is told of traces of this likeness.
pub fn has_rest(likeness: Likeness, lie: Lie) -> bool {
    match lie {
        Some(Change::RestOfShorter) => false,
        Some(Change::RestOfDifferent) => likeness != Likeness::Equal,
        _ => likeness == Likeness::Prefix,
    }
}
