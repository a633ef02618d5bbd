//! The kinds of number document 01 keeps apart, and its two roundings.

use std::ops::{AddAssign, SubAssign};

/// The share of the root.
pub const WHOLE: u64 = 1 << 30;

/// Absolute cost, debt and usage: nanoseconds of device occupancy.
#[derive(Clone, Copy, Debug, Default, PartialEq, Eq, PartialOrd, Ord)]
pub struct Absolute(pub u64);

/// Relative cost and budget: nanoseconds of virtual time.
#[derive(Clone, Copy, Debug, Default, PartialEq, Eq, PartialOrd, Ord)]
pub struct Relative(pub u64);

impl AddAssign for Absolute {
    fn add_assign(&mut self, other: Absolute) {
        self.0 += other.0;
    }
}

impl SubAssign for Absolute {
    fn sub_assign(&mut self, other: Absolute) {
        self.0 -= other.0;
    }
}

/// FLOOR(a x b / c). Where the product passes 64 bits it is taken in 128, so
/// it never overflows; every quotient the rules ask for fits 64 bits.
pub fn floor(a: u64, b: u64, c: u64) -> u64 {
    match a.checked_mul(b) {
        Some(product) => product / c,
        None => (u128::from(a) * u128::from(b) / u128::from(c)) as u64,
    }
}

/// CEIL(a x b / c), on the same terms as `floor`.
pub fn ceil(a: u64, b: u64, c: u64) -> u64 {
    match a.checked_mul(b) {
        Some(product) => product / c + u64::from(product % c != 0),
        None => ((u128::from(a) * u128::from(b) + u128::from(c) - 1) / u128::from(c)) as u64,
    }
}

/// Whether `number` is in the set kept as bits of one number.
pub fn is_member(set: u64, number: usize) -> bool {
    set >> number & 1 == 1
}

/// The members of such a set by rising number.
pub fn members(set: u64) -> Members {
    Members { left: set }
}

pub struct Members {
    left: u64,
}

impl Iterator for Members {
    type Item = usize;

    fn next(&mut self) -> Option<usize> {
        if self.left == 0 {
            return None;
        }
        let lowest = self.left.trailing_zeros() as usize;
        self.left &= self.left - 1;
        Some(lowest)
    }
}

impl DoubleEndedIterator for Members {
    fn next_back(&mut self) -> Option<usize> {
        if self.left == 0 {
            return None;
        }
        let highest = 63 - self.left.leading_zeros() as usize;
        self.left &= !(1 << highest);
        Some(highest)
    }
}
