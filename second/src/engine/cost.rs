//! Cost of a bio: the linear model made from six rates.

use crate::engine::numbers::Absolute;
use crate::engine::refusal::Refusal;
use crate::engine::rules::{Mutant, Rules};

const SECOND: u64 = 1_000_000_000;
pub(super) const PAGE: u64 = 4_096;
pub(super) const SECTOR: u64 = 512;
pub const MIN_BPS: u64 = 4_096;
pub const MAX_BPS: u64 = 1 << 40;
pub const MAX_IOPS: u64 = 1_000_000_000;
pub const MAX_BYTES: u32 = 1_048_576;
pub const MAX_SECTOR: u64 = 1 << 48;
pub const MAX_COST: Absolute = Absolute(1 << 31);
/// A bio this near to the end of the one before it is still sequential.
pub const NEAR_SECTORS: u64 = 32_768;

pub const WRITE: u8 = 1;
pub const FORCED: u8 = 2;

#[derive(Clone, Copy, Debug, PartialEq, Eq)]
pub struct Bio {
    pub node: u8,
    pub flags: u8,
    pub id: u32,
    pub sector: u64,
    pub bytes: u32,
}

impl Bio {
    pub fn is_write(&self) -> bool {
        self.flags & WRITE != 0
    }

    pub fn is_forced(&self) -> bool {
        self.flags & FORCED != 0
    }

    /// The first sector behind the bio. It saturates only for a sector that
    /// refusal 5 turns away.
    pub fn end(&self) -> u64 {
        self.sector.saturating_add(u64::from(self.bytes) / SECTOR)
    }

    /// Refusal 5.
    pub fn check(&self, rules: Rules) -> Result<(), Refusal> {
        let bytes = u64::from(self.bytes);
        let step = if rules.changed(Mutant::BytesOfPages) {
            PAGE
        } else {
            SECTOR
        };
        let most = if rules.changed(Mutant::BytesOneMore) {
            u64::from(MAX_BYTES) + SECTOR
        } else {
            u64::from(MAX_BYTES)
        };
        let bytes_good = (bytes >= SECTOR || rules.changed(Mutant::BytesZero))
            && (bytes < most || bytes == most && !rules.changed(Mutant::BytesOneLess))
            && bytes % step == 0;
        let flags_good = self.flags & !(WRITE | FORCED) == 0 || rules.changed(Mutant::FlagsIgnored);
        let sector_good =
            self.sector <= rules.limit(Mutant::SectorOneLess, Mutant::SectorOneMore, MAX_SECTOR);
        let good = if self.is_flush(rules) {
            self.is_flush_good(flags_good, sector_good, rules)
        } else {
            bytes_good && flags_good && sector_good
        };
        if good {
            Ok(())
        } else {
            Err(Refusal::BioRange)
        }
    }
}

/// Whether a bio at `sector` is sequential for a leaf whose last accepted bio,
/// flushes left out, ended at `end`.
pub fn is_sequential(end: Option<u64>, sector: u64, rules: Rules) -> bool {
    let near = rules.limit(Mutant::NearOneLess, Mutant::NearOneMore, NEAR_SECTORS);
    match end {
        None => rules.changed(Mutant::FirstSequential),
        Some(end) if sector >= end => sector - end <= near,
        Some(end) => end - sector <= near && !rules.changed(Mutant::SequentialAheadOnly),
    }
}

#[derive(Clone, Copy, Debug, PartialEq, Eq)]
pub struct Rates {
    pub rbps: u64,
    pub rseqiops: u64,
    pub rrandiops: u64,
    pub wbps: u64,
    pub wseqiops: u64,
    pub wrandiops: u64,
}

/// The costs of one direction, reading or writing.
#[derive(Clone, Copy, Debug, PartialEq, Eq)]
pub struct Side {
    pub page: u64,
    pub sequential_base: u64,
    pub random_base: u64,
}

impl Side {
    fn new(bps: u64, seqiops: u64, randiops: u64, rules: Rules) -> Result<Side, Refusal> {
        let least_bps = rules.limit(Mutant::LeastBpsOneLess, Mutant::LeastBpsOneMore, MIN_BPS);
        let most_bps = rules.limit(Mutant::MostBpsOneLess, Mutant::MostBpsOneMore, MAX_BPS);
        let bps_good = (least_bps..=most_bps).contains(&bps);
        let least_iops = 1 + u64::from(rules.changed(Mutant::LeastIopsOneMore));
        let most_iops = rules.limit(Mutant::MostIopsOneLess, Mutant::MostIopsOneMore, MAX_IOPS);
        let iops_good = |iops: u64| (least_iops..=most_iops).contains(&iops);
        if !(bps_good && iops_good(seqiops) && iops_good(randiops)) {
            return Err(Refusal::Rate);
        }
        let page = rules.ceil(Mutant::PageRoundedDown, SECOND, PAGE, bps);
        let base = |iops: u64| {
            let operation = rules.ceil(Mutant::BaseRoundedDown, SECOND, 1, iops);
            if rules.changed(Mutant::BaseKeepsPage) {
                operation
            } else {
                operation.saturating_sub(page)
            }
        };
        Ok(Side {
            page,
            sequential_base: base(seqiops),
            random_base: base(randiops),
        })
    }
}

#[derive(Clone, Copy, Debug, PartialEq, Eq)]
pub struct Model {
    pub read: Side,
    pub write: Side,
}

impl Model {
    /// Refusal 3 for a rate out of range.
    pub fn new(rates: &Rates, rules: Rules) -> Result<Model, Refusal> {
        Ok(Model {
            read: Side::new(rates.rbps, rates.rseqiops, rates.rrandiops, rules)?,
            write: Side::new(rates.wbps, rates.wseqiops, rates.wrandiops, rules)?,
        })
    }

    /// The cost by the formula alone; the limit is `MAX_COST`.
    pub fn cost(&self, write: bool, sequential: bool, bytes: u32, rules: Rules) -> Absolute {
        let side = if write && !rules.changed(Mutant::WriteAsRead) {
            &self.write
        } else {
            &self.read
        };
        let base = if sequential {
            side.sequential_base
        } else {
            side.random_base
        };
        let pages = rules.ceil(Mutant::PagesRoundedDown, u64::from(bytes), 1, PAGE);
        Absolute(base + side.page * pages)
    }
}
