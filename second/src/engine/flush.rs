//! Flushes: writes of 0 bytes. A flush costs a page and no base, and says
//! nothing of where its leaf is: the end stays, and so does the leaf's first
//! bio if it is still to come. In all else it is a bio like any other.

use crate::engine::controller::{Answer, Controller};
use crate::engine::cost::{Bio, MAX_SECTOR};
use crate::engine::leaf::Leaf;
use crate::engine::numbers::{is_member, Absolute};
use crate::engine::refusal::Refusal;
use crate::engine::rules::{Mutant, Rules};

impl Bio {
    /// A write of 0 bytes; mutants take more for one.
    pub fn is_flush(&self, rules: Rules) -> bool {
        match self.bytes {
            0 => self.is_write() || rules.changed(Mutant::ReadFlushes),
            512 => self.is_write() && rules.changed(Mutant::SmallWriteFlushes),
            _ => false,
        }
    }

    /// Whether a flush is in range: by its flags and its sector, as any bio,
    /// and not by its bytes.
    pub(super) fn is_flush_good(&self, flags: bool, sector: bool, rules: Rules) -> bool {
        match rules.mutant() {
            Some(Mutant::FlushRefused) => false,
            Some(Mutant::ForcedFlushRefused) if self.is_forced() => false,
            Some(Mutant::FlushFlagsIgnored) => sector,
            Some(Mutant::FlushSectorIgnored) => flags,
            Some(Mutant::FlushSectorOneLess) if self.sector == MAX_SECTOR => false,
            Some(Mutant::FlushSectorOf0) if self.sector != 0 => false,
            _ => flags && sector,
        }
    }
}

impl Controller {
    /// The cost of a flush: a written page, wherever it lies.
    pub(super) fn flush_cost(&self, number: usize, bio: &Bio) -> Absolute {
        let write = self.model.write;
        let mutant = match self.rules.mutant() {
            None => return Absolute(write.page),
            Some(mutant) => mutant,
        };
        let base = if self.is_sequential(number, bio) {
            write.sequential_base
        } else {
            write.random_base
        };
        let first = self.leaves[number].end.is_none();
        Absolute(match mutant {
            Mutant::FlushFree => 0,
            Mutant::FlushAsRead => self.model.read.page,
            Mutant::FlushBaseAlone => base,
            Mutant::FlushWithBase => base + write.page,
            Mutant::FlushWithSequentialBase => write.sequential_base + write.page,
            Mutant::FlushWithRandomBase => write.random_base + write.page,
            Mutant::FirstFlushRandom if first => write.random_base + write.page,
            _ => write.page,
        })
    }

    /// An accepted flush leaves the end as it is, or that there is none, but
    /// under a mutant.
    pub(super) fn note_flush(&mut self, number: usize, bio: &Bio, answer: Answer) {
        let first = self.leaves[number].end.is_none();
        let moves = match self.rules.mutant() {
            Some(Mutant::FlushMovesEnd) => true,
            Some(Mutant::IssuedFlushMovesEnd) => answer == Answer::Issued,
            Some(Mutant::WaitingFlushMovesEnd) => answer == Answer::Waits,
            Some(Mutant::OwedFlushMovesEnd) => answer == Answer::OnDebt,
            Some(Mutant::FlushIsFirst) => first,
            _ => false,
        };
        if moves {
            self.move_end(number, bio);
        }
        if first && self.rules.changed(Mutant::FlushBeginsAt0) {
            self.leaves[number].end = Some(0);
        }
        if self.rules.changed(Mutant::FlushTakesEnd) {
            self.leaves[number].end = None;
        }
        if self.rules.changed(Mutant::SequentialAfterFlush) {
            self.aside.flushed |= 1 << number;
        }
    }

    /// Whether a leaf's first bio follows a flush, for the mutant to which it
    /// is no first one.
    pub(super) fn is_second_to_flush(&self, number: usize) -> bool {
        self.rules.changed(Mutant::SequentialAfterFlush)
            && self.leaves[number].end.is_none()
            && is_member(self.aside.flushed, number)
    }

    /// The answer to a flush under a mutant; the rules know no difference.
    pub(super) fn answer_flush(
        &self,
        mutant: Mutant,
        leaf: &Leaf,
        bio: &Bio,
        cost: Absolute,
    ) -> Result<Answer, Refusal> {
        let forced = bio.is_forced();
        let waits = !leaf.queue.is_empty();
        let judged = if forced {
            self.judge_forced(leaf, cost)
        } else {
            self.judge_unforced(leaf, cost)
        };
        let fits = leaf.fits(cost, self.rules);
        match mutant {
            Mutant::FlushAlwaysIssued => Ok(Answer::Issued),
            Mutant::FlushNeverIssued if !forced && judged == Ok(Answer::Issued) => {
                Ok(Answer::Waits)
            }
            Mutant::FlushPassesWaiter if !forced && !leaf.owes() && fits => Ok(Answer::Issued),
            Mutant::FlushPassesDebt if leaf.owes() && !waits && fits => Ok(Answer::Issued),
            Mutant::ForcedFlushBehindWaiters if forced && waits => judged.map(|_| Answer::OnDebt),
            Mutant::FlushNotForced => self.judge_unforced(leaf, cost),
            Mutant::FlushForced => self.judge_forced(leaf, cost),
            Mutant::FlushFindsRoom if judged == Err(Refusal::QueueFull) => Ok(Answer::Waits),
            Mutant::FlushPassesDebtLimit if judged == Err(Refusal::DebtLimit) => Ok(Answer::OnDebt),
            _ => judged,
        }
    }
}
