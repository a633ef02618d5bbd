//! What moves are made of: leaves, bios and ticks chosen for an aim.

use crate::engine::clock::{HUNDREDTHS, MAX_ELAPSED, MAX_PERIOD};
use crate::engine::cost::{Bio, FORCED, MAX_BYTES, MAX_COST, MAX_SECTOR, NEAR_SECTORS, WRITE};
use crate::engine::leaf::{relative_cost, Leaf};
use crate::engine::numbers::{ceil, is_member, members, Relative};
use crate::engine::rules::Rules;
use crate::generator::state::Generator;
use crate::trace::record::Record;

impl Generator {
    /// A leaf out of a set, none if it is empty.
    pub fn pick_of(&mut self, set: u64) -> Option<usize> {
        let numbers: Vec<usize> = members(set).collect();
        if numbers.is_empty() {
            return None;
        }
        Some(self.random.pick(&numbers))
    }

    /// An active leaf in the wanted state.
    pub fn pick_active(&mut self, wanted: impl Fn(&Leaf) -> bool) -> Option<usize> {
        let controller = self.controller();
        let fitting = members(controller.active)
            .filter(|&number| wanted(&controller.leaves[number]))
            .fold(0, |set, number| set | 1 << number);
        self.pick_of(fitting)
    }

    pub fn pick_inactive(&mut self) -> Option<usize> {
        let controller = self.controller();
        let inactive = controller.tree.leaves() & !controller.active;
        self.pick_of(inactive)
    }

    /// A leaf that is still to have its first bio; flushes do not count.
    pub fn pick_fresh(&mut self) -> Option<usize> {
        let controller = self.controller();
        let fresh = members(controller.tree.leaves())
            .filter(|&number| controller.leaves[number].end.is_none())
            .fold(0, |set, number| set | 1 << number);
        self.pick_of(fresh)
    }

    pub fn any_leaf(&mut self) -> usize {
        let active = self.controller().active;
        let leaves = self.controller().tree.leaves();
        let preferred = if active != 0 && !self.random.once_in(4) {
            active
        } else {
            leaves
        };
        self.pick_of(preferred).unwrap_or(1)
    }

    pub fn leaf(&self, number: usize) -> &Leaf {
        &self.controller().leaves[number]
    }

    pub fn is_active(&self, number: usize) -> bool {
        is_member(self.controller().active, number)
    }

    /// An id; often one that waits already, sometimes the largest.
    fn any_id(&mut self) -> u32 {
        let waiting = self
            .pick_active(|leaf| !leaf.queue.is_empty())
            .and_then(|number| self.leaf(number).queue.oldest());
        match (self.random.below(8), waiting) {
            (0, _) => u32::MAX,
            (1, _) => 0,
            (2, Some(bio)) => bio.id,
            _ => self.random.number() as u32,
        }
    }

    pub fn any_bytes(&mut self) -> u32 {
        match self.random.below(8) {
            0 => 512,
            1 => MAX_BYTES,
            2 => 65_536,
            3 => 8_192,
            4 => self.random.between(1, 2_048) as u32 * 512,
            _ => 4_096,
        }
    }

    pub fn any_flags(&mut self) -> u8 {
        self.random
            .pick(&[0, 0, 0, WRITE, WRITE, FORCED, FORCED | WRITE])
    }

    /// A sector in or out of reach of the leaf's last bio.
    pub fn any_sector(&mut self, number: usize) -> u64 {
        let end = self.leaf(number).end.unwrap_or(0);
        match self.random.below(8) {
            0 => MAX_SECTOR,
            1 | 2 => self.random.below(MAX_SECTOR),
            3 => self.random.spread(0, MAX_SECTOR),
            4 => end.saturating_sub(self.random.below(2 * NEAR_SECTORS)),
            _ => end.min(MAX_SECTOR),
        }
    }

    /// A sector so far from the leaf's last bio that the next is random.
    pub fn far_sector(&mut self, number: usize) -> u64 {
        match self.leaf(number).end {
            Some(end) if end < MAX_SECTOR / 2 => MAX_SECTOR - self.random.below(1 << 20),
            _ => self.random.below(1 << 20),
        }
    }

    /// The bio of a leaf that costs least: a small one right at the end.
    pub fn cheap_bio(&mut self, number: usize, flags: u8) -> Bio {
        let sector = self.leaf(number).end.unwrap_or(0).min(MAX_SECTOR);
        self.bio(number, flags, sector, 512)
    }

    /// The dearest random bio that is not refused for its cost.
    pub fn dear_bio(&mut self, number: usize, flags: u8) -> Bio {
        let sector = self.far_sector(number);
        let mut bio = self.bio(number, flags, sector, MAX_BYTES);
        while self.controller().cost_of(number, &bio) > MAX_COST && bio.bytes > 4_096 {
            bio.bytes -= 4_096;
        }
        bio
    }

    pub fn bio(&mut self, number: usize, flags: u8, sector: u64, bytes: u32) -> Bio {
        Bio {
            node: number as u8,
            flags,
            id: self.any_id(),
            sector,
            bytes,
        }
    }

    pub fn any_bio(&mut self, number: usize) -> Bio {
        let flags = self.any_flags();
        let sector = self.any_sector(number);
        let bytes = self.any_bytes();
        self.bio(number, flags, sector, bytes)
    }

    pub fn submit(&mut self, bio: Bio) {
        self.put(Record::Bio(bio));
    }

    /// The relative cost of a bio to an active leaf.
    pub fn relative(&self, number: usize, bio: &Bio) -> Relative {
        let cost = self.controller().cost_of(number, bio);
        relative_cost(cost, self.leaf(number).share, Rules::TRUE)
    }

    /// A tick so many nanoseconds after the last.
    pub fn tick(&mut self, elapsed: u64) {
        let time = self.controller().time.saturating_add(elapsed);
        self.put(Record::Tick { time });
    }

    /// The shortest time in which virtual time grows by so much or more. The
    /// remainder held shortens it.
    pub fn elapsed_for(&self, growth: u64) -> u64 {
        let controller = self.controller();
        let missing = (HUNDREDTHS * growth).saturating_sub(controller.remainder);
        ceil(missing, 1, u64::from(controller.vrate))
    }

    /// Ticks that make virtual time grow by exactly `growth`, if the time up
    /// to the next plan has room for it.
    pub fn grow(&mut self, growth: u64) {
        if self.controller().period + growth > MAX_PERIOD {
            return;
        }
        let mut elapsed = self.elapsed_for(growth);
        let exact = self.controller().grown(elapsed).whole == growth;
        if !exact || elapsed > 10 * MAX_ELAPSED {
            self.put(Record::Vrate { vrate: 100 });
            elapsed = growth;
        }
        while elapsed > MAX_ELAPSED {
            self.tick(MAX_ELAPSED);
            elapsed -= MAX_ELAPSED;
        }
        self.tick(elapsed);
    }

    /// Grows until an active leaf's budget would be `wanted` less `short`.
    pub fn grow_budget(&mut self, number: usize, wanted: Relative, short: u64) {
        let missing = wanted.0.checked_sub(self.leaf(number).budget.0 + short);
        if let Some(growth) = missing {
            self.grow(growth);
        }
    }

    /// Makes room in the period, so that an aim does not need a plan midway.
    pub fn make_room(&mut self) {
        if self.controller().period > MAX_PERIOD / 2 {
            self.put(Record::Plan);
        }
    }

    /// An active leaf that owes nothing, with a bio that waits: a dear one, if
    /// there was none.
    pub fn stand_waiter(&mut self) -> Option<usize> {
        self.make_room();
        let number = self.pick_active(|leaf| !leaf.owes())?;
        if self.leaf(number).queue.is_empty() {
            let dear = self.dear_bio(number, WRITE);
            self.submit(dear);
        }
        Some(number)
    }

    /// Ticks until nothing waits at a leaf and it owes nothing, if soon.
    pub fn clear_leaf(&mut self, number: usize) {
        for _ in 0..12 {
            let leaf = self.leaf(number);
            let owed = match leaf.queue.oldest() {
                _ if leaf.owes() => relative_cost(leaf.debt, leaf.share, Rules::TRUE),
                Some(oldest) => relative_cost(oldest.cost, leaf.share, Rules::TRUE),
                None => return,
            };
            self.grow_budget(number, owed, 0);
        }
    }
}
