//! The plans that are timed, always the same from the same seed.

use placement_reference::gen::{Draft, Record, Rng};

/// How large a plan is, and of what kind.
#[derive(Clone, Copy)]
pub struct Size {
    pub racks: u8,
    pub per_rack: u8,
    pub blocks: u16,
    /// Spreads from one to the block's least copies; else all spreads are one.
    pub mixed: bool,
    /// Which blocks are paired.
    pub pairs: Pairs,
    /// The plan is in version 3.
    pub wide: bool,
    /// The plan is in version 4, its racks on so many feeds.
    pub feeds: Option<u8>,
    /// Twice as many copies, in the budget and on the machines: many blocks have as many as their version allows.
    pub doubled: bool,
}

/// The pairs of a plan. The last two are the same plan in version 2, of which the first half of the blocks are alike by
/// twos: with all pair bytes 0, or with these twos as pairs.
#[derive(Clone, Copy, PartialEq, Eq)]
pub enum Pairs {
    Version1,
    None,
    Half,
}

/// The seed of the plans that are timed one by one.
const SEED: u64 = 7;

/// 64 machines and 1,024 blocks.
pub const LARGEST: Size = Size {
    racks: 8,
    per_rack: 8,
    blocks: 1024,
    mixed: false,
    pairs: Pairs::Version1,
    wide: false,
    feeds: None,
    doubled: false,
};

impl Size {
    pub fn machines(&self) -> usize {
        usize::from(self.racks) * usize::from(self.per_rack)
    }

    /// What the tables call the spreads.
    pub fn spreads(&self) -> &'static str {
        if self.mixed {
            "mixed"
        } else {
            "one"
        }
    }

    /// The version of its plans.
    pub fn version(&self) -> u16 {
        match (self.feeds, self.wide, self.pairs) {
            (Some(_), _, _) => 4,
            (_, true, _) => 3,
            (_, _, Pairs::Version1) => 1,
            _ => 2,
        }
    }

    /// The most copies of a block that the version allows.
    pub fn most_copies(&self) -> u8 {
        if self.version() >= 3 {
            10
        } else {
            8
        }
    }

    /// What the tables call the pairs.
    pub fn pairing(&self) -> &'static str {
        match self.pairs {
            Pairs::Half => "half of the blocks",
            _ => "none",
        }
    }

    /// The plan with the pairs of this size.
    fn paired(&self, draft: Draft) -> Draft {
        let half = draft.coupled(draft.records.len() / 2);
        match self.pairs {
            Pairs::Version1 => draft,
            Pairs::None => half.unpaired(),
            Pairs::Half => half,
        }
    }

    /// A record with least copies from 1 to 3.
    fn record(&self, rng: &mut Rng, popularity: u32) -> Record {
        let least = rng.from_to(1, 3) as u8;
        let most = if self.mixed { least.min(self.racks) } else { 1 };
        Record {
            popularity,
            least,
            spread: rng.from_to(1, u64::from(most)) as u8,
            pair: 0,
        }
    }

    /// A plan with a budget of 4,000 copies for 1,024 blocks, and machines that can hold 5,120, or with twice as many; in
    /// proportion for fewer blocks. So the budget is within M × C, as version 4 asks.
    fn draft(&self, seed: u64, popularity: impl Fn(&mut Rng) -> u32) -> Draft {
        let mut rng = Rng::new(seed);
        let blocks = u32::from(self.blocks);
        let times = if self.doubled { 2 } else { 1 };
        let records = (0..blocks).map(|_| {
            let popularity = popularity(&mut rng);
            self.record(&mut rng, popularity)
        });
        Draft {
            version: 1,
            racks: self.racks,
            per_rack: self.per_rack,
            feed_byte: self.feeds.unwrap_or(self.racks),
            capacity: (5 * times * blocks).div_ceil(self.machines() as u32) as u16,
            records: records.collect(),
            budget: times * blocks * 4000 / 1024,
        }
    }

    /// Such a plan with the pairs of this size, in its version.
    fn plan(&self, seed: u64, popularity: impl Fn(&mut Rng) -> u32) -> Vec<u8> {
        let mut draft = self.paired(self.draft(seed, popularity));
        draft.version = self.version();
        assert!(draft.plan().is_some(), "a plan that is timed is accepted");
        draft.bytes()
    }

    /// Popularities random in 24 bits: runs are long.
    pub fn fine(&self) -> Vec<u8> {
        self.plan(SEED, |rng| rng.below(1 << 24) as u32)
    }

    /// Popularities from 0 to 9: rest is reached.
    pub fn coarse(&self) -> Vec<u8> {
        self.plan(SEED, |rng| rng.below(10) as u32)
    }

    /// Several plans with popularities below a bound; above 24 bits from version 3 on.
    pub fn several(&self, number: u64, bound: u64) -> Vec<Vec<u8>> {
        (1..=number)
            .map(|seed| self.plan(seed, |rng| rng.below(bound) as u32))
            .collect()
    }
}
