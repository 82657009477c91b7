//! Plans and placements made from a seed, always the same from the same seed.

use crate::placement::{feasible, first, holds};
use crate::plan::{most_copies, read, Plan};

/// A small generator of numbers (splitmix).
pub struct Rng(u64);

impl Rng {
    pub fn new(seed: u64) -> Rng {
        Rng(seed)
    }

    pub fn word(&mut self) -> u64 {
        self.0 = self.0.wrapping_add(0x9E37_79B9_7F4A_7C15);
        let mut z = self.0;
        z = (z ^ z >> 30).wrapping_mul(0xBF58_476D_1CE4_E5B9);
        z = (z ^ z >> 27).wrapping_mul(0x94D0_49BB_1331_11EB);
        z ^ z >> 31
    }

    /// A number below `limit`, which is not 0.
    pub fn below(&mut self, limit: u64) -> u64 {
        self.word() % limit
    }

    /// A number from `low` to `high`, both included.
    pub fn from_to(&mut self, low: u64, high: u64) -> u64 {
        low + self.below(high - low + 1)
    }

    /// True once in `times`.
    pub fn once_in(&mut self, times: u64) -> bool {
        self.below(times) == 0
    }

    /// One of the given things.
    pub fn one_of<T: Copy>(&mut self, things: &[T]) -> T {
        things[self.below(things.len() as u64) as usize]
    }
}

/// A record of a plan file before it is judged. The pair byte is written from version 2 on, the popularity in 3 bytes,
/// and from version 3 on in 4.
#[derive(Clone, Copy, Debug)]
pub struct Record {
    pub popularity: u32,
    pub least: u8,
    pub spread: u8,
    pub pair: u8,
}

/// The fields of a plan file before it is judged. The feed byte is written in version 4.
#[derive(Clone, Debug)]
pub struct Draft {
    pub version: u16,
    pub racks: u8,
    pub per_rack: u8,
    pub feed_byte: u8,
    pub capacity: u16,
    pub budget: u32,
    pub records: Vec<Record>,
}

impl Draft {
    /// M, in full width.
    pub fn machines(&self) -> u64 {
        u64::from(self.racks) * u64::from(self.per_rack)
    }

    /// M × C, in full width.
    pub fn places(&self) -> u64 {
        self.machines() * u64::from(self.capacity)
    }

    /// This budget as the version can have it: in version 4 at most M × C, before it any.
    pub fn usable(&self, budget: u64) -> u32 {
        let most = match self.version {
            4 => self.places(),
            _ => u32::MAX.into(),
        };
        budget.min(most) as u32
    }

    /// What a spread counts: feeds F, before version 4 racks R.
    pub fn feeds(&self) -> u8 {
        if self.version < 4 {
            self.racks
        } else {
            self.feed_byte
        }
    }

    /// The sum of least copies.
    pub fn least_sum(&self) -> u64 {
        self.records.iter().map(|r| u64::from(r.least)).sum()
    }

    /// The most copies of a block in this version.
    pub fn most_copies(&self) -> u8 {
        most_copies(self.version.into()) as u8
    }

    /// The upper count of block i: the smaller of the most copies and M, for a paired block of the most copies and half
    /// of M.
    pub fn upper(&self, i: usize) -> u8 {
        let paired = self.records[i.saturating_sub(1)..=i]
            .iter()
            .any(|r| r.pair == 1);
        let most = self.machines() / if paired { 2 } else { 1 };
        most.min(self.most_copies().into()) as u8
    }

    /// The plan file.
    pub fn bytes(&self) -> Vec<u8> {
        let mut bytes = vec![0x42, 0x50, 0x4C];
        bytes.extend(self.version.to_be_bytes());
        bytes.extend([self.racks, self.per_rack]);
        if self.version >= 4 {
            bytes.push(self.feed_byte);
        }
        bytes.extend(self.capacity.to_be_bytes());
        bytes.extend(self.budget.to_be_bytes());
        bytes.extend((self.records.len() as u16).to_be_bytes());
        for r in &self.records {
            let popularity = r.popularity.to_be_bytes();
            bytes.extend(&popularity[usize::from(self.version < 3)..]);
            bytes.extend([r.least, r.spread]);
            if self.version >= 2 {
                bytes.push(r.pair);
            }
        }
        bytes
    }

    /// The same plan in version 2, or in its own if that is later, with all pair bytes 0.
    pub fn unpaired(&self) -> Draft {
        let records = self.records.iter().map(|r| Record { pair: 0, ..*r });
        Draft {
            version: self.version.max(2),
            records: records.collect(),
            ..self.clone()
        }
    }

    /// The same plan in version 3.
    pub fn wide(&self) -> Draft {
        let draft = if self.version == 1 {
            self.unpaired()
        } else {
            self.clone()
        };
        Draft {
            version: 3,
            ..draft
        }
    }

    /// The same plan in version 4 with so many feeds, a budget above M × C lowered to it.
    pub fn fed(&self, feeds: u8) -> Draft {
        let mut draft = Draft {
            version: 4,
            feed_byte: feeds,
            ..self.wide()
        };
        draft.budget = draft.usable(draft.budget.into());
        draft
    }

    /// The same plan with this budget, which its version may refuse.
    pub fn with_budget(&self, budget: u32) -> Draft {
        Draft {
            budget,
            ..self.clone()
        }
    }

    /// The plan in version 2, or in its own if that is later, the first blocks up to `number` in pairs back to back: of
    /// every two the second is made like the first, with least copies of at most half of M.
    pub fn coupled(&self, number: usize) -> Draft {
        let half = (self.machines() / 2) as u8;
        let mut draft = self.unpaired();
        for two in draft.records[..number].chunks_exact_mut(2) {
            let least = two[0].least.min(half);
            two[1] = Record {
                least,
                spread: two[0].spread.min(least),
                ..two[0]
            };
            two[0] = Record { pair: 1, ..two[1] };
        }
        draft
    }

    /// The plan, if it is accepted.
    pub fn plan(&self) -> Option<Plan> {
        read(&self.bytes()).ok()
    }
}

/// How large a generated plan may be, how fine its popularities, and its version.
#[derive(Clone, Copy, Debug)]
pub struct Size {
    pub machines: u64,
    pub blocks: u64,
    pub coarse: bool,
    pub version: u16,
}

impl Size {
    /// The same in version 2, mostly with pairs.
    pub const fn paired(self) -> Size {
        Size { version: 2, ..self }
    }

    /// The same in version 3, mostly with pairs, and with popularities of 4 bytes.
    pub const fn wide(self) -> Size {
        Size { version: 3, ..self }
    }

    /// The same in version 4, with any number of feeds that divides the racks.
    pub const fn fed(self) -> Size {
        Size { version: 4, ..self }
    }
}

pub const TINY: Size = Size {
    machines: 6,
    blocks: 7,
    coarse: false,
    version: 1,
};
pub const SMALL: Size = Size {
    machines: 12,
    blocks: 20,
    coarse: false,
    version: 1,
};
pub const MEDIUM: Size = Size {
    machines: 64,
    blocks: 40,
    coarse: false,
    version: 1,
};
pub const LARGE: Size = Size {
    machines: 64,
    blocks: 1024,
    coarse: true,
    version: 1,
};

/// Racks and machines per rack, with at most `most` machines; in two thirds there are two of both at least.
fn shape(rng: &mut Rng, most: u64) -> (u8, u8) {
    let low = if most >= 4 && !rng.once_in(3) { 2 } else { 1 };
    let one = rng.from_to(low, most / low);
    let other = rng.from_to(low, most / one);
    if rng.once_in(2) {
        (one as u8, other as u8)
    } else {
        (other as u8, one as u8)
    }
}

/// The popularity of block `i` in one of several manners.
fn popularity(rng: &mut Rng, manner: u64, i: u64) -> u32 {
    let number = match manner {
        0 => rng.below(10),
        1 => 7,
        2 => 1000 / (i + 1),
        3 => rng.below(5) * rng.below(2),
        4 => rng.from_to(1, 100),
        5 => 1 << rng.below(24),
        6 => rng.below(1 << 24),
        7 => 0xFF_FFFF - rng.below(3),
        8 => (1 << 23) / (i + 1),
        9 => 0,
        10 => (1 << 24) - 2 + rng.below(4),
        11 => 0xFFFF_FFFF - rng.below(3),
        12 => 1 << rng.below(32),
        13 => rng.below(1 << 32),
        14 => (1 << 31) / (i + 1),
        _ => (1 << 31) - 1 + rng.below(3),
    };
    number as u32
}

/// A manner of popularities; the first five are coarse, those from 10 on are for 4 bytes.
fn manner(rng: &mut Rng, size: Size) -> u64 {
    if size.coarse {
        rng.below(5)
    } else if size.version >= 3 && !rng.once_in(3) {
        rng.from_to(10, 15)
    } else if rng.once_in(30) {
        9
    } else {
        rng.below(9)
    }
}

/// The numbers of feeds that so many racks can have, rising from one to a feed for each rack.
pub fn divisors(racks: u8) -> Vec<u8> {
    (1..=racks).filter(|f| racks.is_multiple_of(*f)).collect()
}

/// The feed byte of a plan: one that row 22 accepts. Before version 4 there is none, and nothing is drawn.
fn feed_byte(rng: &mut Rng, version: u16, racks: u8) -> u8 {
    if version < 4 {
        racks
    } else {
        rng.one_of(&divisors(racks))
    }
}

/// A spread that a block with these least copies may have.
fn spread(rng: &mut Rng, feeds: u8, least: u8, mixed: bool) -> u8 {
    if mixed {
        rng.from_to(1, u64::from(feeds.min(least))) as u8
    } else {
        1
    }
}

/// Where a plan has its pairs: nowhere, back to back, here and there, or at both ends.
#[derive(Clone, Copy)]
enum Pairing {
    Nowhere,
    Everywhere,
    Somewhere,
    Ends,
}

impl Pairing {
    /// A pairing for a plan of this version; with one machine there is none.
    fn of(rng: &mut Rng, version: u16, machines: u64) -> Pairing {
        use Pairing::*;
        if version == 1 || machines == 1 {
            return Nowhere;
        }
        rng.one_of(&[
            Nowhere, Everywhere, Everywhere, Somewhere, Somewhere, Somewhere, Ends,
        ])
    }

    /// The next two blocks are a pair, where so many blocks stand before them and `room` more may come.
    fn here(self, rng: &mut Rng, before: usize, room: u64) -> bool {
        let wanted = match self {
            Pairing::Nowhere => false,
            Pairing::Everywhere => true,
            Pairing::Somewhere => rng.once_in(2),
            Pairing::Ends => before == 0 || room == 2,
        };
        wanted && room >= 2
    }
}

/// Records until `left` copies are used up exactly, or until there are `number`.
fn records(rng: &mut Rng, draft: &Draft, size: Size, number: u64, mut left: u64) -> Vec<Record> {
    let manner = manner(rng, size);
    let mixed = rng.once_in(2);
    let machines = draft.machines();
    let most = rng.from_to(1, machines.min(draft.most_copies().into()));
    let pairing = Pairing::of(rng, size.version, machines);
    let mut records = Vec::new();
    while (records.len() as u64) < number && left > 0 {
        let before = records.len();
        let pair = pairing.here(rng, before, number - before as u64) && left >= 2;
        let (blocks, upper) = if pair {
            (2, machines / 2)
        } else {
            (1, machines)
        };
        let least = rng.from_to(1, most.min(upper).min(left / blocks)) as u8;
        left -= blocks * u64::from(least);
        let record = Record {
            popularity: popularity(rng, manner, before as u64),
            least,
            spread: spread(rng, draft.feeds(), least, mixed),
            pair: 0,
        };
        if pair {
            records.push(Record { pair: 1, ..record });
        }
        records.push(record);
    }
    records
}

/// A capacity with room for all least copies: tight, nearly tight, or roomy.
fn capacity(rng: &mut Rng, draft: &Draft) -> u16 {
    let tight = draft.least_sum().div_ceil(draft.machines()).max(1);
    let number = draft.records.len() as u64;
    let wish = match rng.below(6) {
        0 | 1 => tight,
        2 => tight + 1,
        3 => tight * 3 / 2 + 1,
        4 => number + 1,
        _ => 1024,
    };
    wish.max(tight).min(1024) as u16
}

/// A budget with room for all least copies that the version can have: at the edges and between.
fn budget(rng: &mut Rng, draft: &Draft) -> u32 {
    let (least, places) = (draft.least_sum(), draft.places());
    let number = draft.records.len() as u64;
    let wish = match rng.below(8) {
        0 => least,
        1 => least + 1,
        2 => places,
        3 => places + 1,
        4 => number * draft.machines().min(draft.most_copies().into()),
        5 => u64::from(u32::MAX),
        _ => least + rng.below(2 * number + 2),
    };
    draft.usable(wish.max(least))
}

/// A plan that the checks accept.
pub fn draft(rng: &mut Rng, size: Size) -> Draft {
    let (racks, per_rack) = shape(rng, size.machines);
    let number = rng.from_to(0, size.blocks);
    sized(rng, size, racks, per_rack, number)
}

/// An accepted plan with the given racks, machines per rack and number of blocks.
pub fn sized(rng: &mut Rng, size: Size, racks: u8, per_rack: u8, number: u64) -> Draft {
    let mut draft = Draft {
        version: size.version,
        racks,
        per_rack,
        feed_byte: feed_byte(rng, size.version, racks),
        capacity: 1,
        budget: 0,
        records: Vec::new(),
    };
    draft.records = records(rng, &draft, size, number, u64::MAX);
    draft.capacity = capacity(rng, &draft);
    draft.budget = budget(rng, &draft);
    draft
}

/// An accepted plan whose least copies fill every machine: their sum is M × C.
pub fn filled(rng: &mut Rng, size: Size) -> Draft {
    let (racks, per_rack) = shape(rng, size.machines);
    let machines = u64::from(racks) * u64::from(per_rack);
    let capacity = rng.from_to(1, (size.blocks / machines).max(1));
    let mut draft = Draft {
        version: size.version,
        racks,
        per_rack,
        feed_byte: feed_byte(rng, size.version, racks),
        capacity: capacity as u16,
        budget: 0,
        records: Vec::new(),
    };
    draft.records = records(rng, &draft, size, 1024, machines * capacity);
    draft.budget = draft.usable(draft.least_sum() + rng.one_of(&[0, 1, 1000]));
    draft
}

/// A large plan that comes to rest soon: three popularities, and the same count for every block.
pub fn coarse(rng: &mut Rng) -> Draft {
    let (racks, per_rack) = shape(rng, 64);
    let machines = u64::from(racks) * u64::from(per_rack);
    let least = rng.from_to(1, machines.min(4)) as u8;
    let record = |rng: &mut Rng| Record {
        popularity: rng.one_of(&[0, 6, 12]),
        least,
        spread: rng.from_to(1, u64::from(least.min(racks))) as u8,
        pair: 0,
    };
    let mut draft = Draft {
        version: 1,
        racks,
        per_rack,
        feed_byte: racks,
        capacity: 1,
        budget: 0,
        records: (0..rng.from_to(200, 1024)).map(|_| record(rng)).collect(),
    };
    draft.capacity = capacity(rng, &draft);
    draft.budget = draft.least_sum() as u32;
    draft
}

/// A plan that often takes tens of thousands of steps to rest: 16 full machines in one rack, four copies of
/// each of 76 blocks, popularities a little above powers of two.
pub fn patient(rng: &mut Rng) -> Draft {
    let record = |rng: &mut Rng| Record {
        popularity: (1 << rng.below(24)) + rng.below(100) as u32,
        least: 4,
        spread: 1,
        pair: 0,
    };
    Draft {
        version: 1,
        racks: 1,
        per_rack: 16,
        feed_byte: 1,
        capacity: 19,
        budget: 304,
        records: (0..76).map(|_| record(rng)).collect(),
    }
}

/// The largest plan, 1,024 blocks on 64 machines: mixed spreads, and three popularities, so that it comes to rest soon.
pub fn largest(rng: &mut Rng) -> Draft {
    let record = |rng: &mut Rng| {
        let least = rng.from_to(1, 3) as u8;
        Record {
            popularity: rng.one_of(&[0, 6, 12]),
            least,
            spread: rng.from_to(1, u64::from(least)) as u8,
            pair: 0,
        }
    };
    Draft {
        version: 1,
        racks: 8,
        per_rack: 8,
        feed_byte: 8,
        capacity: 80,
        budget: 4000,
        records: (0..1024).map(|_| record(rng)).collect(),
    }
}

/// An input of a wrong length, longer than the largest plan of version 1, mostly longer than any plan, with a header that
/// is refused or not.
pub fn too_long(rng: &mut Rng) -> Vec<u8> {
    let number = rng.one_of(&[0, 3, 1024]);
    let size = rng.one_of(&[SMALL, SMALL.paired(), SMALL.wide(), SMALL.fed()]);
    let mut bytes = sized(rng, size, 2, 2, number).bytes();
    if rng.once_in(3) {
        let at = rng.below(bytes.len().min(16) as u64) as usize;
        bytes[at] = rng.below(256) as u8;
    }
    let length = rng.one_of(&[5136, 6160, 7184, 7185, 7191, 20_000, 70_000]);
    let wrong = length + usize::from(length == bytes.len());
    bytes.resize(wrong, rng.below(2) as u8);
    bytes
}

/// Random bytes, some of them behind a true mark and the version.
pub fn noise(rng: &mut Rng, version: u8) -> Vec<u8> {
    let mut bytes: Vec<u8> = if rng.once_in(2) {
        vec![0x42, 0x50, 0x4C, 0, version]
    } else {
        Vec::new()
    };
    let length = rng.below(60);
    bytes.extend((0..length).map(|_| rng.below(256) as u8));
    bytes
}

/// The words with one copy of a block passed on, or two copies exchanged.
fn shuffled(rng: &mut Rng, plan: &Plan, words: &[u64]) -> Vec<u64> {
    let machines = plan.machines() as u64;
    let mut after = words.to_vec();
    let (m, n) = (rng.below(machines) as usize, rng.below(machines) as usize);
    let i = rng.below(words.len() as u64) as usize;
    let j = rng.below(words.len() as u64) as usize;
    if m != n && holds(words[i], m) && !holds(words[i], n) {
        after[i] = words[i] & !(1 << m) | 1 << n;
        if holds(words[j], n) && !holds(words[j], m) {
            after[j] = words[j] & !(1 << n) | 1 << m;
        }
    }
    after
}

/// A lawful placement with the chosen counts: the first one, shuffled.
pub fn placement(rng: &mut Rng, plan: &Plan) -> Vec<u64> {
    let mut words = first(plan);
    if words.is_empty() {
        return words;
    }
    for _ in 0..(words.len() * 20).min(1000) {
        let after = shuffled(rng, plan, &words);
        if after != words && feasible(plan, &after) {
            words = after;
        }
    }
    words
}

/// A lawful placement that leans to the low machines of each rack, so that steps are left.
pub fn leaning(rng: &mut Rng, plan: &Plan) -> Vec<u64> {
    let mut words = placement(rng, plan);
    for i in 0..words.len() {
        let to = rng.below(plan.machines().div_ceil(3) as u64) as usize;
        let from = (0..plan.machines()).rev().find(|m| holds(words[i], *m));
        let mut after = words.clone();
        if let Some(m) = from.filter(|_| !holds(words[i], to)) {
            after[i] = words[i] & !(1 << m) | 1 << to;
        }
        if after != words && feasible(plan, &after) {
            words = after;
        }
    }
    words
}
