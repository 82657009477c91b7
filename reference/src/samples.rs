//! The plans that the specification names, and a few of our own that tell readings apart.

use crate::gen::{Draft, Record};

/// A plan of records (popularity, least copies, spread).
pub fn plan_of(shape: (u8, u8), capacity: u16, budget: u32, records: &[(u32, u8, u8)]) -> Draft {
    let record = |r: &(u32, u8, u8)| Record {
        popularity: r.0,
        least: r.1,
        spread: r.2,
        pair: 0,
    };
    Draft {
        version: 1,
        racks: shape.0,
        per_rack: shape.1,
        feed_byte: shape.0,
        capacity,
        budget,
        records: records.iter().map(record).collect(),
    }
}

/// Plan H, byte for byte.
pub const H: [u8; 30] = [
    0x42, 0x50, 0x4C, 0x00, 0x01, 0x02, 0x02, 0x00, 0x03, 0x00, 0x00, 0x00, 0x08, 0x00, 0x03, 0x00,
    0x00, 0x0C, 0x02, 0x02, 0x00, 0x00, 0x06, 0x01, 0x01, 0x00, 0x00, 0x02, 0x01, 0x01,
];

/// What the program prints for plan H.
pub const H_LISTING: &str = "plan 2 2 3\n\
    block 0 4 7560 0 1 2 3\n\
    block 1 2 7560 0 2\n\
    block 2 1 5040 1\n\
    rest 0 15120 7560 50400 7560\n";

/// Plan H as fields, to be varied.
pub fn h() -> Draft {
    plan_of((2, 2), 3, 8, &[(12, 2, 2), (6, 1, 1), (2, 1, 1)])
}

/// Plan H with another budget.
pub fn h_budget(budget: u32) -> Draft {
    h().with_budget(budget)
}

/// The example of row 11, with a capacity to choose.
pub fn row_eleven(capacity: u16) -> Draft {
    plan_of((1, 1), capacity, 2, &[(1, 1, 1), (1, 1, 1)])
}

/// Plan Y.
pub fn y() -> Draft {
    plan_of((1, 2), 2, 3, &[(4, 1, 1), (1, 1, 1), (2, 1, 1)])
}

/// Plan Z, whose placement handed in is `Z_WORDS`.
pub fn z() -> Draft {
    plan_of((1, 2), 2, 4, &[(5, 1, 1), (4, 1, 1), (1, 1, 1), (2, 1, 1)])
}

pub const Z_WORDS: [u64; 4] = [1, 1, 2, 2];

/// No block at all.
pub fn empty() -> Draft {
    plan_of((3, 2), 1, 0, &[])
}

/// One machine.
pub fn one_machine() -> Draft {
    plan_of((1, 1), 3, 9, &[(5, 1, 1), (0, 1, 1), (7, 1, 1)])
}

/// The order n before i: from words 1, 1, 2 the next step is Move of block 1 to machine 1,
/// while i before n would give Move of block 0 to machine 2.
pub fn order_of_move() -> Draft {
    plan_of((1, 3), 3, 3, &[(10, 1, 1), (1, 1, 1), (5, 1, 1)])
}

pub const ORDER_WORDS: [u64; 3] = [1, 1, 2];

/// The kind comes before m: from these words the next step is Move of block 3 from machine 2 to 3,
/// though RackMove of block 0 from machine 0 is allowed too.
pub fn order_of_kind() -> Draft {
    let popularities = [5, 4, 9, 2, 1];
    plan_of((2, 2), 9, 5, &popularities.map(|p| (p, 1, 1)))
}

pub const KIND_WORDS: [u64; 5] = [1, 1, 2, 4, 4];

/// Twelve equal blocks on three machines, six, six and none: ties do not stop the steps.
pub fn ties() -> Draft {
    plan_of((1, 3), 12, 12, &[(1, 1, 1); 12])
}

pub const TIES_WORDS: [u64; 12] = [1, 1, 1, 1, 1, 1, 2, 2, 2, 2, 2, 2];

/// An exchange that would break the spread of j: blocks of two copies in two racks.
pub fn spread_of_j() -> Draft {
    plan_of((2, 2), 4, 8, &[(40, 2, 1), (8, 2, 2), (6, 2, 2), (2, 2, 1)])
}

/// A long listing: eight copies of each of 1,024 blocks, with shares of ten digits.
pub fn long_listing() -> Draft {
    plan_of((8, 8), 128, 8192, &[(0xFF_FFFF, 8, 8); 1024])
}

/// With full machines the bound of three shares does not hold: a placement at rest that breaks it,
/// and the one with even loads.
pub fn full_machines() -> (Draft, Vec<u64>, Vec<u64>) {
    let mut records = Vec::new();
    let (mut rest, mut even) = (Vec::new(), Vec::new());
    for k in 0..18 {
        records.push((3, 3, 2));
        rest.push(0b11 | 1 << (3 + k / 6));
        even.push(1 << (k % 6) | 1 << ((k + 2) % 6) | 1 << ((k + 3) % 6));
    }
    for k in 0..36 {
        records.push((1, 2, 2));
        rest.push(0b100 | 1 << (3 + k / 12));
        even.push(1 << (k % 6) | 1 << ((k + 3) % 6));
    }
    for k in 0..18 {
        records.push((0, 5, 2));
        rest.push(0b111011);
        even.push(0b111111 & !(1 << (k % 6)));
    }
    (plan_of((2, 3), 36, 216, &records), rest, even)
}

/// A plan in version 2 of records (popularity, least copies, spread, pair byte).
pub fn paired_plan(
    shape: (u8, u8),
    capacity: u16,
    budget: u32,
    records: &[(u32, u8, u8, u8)],
) -> Draft {
    let unpaired: Vec<_> = records.iter().map(|r| (r.0, r.1, r.2)).collect();
    let mut draft = plan_of(shape, capacity, budget, &unpaired).unpaired();
    for (record, (_, _, _, pair)) in draft.records.iter_mut().zip(records) {
        record.pair = *pair;
    }
    draft
}

/// Plan K: a pair that fills the circle of positions, and two blocks more. Counts 2, 2, 1, 1; first words 5, 10, 1, 4.
pub fn k() -> Draft {
    let pair = [(12, 2, 2, 1), (12, 2, 2, 0)];
    paired_plan(
        (2, 2),
        3,
        8,
        &[&pair[..], &[(6, 1, 1, 0), (2, 1, 1, 0)]].concat(),
    )
}

/// Plan K, byte for byte.
pub const K: [u8; 39] = [
    0x42, 0x50, 0x4C, 0x00, 0x02, 0x02, 0x02, 0x00, 0x03, 0x00, 0x00, 0x00, 0x08, 0x00, 0x04, 0x00,
    0x00, 0x0C, 0x02, 0x02, 0x01, 0x00, 0x00, 0x0C, 0x02, 0x02, 0x00, 0x00, 0x00, 0x06, 0x01, 0x01,
    0x00, 0x00, 0x00, 0x02, 0x01, 0x01, 0x00,
];

/// What the program prints for plan K.
pub const K_LISTING: &str = "plan 2 2 4\n\
    block 0 2 15120 0 2\n\
    block 1 2 15120 1 3\n\
    block 2 1 15120 0\n\
    block 3 1 5040 2\n\
    rest 0 30240 15120 80640 15120\n";

/// A pair and two blocks more on two machines, in one rack or in two, with a capacity to choose.
fn pair_and(shape: (u8, u8), capacity: u16, popularities: [u32; 3]) -> Draft {
    let [pair, third, fourth] = popularities;
    let records = [(pair, 1, 1, 1), (pair, 1, 1, 0), (third, 1, 1, 0)];
    paired_plan(
        shape,
        capacity,
        4,
        &[&records[..], &[(fourth, 1, 1, 0)]].concat(),
    )
}

/// From words 1, 2, 1, 2 at rest: a move of block 0 to machine 1 would bring the pair together. Without the pair it is
/// the next step.
pub fn no_move_for_pair(shape: (u8, u8)) -> Draft {
    pair_and(shape, 3, [4, 9, 0])
}

/// From words 1, 2, 1, 2 at rest, all machines full: an exchange of block 0 with block 3 would bring the pair together
/// on machine 1, that of block 2 with block 1 on machine 0. Without the pair the first is the next step.
pub fn no_swap_for_pair(shape: (u8, u8)) -> Draft {
    pair_and(shape, 2, [5, 7, 1])
}

pub const PAIR_WORDS: [u64; 4] = [1, 2, 1, 2];

/// Plan H in version 3, byte for byte.
pub const H_3: [u8; 36] = [
    0x42, 0x50, 0x4C, 0x00, 0x03, 0x02, 0x02, 0x00, 0x03, 0x00, 0x00, 0x00, 0x08, 0x00, 0x03, 0x00,
    0x00, 0x00, 0x0C, 0x02, 0x02, 0x00, 0x00, 0x00, 0x00, 0x06, 0x01, 0x01, 0x00, 0x00, 0x00, 0x00,
    0x02, 0x01, 0x01, 0x00,
];

/// Plan K in version 3, byte for byte.
pub const K_3: [u8; 43] = [
    0x42, 0x50, 0x4C, 0x00, 0x03, 0x02, 0x02, 0x00, 0x03, 0x00, 0x00, 0x00, 0x08, 0x00, 0x04, 0x00,
    0x00, 0x00, 0x0C, 0x02, 0x02, 0x01, 0x00, 0x00, 0x00, 0x0C, 0x02, 0x02, 0x00, 0x00, 0x00, 0x00,
    0x06, 0x01, 0x01, 0x00, 0x00, 0x00, 0x00, 0x02, 0x01, 0x01, 0x00,
];

/// A plan in version 3 of records (popularity, least copies, spread, pair byte).
pub fn wide_plan(
    shape: (u8, u8),
    capacity: u16,
    budget: u32,
    records: &[(u32, u8, u8, u8)],
) -> Draft {
    paired_plan(shape, capacity, budget, records).wide()
}

/// A video hall: a recording read once more than 3 bytes can tell, one of 20,000,000 reads with its repeat run, and
/// three others. Counts 1, 2, 2, 2, 1, 1, and three steps to rest.
pub fn video() -> Draft {
    let pair = [(20_000_000, 1, 1, 1), (20_000_000, 1, 1, 0)];
    let others = [30_000_000, 90, 7_000_000].map(|p| (p, 1, 1, 0));
    let records = [&[(1 << 24, 1, 1, 0)], &pair[..], &others].concat();
    wide_plan((2, 2), 3, 9, &records)
}

/// The largest plan of version 3: ten copies of each of 1,024 blocks of the largest popularity.
pub fn largest_wide() -> Draft {
    plan_of((8, 8), 1024, 10_240, &[(u32::MAX, 10, 8); 1024]).wide()
}

/// The same with least copies and spread of one: the budget lets every block have ten copies.
pub fn largest_grown() -> Draft {
    plan_of((8, 8), 1024, 10_240, &[(u32::MAX, 1, 1); 1024]).wide()
}

/// A calibration run that is read everywhere: nine machines with a place each, and budget for all of them. It gets eight
/// copies, and in version 3 nine.
pub fn calibration() -> Draft {
    plan_of((3, 3), 1, 9, &[(7, 1, 1)])
}

/// A budget of more copies than there are places: four machines with a place each, and a budget of nine. It gets counts
/// 3, 1 in versions 1 to 3; version 4 refuses the budget, and gives the same with four.
pub fn over_places() -> Draft {
    plan_of((2, 2), 1, 9, &[(9, 1, 1), (2, 1, 1)])
}

/// Plan H in version 4, each of its two racks on a feed of its own, byte for byte.
pub const H_4: [u8; 37] = [
    0x42, 0x50, 0x4C, 0x00, 0x04, 0x02, 0x02, 0x02, 0x00, 0x03, 0x00, 0x00, 0x00, 0x08, 0x00, 0x03,
    0x00, 0x00, 0x00, 0x0C, 0x02, 0x02, 0x00, 0x00, 0x00, 0x00, 0x06, 0x01, 0x01, 0x00, 0x00, 0x00,
    0x00, 0x02, 0x01, 0x01, 0x00,
];

/// Plan K in version 4, each of its two racks on a feed of its own, byte for byte.
pub const K_4: [u8; 44] = [
    0x42, 0x50, 0x4C, 0x00, 0x04, 0x02, 0x02, 0x02, 0x00, 0x03, 0x00, 0x00, 0x00, 0x08, 0x00, 0x04,
    0x00, 0x00, 0x00, 0x0C, 0x02, 0x02, 0x01, 0x00, 0x00, 0x00, 0x0C, 0x02, 0x02, 0x00, 0x00, 0x00,
    0x00, 0x06, 0x01, 0x01, 0x00, 0x00, 0x00, 0x00, 0x02, 0x01, 0x01, 0x00,
];

/// Four racks of two machines on two feeds, racks 0 and 2 on the first: a recording with its repeat run and two others on
/// both feeds, and two of any spread. Counts 2, 2, 2, 3, 1, 3, and three steps to rest.
pub fn feeds() -> Draft {
    let pair = [(12, 2, 2, 1), (12, 2, 2, 0)];
    let others = [(12, 2, 2, 0), (19, 2, 2, 0), (3, 1, 1, 0), (25, 1, 1, 0)];
    wide_plan((4, 2), 3, 13, &[&pair[..], &others].concat()).fed(2)
}

/// Four racks of one machine on two feeds, racks 0 and 2 on the first; two blocks that have to lie on both. From words
/// 3 and 3 the next step is RackMove of block 0 from machine 0 to 2, from one rack to another of the same feed.
pub fn two_feeds() -> Draft {
    plan_of((4, 1), 9, 4, &[(4, 2, 2); 2]).fed(2)
}

pub const TWO_FEEDS_WORDS: [u64; 2] = [3, 3];

/// On the same racks and feeds, from `NO_MOVE_WORDS` at rest: a move of block 0 from machine 0 to 3 would leave it on one
/// feed, though in two racks. With a feed for each rack it is the next step.
pub fn no_move_for_feed() -> Draft {
    plan_of((4, 1), 9, 7, &[(4, 2, 2), (4, 2, 2), (4, 2, 2), (6, 1, 1)]).fed(2)
}

pub const NO_MOVE_WORDS: [u64; 4] = [3, 3, 9, 4];

/// The same with all machines full, from `NO_SWAP_WORDS` at rest: an exchange of block 0 with block 7 would leave it on
/// one feed. With a feed for each rack it is the next step.
pub fn no_swap_for_feed() -> Draft {
    let mut draft = no_move_for_feed();
    let idle = plan_of((4, 1), 3, 12, &[(0, 1, 1); 5]);
    draft.records.extend(idle.records);
    (draft.capacity, draft.budget) = (idle.capacity, idle.budget);
    draft
}

pub const NO_SWAP_WORDS: [u64; 9] = [3, 3, 9, 4, 2, 4, 4, 8, 8];

/// The largest plan of version 4: ten copies of each of 1,024 blocks of the largest popularity, on eight feeds.
pub fn largest_fed() -> Draft {
    plan_of((16, 4), 1024, 10_240, &[(u32::MAX, 10, 8); 1024]).fed(8)
}
