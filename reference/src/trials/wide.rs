//! Trials of version 3: popularities of 4 bytes, in every call, and the plan's rows.

use super::pairs::handed_in;
use super::reads::{random_histories, reads_with};
use super::*;
use crate::damage::{mispaired, with_block_flaw, with_sum_flaw, MISPAIRINGS, ROWS_BEFORE_FEEDS};

/// All trials of version 3.
pub fn all(w: &mut Writer, rng: &mut Rng) {
    named(w);
    edges_of_popularity(w);
    largest_plans(w, rng);
    lengths(w);
    refused(w);
    refused_pairs(w);
    damaged(w, rng);
    mispaired_plans(w, rng);
    accepted(w, rng);
    reads(w, rng);
}

/// The plans of the specification and those with pairs, in version 3: the answers are those of versions 1 and 2, since
/// they have at most 8 machines.
fn named(w: &mut Writer) {
    w.title("plans of the specification in version 3");
    for draft in [h(), h_budget(4), row_eleven(2), y(), z(), empty(), ties()] {
        to_rest(w, &draft.wide());
    }
    for draft in [k(), video(), spread_of_j()] {
        to_rest(w, &draft.wide());
    }
    w.title("placements handed in, in version 3");
    for (draft, words) in [
        (z(), &Z_WORDS[..]),
        (order_of_move(), &ORDER_WORDS),
        (order_of_kind(), &KIND_WORDS),
        (no_move_for_pair((1, 2)), &PAIR_WORDS),
        (no_swap_for_pair((2, 1)), &PAIR_WORDS),
        (k(), &[5, 5, 1, 4]),
        (k(), &[5, 9, 1, 4]),
        (h(), &[15, 5]),
        (h(), &[15, 5, 16]),
        (h(), &[15, 1, 2]),
        (h_budget(4), &[3, 4, 8]),
    ] {
        handed_in(w, &draft.wide(), words);
    }
}

/// Popularities at the edges of 3 and 4 bytes, and one with four different bytes.
const EDGES: [u32; 9] = [
    (1 << 24) - 1,
    1 << 24,
    (1 << 24) + 1,
    (1 << 31) - 1,
    1 << 31,
    (1 << 31) + 1,
    u32::MAX - 1,
    u32::MAX,
    0x0102_0304,
];

/// Popularities at the edges, as those of a pair and of single blocks, beside one less and beside small ones.
fn edges_of_popularity(w: &mut Writer) {
    w.title("popularities around 2 to the power 24, 31 and 32");
    for p in EDGES {
        let records = [(p, 2, 2, 1), (p, 2, 2, 0), (p, 1, 1, 0), (p - 1, 1, 1, 0)];
        w.plan(&wide_plan((2, 2), 3, 8, &records).bytes());
        w.lend(4);
        w.counts(4);
        w.calls("pfkrs");
        w.run(100_000);
        w.calls("r");
        let records = [p, p - 1, 1, p & 0xFF_FFFF].map(|p| (p, 1, 1, 0));
        for shape in [(1, 2), (2, 1)] {
            w.plan(&wide_plan(shape, 2, 4, &records).bytes());
            w.words(&Z_WORDS);
            w.calls("krs");
            w.run(u32::MAX);
            w.calls("r");
        }
    }
}

/// The largest plan, in 7,183 bytes, the largest loads, and least copies that differ.
fn largest_plans(w: &mut Writer, rng: &mut Rng) {
    w.title("1024 blocks of popularity 4294967295 in version 3");
    let mut uneven = largest_wide();
    let most = uneven.most_copies().into();
    uneven.budget = 6100;
    for record in &mut uneven.records {
        record.least = rng.from_to(1, most) as u8;
        record.spread = 1;
    }
    let mut single = largest_wide();
    (single.racks, single.per_rack, single.budget) = (1, 1, 1024);
    for record in &mut single.records {
        (record.least, record.spread) = (1, 1);
    }
    for draft in [largest_wide(), uneven, single] {
        plan_calls(w, &draft);
        w.run(20);
        w.calls("r");
    }
}

/// A plan that a length may refuse, and its judgement by some calls.
fn judged(w: &mut Writer, bytes: &[u8]) {
    w.plan(bytes);
    w.calls("pf");
    w.counts(9);
}

/// Every length up to that of H and one more, and each version with the lengths of the others.
fn lengths(w: &mut Writer) {
    w.title("version 3 with every length up to that of plan H, and one more");
    w.words(&[15, 5, 2, 99]);
    for length in 0..=36 {
        w.plan(&H_3[..length]);
        w.calls("p");
    }
    judged(w, &[&H_3[..], &[0]].concat());
    w.title("each version with the lengths of the others");
    for draft in [h(), k(), empty(), row_eleven(2)] {
        for (version, other) in [(3, 1), (3, 2), (1, 3), (2, 3)] {
            let bytes = Draft {
                version: other,
                ..draft.clone()
            };
            judged(w, &changed(&bytes.bytes(), 4, version));
        }
    }
    w.title("42 bytes of records: seven of version 2, six of version 3");
    let seven = paired_plan((2, 2), 9, 99, &[(257, 1, 1, 0); 7]).bytes();
    let six = wide_plan((2, 2), 9, 99, &[(257, 1, 1, 0); 6]).bytes();
    for bytes in [&seven, &six] {
        for (version, number) in [(2, 7), (3, 6), (2, 6), (3, 7)] {
            judged(w, &changed(&changed(bytes, 4, version), 14, number));
        }
    }
}

/// The examples of rows 1 to 11 with version 3.
fn refused(w: &mut Writer) {
    w.title("the examples of rows 1 to 11 with version 3");
    for (at, byte) in [
        (0, 0),
        (4, 0),
        (4, 5),
        (3, 3),
        (5, 17),
        (6, 0),
        (8, 0),
        (7, 4),
        (13, 5),
        (14, 4),
        (26, 5),
        (26, 0),
        (20, 3),
        (20, 0),
        (27, 2),
        (12, 3),
    ] {
        refused_plan(w, &changed(&H_3, at, byte));
    }
    refused_plan(w, &H_3[..35]);
    refused_plan(w, &row_eleven(1).wide().bytes());
    let records = vec![h().records[1]; 1025];
    let many = Draft { records, ..h() };
    judged(w, &many.wide().bytes());
}

/// Row 17 in each of its ways with version 3; a pair may differ in any byte of the popularity.
fn refused_pairs(w: &mut Writer) {
    w.title("the examples of row 17 with version 3");
    w.words(&[5, 10, 1, 4]);
    for (at, byte) in [
        (21, 2),
        (21, 255),
        (42, 1),
        (42, 2),
        (28, 1),
        (35, 1),
        (15, 1),
        (16, 1),
        (22, 1),
        (23, 1),
        (24, 1),
        (25, 11),
        (26, 1),
        (27, 1),
        (20, 1),
    ] {
        refused_plan(w, &changed(&K_3, at, byte));
    }
    for (least, pair) in [(3, 1), (3, 2), (2, 1), (0, 2)] {
        let records = [(1 << 24, least, 1, pair), (1 << 24, 1, 1, 0)];
        for budget in [9, 1] {
            judged(w, &wide_plan((2, 2), 3, budget, &records).bytes());
        }
    }
}

/// A plan damaged at each row, and at each two rows, in the order of the checks.
fn damaged(w: &mut Writer, rng: &mut Rng) {
    w.title("generated plans of version 3, damaged at one row and at two");
    w.lend(40);
    let size = SMALL.wide();
    let good = sized(rng, size, 3, 4, 9).bytes();
    damaged_at(w, rng, &good, &ROWS_BEFORE_FEEDS);
    for _ in 0..4 {
        for draft in at_fault(rng, size, true) {
            judged(w, &draft.bytes());
        }
    }
    w.title("random bytes of version 3");
    random_bytes(w, rng, 3, 20);
}

/// Plans that row 17 refuses, in each of its ways: alone, with 8 or 9 before it, with 10 or 11 after it.
fn mispaired_plans(w: &mut Writer, rng: &mut Rng) {
    w.title("generated plans of version 3 that row 17 refuses");
    for how in MISPAIRINGS {
        for size in [TINY.wide(), SMALL.wide()] {
            let alone = std::iter::repeat_with(|| mispaired(rng, size, how));
            let alone = alone.flatten().next().expect("an endless search");
            judged(w, &alone.bytes());
            for row in [8, 9] {
                w.plan(&with_block_flaw(rng, alone.clone(), row).bytes());
                w.calls("ps");
            }
            for row in [10, 11] {
                w.plan(&with_sum_flaw(rng, alone.clone(), row).bytes());
                w.calls("ps");
            }
        }
    }
}

/// Generated plans, from their judgement to rest, and single steps.
fn accepted(w: &mut Writer, rng: &mut Rng) {
    w.title("generated plans of version 3");
    for (size, number) in [(TINY, 8), (SMALL, 8), (MEDIUM, 2)] {
        for k in 0..number {
            let draft = if k % 4 == 3 {
                filled(rng, size.wide())
            } else {
                draft(rng, size.wide())
            };
            let sets = [16, 1 << rng.below(4) | 16, rng.from_to(1, 31) as usize];
            visit(w, rng, &draft, &sets);
        }
    }
    w.title("single steps in version 3");
    for _ in 0..6 {
        let shape = rng.one_of(&[(3, 1), (1, 5), (2, 2), (2, 3), (3, 3), (5, 2)]);
        let number = rng.from_to(6, 16);
        let draft = match rng.below(2) {
            0 => filled(rng, SMALL.wide()),
            _ => sized(rng, SMALL.wide(), shape.0, shape.1, number),
        };
        let before = rng.below(20) as u32;
        one_by_one(w, rng, &draft, before);
    }
}

/// Reads and popularities with plans of version 3, also with refused ones.
fn reads(w: &mut Writer, rng: &mut Rng) {
    w.title("reads with plans of version 3");
    let plans = [
        &H_3[..],
        &K_3,
        &changed(&K_3, 21, 2),
        &changed(&H_3, 4, 5),
        &H_3[..35],
    ];
    reads_with(w, &plans);
    random_histories(w, rng, 4, &[3]);
}
