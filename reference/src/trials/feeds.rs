//! Trials of version 4: the header of 16 bytes with its number of feeds, row 22, and spreads over feeds.

use super::conversions::every_call;
use super::pairs::handed_in;
use super::reads::{random_histories, reads_with};
use super::*;
use crate::damage::{mispaired, with_block_flaw, with_sum_flaw, MISPAIRINGS};
use crate::placement::feeds_of;
use crate::steps::step_plain;

/// The rows for a plan of version 4 but 23, whose trials are those of budgets.
const ROWS: [u8; 13] = [1, 2, 3, 4, 22, 5, 6, 7, 8, 9, 17, 10, 11];

/// All trials of version 4 but for its budgets.
pub fn all(w: &mut Writer, rng: &mut Rng) {
    beside_version_3(w, rng);
    numbers_of_feeds(w);
    spreads(w);
    limits_of_copies(w);
    lengths(w);
    fifteen_bytes(w);
    fifteen_bytes_broken(w);
    fifteen_bytes_before(w);
    refused(w);
    orders_of_22(w);
    damaged(w, rng);
    mispaired_plans(w, rng);
    words_on_feeds(w);
    named_steps(w);
    forbidden_steps(w, rng);
    accepted(w, rng);
    broken_placements(w, rng);
    largest_plans(w, rng);
    conversions(w, rng);
    reads(w, rng);
}

/// A plan's judgement, counts and first placement, or why it is refused.
pub(super) fn judged(w: &mut Writer, draft: &Draft) {
    let number = draft.records.len();
    w.plan(&draft.bytes());
    w.lend(number);
    w.calls("pfkr");
    w.counts(number);
}

/// The judgement alone.
pub(super) fn verdict(w: &mut Writer, bytes: &[u8]) {
    w.plan(bytes);
    w.calls("p");
}

/// Plans of version 3, each before the same in version 4 with a feed for each rack: all calls answer alike but for a budget
/// above M × C, which is lowered in version 4.
fn beside_version_3(w: &mut Writer, rng: &mut Rng) {
    w.title("plans of version 3, each before itself with a feed for each rack");
    let mut drafts = vec![h(), h_budget(3), y(), z(), empty(), ties(), k(), video()];
    drafts.extend([spread_of_j(), order_of_kind(), calibration()]);
    for size in [TINY, SMALL, SMALL] {
        drafts.push(draft(rng, size.wide()));
    }
    for one in drafts {
        for draft in [one.wide(), one.fed(one.racks)] {
            every_call(w, &draft);
        }
    }
}

/// No feed, up to one more than the racks, multiples of them, and the largest byte: row 22 accepts the divisors alone.
fn numbers_of_feeds(w: &mut Writer) {
    w.title("numbers of feeds for 1, 2, 7, 12, 16, 60 and 64 racks");
    for (racks, per_rack) in [(1, 64), (2, 3), (7, 9), (12, 5), (16, 4), (60, 1), (64, 1)] {
        for feeds in (0..=racks + 1).chain([2 * racks, 3 * racks, 254, 255]) {
            verdict(w, &plan_of((racks, per_rack), 1, 0, &[]).fed(feeds).bytes());
        }
    }
}

/// Spreads up to F and one above, for each number of feeds that the racks can have. The spread refused may be at most R.
fn spreads(w: &mut Writer) {
    w.title("spreads at the number of feeds and one above");
    for (racks, per_rack) in [(12, 2), (16, 4), (60, 1), (64, 1)] {
        for feeds in divisors(racks) {
            for spread in [feeds.min(10), feeds + 1] {
                let records = [(5, 1, 1), (9, 10, spread.min(11)), (7, spread.min(10), 1)];
                judged(w, &plan_of((racks, per_rack), 2, 24, &records).fed(feeds));
            }
        }
    }
}

/// Least copies about the limits of row 8, of single blocks and of pairs, and counts that reach ten.
fn limits_of_copies(w: &mut Writer) {
    w.title("least copies 8 to 11 in version 4, and counts up to ten");
    for (shape, feeds) in [((2, 4), 1), ((9, 1), 3), ((4, 3), 2)] {
        for least in 8..=11 {
            judged(
                w,
                &plan_of(shape, 2, 99, &[(9, least, 1), (3, 1, 1)]).fed(feeds),
            );
        }
    }
    for (shape, feeds) in [((4, 4), 2), ((3, 6), 1), ((4, 5), 4), ((8, 8), 4)] {
        for least in 8..=11 {
            let records = [(9, least, 1, 1), (9, least, 1, 0), (3, 1, 1, 0)];
            judged(w, &paired_plan(shape, 2, 99, &records).fed(feeds));
        }
    }
    for budget in [8, 9, 10, 11, 12, 99] {
        let records = [(7, 1, 1), (0, 1, 1)];
        judged(w, &plan_of((4, 3), 2, budget, &records).fed(2));
    }
}

/// Every length up to that of H and one more; version 4 with the bytes of other versions; no block.
fn lengths(w: &mut Writer) {
    w.title("version 4 with every length up to that of plan H, and one more");
    w.words(&[15, 5, 2, 99]);
    for length in 0..=37 {
        verdict(w, &H_4[..length]);
    }
    refused_plan(w, &[&H_4[..], &[0]].concat());
    w.title("version 4 with the bytes of other versions, and these with its own");
    for draft in [h(), k(), empty(), row_eleven(2)] {
        for version in 1..=3 {
            let other = Draft {
                version,
                ..draft.clone()
            };
            verdict(w, &changed(&other.bytes(), 4, 4));
            let bytes = draft.fed(draft.racks).bytes();
            verdict(w, &changed(&bytes, 4, version as u8));
        }
    }
    w.title("no block: 16 bytes in version 4, 15 before it");
    for draft in [empty(), empty().unpaired(), empty().wide(), empty().fed(1)] {
        let bytes = draft.bytes();
        plan_calls(w, &draft);
        verdict(w, &[&bytes[..], &[0]].concat());
        verdict(w, &bytes[..bytes.len() - 1]);
    }
}

/// The first 15 bytes of H in version 4 with this last byte.
fn cut_with(last: u8) -> Vec<u8> {
    changed(&H_4[..15], 14, last)
}

/// Files of 15 bytes: in version 4 the last byte of the number of blocks is missing, so that 6 is passed and 7 given,
/// whatever the byte before it says.
fn fifteen_bytes(w: &mut Writer) {
    w.title("version 4 in 15 bytes with every last byte");
    for last in 0..=255 {
        verdict(w, &cut_with(last));
    }
    for last in [0, 3, 4, 255] {
        refused_plan(w, &cut_with(last));
        w.convert(99);
        w.read(0, 9);
        w.popularity(0);
    }
}

/// In 15 bytes 2 to 5 and 22 come before 7.
fn fifteen_bytes_broken(w: &mut Writer) {
    w.title("version 4 in 15 bytes with 2 to 5 and 22 broken");
    for last in [0, 4, 5, 255] {
        for (at, byte) in [
            (0, 0),
            (3, 4),
            (4, 5),
            (5, 0),
            (5, 33),
            (6, 0),
            (7, 0),
            (7, 3),
            (5, 3),
            (8, 4),
            (9, 0),
        ] {
            verdict(w, &changed(&cut_with(last), at, byte));
        }
        for (one, other) in [((5, 0), (7, 0)), ((7, 3), (9, 0)), ((6, 99), (8, 9))] {
            let bytes = changed(&cut_with(last), one.0, one.1);
            verdict(w, &changed(&bytes, other.0, other.1));
        }
    }
}

/// Before version 4 the number of blocks ends in the 15th byte.
fn fifteen_bytes_before(w: &mut Writer) {
    w.title("versions 1 to 3 in 15 bytes: 6, 7, or no block");
    for version in 1..=3 {
        for (high, low) in [(0, 0), (0, 1), (4, 0), (4, 1), (255, 0)] {
            let bytes = changed(&changed(&H[..15], 4, version), 13, high);
            verdict(w, &changed(&bytes, 14, low));
        }
    }
}

/// Bytes of H in version 4, each changed to one that a row refuses.
const H_CHANGES: [(usize, u8); 22] = [
    (0, 0),
    (4, 0),
    (4, 5),
    (3, 4),
    (5, 17),
    (6, 0),
    (7, 0),
    (7, 3),
    (7, 4),
    (7, 255),
    (7, 1),
    (9, 0),
    (8, 4),
    (14, 4),
    (14, 5),
    (15, 4),
    (27, 5),
    (27, 0),
    (21, 3),
    (21, 0),
    (28, 2),
    (13, 3),
];

/// Bytes of K in version 4, each changed to one that row 17 refuses.
const K_CHANGES: [(usize, u8); 7] = [
    (22, 2),
    (43, 1),
    (29, 1),
    (16, 1),
    (17, 1),
    (26, 11),
    (28, 1),
];

/// The examples of rows 1 to 11, 17 and 22 with version 4.
fn refused(w: &mut Writer) {
    w.title("the examples of rows 1 to 11, 17 and 22 with version 4");
    w.words(&[15, 5, 2, 99]);
    for (at, byte) in H_CHANGES {
        refused_plan(w, &changed(&H_4, at, byte));
    }
    refused_plan(w, &H_4[..36]);
    refused_plan(w, &row_eleven(1).fed(1).with_budget(2).bytes());
    for (at, byte) in K_CHANGES {
        refused_plan(w, &changed(&K_4, at, byte));
    }
}

/// Bytes of a plan of three blocks, the first two a pair, each changed to one that a row but 22 refuses.
const OTHER_CHANGES: [(usize, u8); 18] = [
    (0, 0),
    (3, 1),
    (4, 9),
    (5, 0),
    (5, 65),
    (6, 0),
    (6, 17),
    (8, 5),
    (9, 0),
    (14, 9),
    (15, 4),
    (20, 0),
    (20, 11),
    (21, 0),
    (21, 9),
    (22, 2),
    (36, 1),
    (13, 1),
];

/// Row 22 in each of its ways, with each other row broken as well: directly after 4, before 5.
fn orders_of_22(w: &mut Writer) {
    w.title("row 22 after 1 to 4, and before all others");
    w.words(&[5, 10, 1, 4, 99]);
    let good = paired_plan((4, 2), 3, 9, &[(9, 2, 2, 1), (9, 2, 2, 0), (5, 1, 1, 0)]).fed(2);
    for feeds in [0, 3, 5, 8] {
        let wrong = good.fed(feeds).bytes();
        refused_plan(w, &wrong);
        for (at, byte) in OTHER_CHANGES {
            w.plan(&changed(&wrong, at, byte));
            w.calls("ps");
        }
        let full = Draft {
            capacity: 1,
            records: vec![good.records[2]; 9],
            ..good.fed(feeds)
        };
        for bytes in [&wrong[..36], &wrong[..15], &wrong[..14], &full.bytes()] {
            w.plan(bytes);
            w.calls("ps");
        }
    }
}

/// A plan damaged at each row, and at each two rows, in the order of the checks.
fn damaged(w: &mut Writer, rng: &mut Rng) {
    w.title("generated plans of version 4, damaged at one row and at two");
    w.lend(40);
    let size = SMALL.fed();
    let good = sized(rng, size, 4, 3, 6).bytes();
    damaged_at(w, rng, &good, &ROWS);
    for _ in 0..4 {
        for draft in at_fault(rng, size, true) {
            judged(w, &draft);
        }
    }
    w.title("random bytes of version 4");
    random_bytes(w, rng, 4, 20);
}

/// Plans that row 17 refuses, in each of its ways: alone, with 8 or 9 before it, with 10 or 11 after it.
fn mispaired_plans(w: &mut Writer, rng: &mut Rng) {
    w.title("generated plans of version 4 that row 17 refuses");
    for how in MISPAIRINGS {
        let alone = std::iter::repeat_with(|| mispaired(rng, TINY.fed(), how));
        let alone = alone.flatten().next().expect("an endless search");
        judged(w, &alone);
        for row in [8, 9] {
            verdict(w, &with_block_flaw(rng, alone.clone(), row).bytes());
        }
        for row in [10, 11] {
            verdict(w, &with_sum_flaw(rng, alone.clone(), row).bytes());
        }
    }
}

/// All sets of so many of the machines.
fn sets_of(machines: usize, copies: u32) -> impl Iterator<Item = u64> {
    (0..1_u64 << machines).filter(move |word| word.count_ones() == copies)
}

/// Every set of machines for a block of two or three copies that has to lie on as many feeds: row 15 counts feeds, also
/// where the racks would suffice.
fn words_on_feeds(w: &mut Writer) {
    w.title("every word of a block that has to lie on 2 or 3 feeds");
    for (shape, feeds, copies) in [
        ((4, 1), 2, 2),
        ((4, 2), 2, 2),
        ((6, 1), 2, 2),
        ((6, 1), 3, 2),
        ((6, 1), 3, 3),
        ((6, 1), 6, 3),
        ((3, 2), 3, 3),
        ((8, 1), 4, 3),
    ] {
        let draft = plan_of(shape, 1, copies, &[(9, copies as u8, copies as u8)]).fed(feeds);
        w.plan(&draft.bytes());
        for word in sets_of(draft.machines() as usize, copies) {
            w.words(&[word]);
            w.calls("k");
        }
        w.calls("rs");
        w.run(3);
    }
}

/// Steps between racks of one feed, and steps that would leave a feed; beside them the same plan with a feed for each
/// rack, with one feed for all, and in version 3. With one feed row 9 refuses the plan unless its spreads are lowered.
fn named_steps(w: &mut Writer) {
    w.title("steps to a rack of the same feed, and steps that a feed forbids");
    for (draft, words) in [
        (two_feeds(), &TWO_FEEDS_WORDS[..]),
        (no_move_for_feed(), &NO_MOVE_WORDS),
        (no_swap_for_feed(), &NO_SWAP_WORDS),
    ] {
        for other in [draft.clone(), draft.fed(4), draft.fed(1), draft.wide()] {
            handed_in(w, &other, words);
            w.run(100_000);
            w.calls("r");
        }
        handed_in(w, &lowered(&draft, 1), words);
        w.run(100_000);
        w.plan(&draft.bytes());
        w.calls("krs");
    }
}

/// The plan with so many feeds, and spreads of at most as many.
fn lowered(draft: &Draft, feeds: u8) -> Draft {
    let mut draft = draft.fed(feeds);
    for record in &mut draft.records {
        record.spread = record.spread.min(feeds);
    }
    draft
}

/// A plan and words from which the next step is another one with a feed for each rack, and what the feeds forbid in that
/// one: a move of i, or in an exchange the way of i, or the way of j alone.
fn forbidden(rng: &mut Rng, size: Size) -> Option<(Draft, Vec<u64>, usize)> {
    let draft = draft(rng, size.fed());
    let plan = draft.plan()?;
    let by_rack = draft.fed(draft.racks).plan()?;
    let words = leaning(rng, &plan);
    let step = step_plain(&by_rack, &words)?;
    let after = step.taken(&words);
    let met = |i: usize| feeds_of(&plan, after[i]) >= plan.blocks[i].spread;
    match step.j {
        None if !met(step.i) => Some((draft, words, 0)),
        Some(_) if !met(step.i) => Some((draft, words, 1)),
        Some(j) if !met(j) => Some((draft, words, 2)),
        _ => None,
    }
}

/// Generated steps that only the feeds forbid, beside the same words with a feed for each rack. What a run makes of these
/// is then handed in.
fn forbidden_steps(w: &mut Writer, rng: &mut Rng) {
    w.title("generated steps that only the feeds forbid");
    let mut left = [6; 3];
    while left.iter().any(|number| *number > 0) {
        let size = rng.one_of(&[TINY, SMALL, SMALL]);
        let Some((draft, words, what)) = forbidden(rng, size) else {
            continue;
        };
        if left[what] == 0 || draft.records.len() > 14 {
            continue;
        }
        left[what] -= 1;
        w.plan(&draft.fed(draft.racks).bytes());
        w.words(&words);
        w.calls("s");
        w.run(u32::MAX);
        w.plan(&draft.bytes());
        w.calls("ks");
        w.words(&words);
        w.calls("kssss");
        w.run(u32::MAX);
        w.calls("r");
    }
}

/// A generated plan with fewer feeds than racks, and more than one.
fn between(rng: &mut Rng, size: Size) -> Draft {
    let mut drafts = std::iter::repeat_with(|| draft(rng, size.fed()));
    let is_between = |draft: &Draft| (2..draft.racks).contains(&draft.feed_byte);
    drafts.find(is_between).expect("an endless search")
}

/// Generated plans, from their judgement to rest, and single steps.
fn accepted(w: &mut Writer, rng: &mut Rng) {
    w.title("generated plans of version 4");
    for (size, number) in [(TINY, 6), (SMALL, 9), (MEDIUM, 2)] {
        for k in 0..number {
            let draft = match k % 3 {
                0 => draft(rng, size.fed()),
                1 => between(rng, size),
                _ => filled(rng, size.fed()),
            };
            let sets = [4, 1 << rng.below(4) | 16, rng.from_to(1, 31) as usize];
            visit(w, rng, &draft, &sets);
        }
    }
    w.title("single steps in version 4");
    for _ in 0..6 {
        let shape = rng.one_of(&[(4, 1), (4, 2), (4, 3), (6, 1), (6, 2), (8, 1), (9, 1)]);
        let number = rng.from_to(6, 16);
        let draft = sized(rng, SMALL.fed(), shape.0, shape.1, number);
        let before = rng.below(20) as u32;
        one_by_one(w, rng, &draft, before);
    }
}

/// Damaged placements: row 15 alone and with every set of the others.
fn broken_placements(w: &mut Writer, rng: &mut Rng) {
    w.title("generated placements of version 4 that break row 15, alone and with others");
    let sets: Vec<usize> = (1..32).filter(|set| set & 4 != 0).collect();
    for (racks, per_rack) in [(4, 2), (6, 2), (4, 4), (8, 1)] {
        let mut draft = sized(rng, SMALL.fed(), racks, per_rack, 6).fed(2);
        for record in &mut draft.records {
            record.spread = record.least.min(2);
        }
        let plan = draft.plan().expect("an accepted plan");
        w.plan(&draft.bytes());
        damaged_words(w, rng, &plan, &sets);
    }
}

/// The largest plan, in 7,184 bytes, with one byte less and one more; and one with spreads and pairs of all kinds, whose
/// first placement is not at rest.
fn largest_plans(w: &mut Writer, rng: &mut Rng) {
    w.title("1024 blocks on 64 machines in version 4, in 7184 bytes, one less and one more");
    let bytes = largest_fed().bytes();
    plan_calls(w, &largest_fed());
    w.calls("s");
    w.run(3);
    verdict(w, &bytes[..7183]);
    verdict(w, &[&bytes[..], &[0]].concat());
    let mixed = lowered(&sized(rng, LARGE.wide(), 16, 4, 1024), 4);
    plan_calls(w, &mixed);
    w.calls("ss");
    w.run(60);
    w.calls("r");
}

/// The converter refuses version 4 with 3, after 1 and 2 and before all other rows.
fn conversions(w: &mut Writer, rng: &mut Rng) {
    w.title("conversions of plans of version 4: refused 3");
    for draft in [h().fed(2), k().fed(1), empty().fed(3), two_feeds()] {
        w.plan(&draft.bytes());
        for number in [0, 36, 37, 99] {
            w.convert(number);
        }
    }
    for plan in [sized(rng, SMALL.fed(), 4, 2, 6), k().fed(2)] {
        for row in ROWS {
            w.plan(&flawed(rng, plan.bytes(), row));
            w.convert(0);
            w.convert(8000);
        }
    }
    for bytes in [&H[..], &K, &H_3] {
        w.plan(&changed(bytes, 4, 4));
        w.convert(99);
    }
}

/// Reads and popularities with plans of version 4, also with refused ones.
fn reads(w: &mut Writer, rng: &mut Rng) {
    w.title("reads with plans of version 4");
    let plans = [
        &H_4[..],
        &K_4,
        &changed(&H_4, 7, 3),
        &changed(&K_4, 7, 1),
        &changed(&K_4, 22, 2),
        &H_4[..15],
        &H_4[..36],
    ];
    reads_with(w, &plans);
    random_histories(w, rng, 4, &[4]);
}
