//! Trials of version 2: pairs, and rows 17 and 18.

use super::*;
use crate::counts::chosen;
use crate::damage::{mispaired, with_block_flaw, with_sum_flaw, MISPAIRINGS, ROWS_BEFORE_FEEDS};
use crate::plan::most_copies;
use crate::steps::{step_plain, Step};

/// All trials of version 2.
pub fn all(w: &mut Writer, rng: &mut Rng) {
    beside_version_1(w, rng);
    named_pairs(w);
    limits_of_pairs(w);
    orders_of_8_and_17(w);
    refused_pairs(w);
    steps_for_pairs(w, rng);
    damaged(w, rng);
    mispaired_plans(w, rng);
    accepted(w, rng);
    broken_placements(w, rng);
    large(w, rng);
}

/// Plans of version 1 as they are, and in version 2 with all pair bytes 0: the answers are the same.
fn beside_version_1(w: &mut Writer, rng: &mut Rng) {
    w.title("version 2 with all pair bytes 0, beside the same plan in version 1");
    let mut drafts = vec![h(), h_budget(3), y(), z(), empty(), one_machine(), ties()];
    drafts.extend((0..8).map(|_| draft(rng, SMALL)));
    for one in drafts {
        for draft in [&one, &one.unpaired()] {
            w.lend(one.records.len());
            to_rest(w, draft);
        }
    }
}

/// Pairs that fill the circle of positions: least copies of half of M, and a block between and behind them.
fn circle(shape: (u8, u8)) -> Draft {
    let half = (shape.0 * shape.1 / 2).min(most_copies(2) as u8);
    let spread = half.min(shape.0);
    let pair = [(9, half, spread, 1), (9, half, spread, 0)];
    let records = [&pair[..], &[(5, 1, 1, 0)], &pair, &pair, &[(7, 1, 1, 0)]].concat();
    paired_plan(shape, 8, 200, &records)
}

/// Plan K, one pair alone, pairs at both ends, back to back, on few machines, and filling the circle.
fn named_pairs(w: &mut Writer) {
    w.title("plans with pairs");
    let pair = [(6, 1, 1, 1), (6, 1, 1, 0)];
    let between = [&pair[..], &[(9, 1, 1, 0), (1, 1, 1, 0)], &pair].concat();
    for draft in [
        k(),
        paired_plan((1, 2), 1, 2, &pair),
        paired_plan((3, 1), 9, 99, &between),
        paired_plan((2, 3), 9, 99, &between),
        paired_plan((1, 3), 4, 8, &pair.repeat(4)),
        paired_plan((2, 2), 2, 8, &pair.repeat(4)),
        paired_plan((5, 1), 2, 9, &pair.repeat(4)),
    ] {
        to_rest(w, &draft);
    }
    for shape in [
        (1, 2),
        (1, 3),
        (2, 2),
        (5, 1),
        (3, 3),
        (4, 4),
        (1, 17),
        (8, 8),
    ] {
        to_rest(w, &circle(shape));
    }
}

/// Least copies of a pair at half of M, rounded down and up, and at the most copies; budgets that let counts grow to the
/// limit.
fn limits_of_pairs(w: &mut Writer) {
    w.title("least copies of a pair at half of M and one above");
    let most = most_copies(2) as u8;
    for per_rack in [1, 2, 3, 4, 5, 7, 8, 14, 15, 16, 17, 64] {
        let half = per_rack / 2;
        for least in [half, half + 1, half + 2, most, most + 1] {
            let pair = [(9, least, 1, 1), (9, least, 1, 0), (3, 1, 1, 0)];
            let draft = paired_plan((1, per_rack), 9, 99, &pair);
            w.plan(&draft.bytes());
            w.lend(3);
            w.calls("pfr");
            w.counts(3);
        }
    }
}

/// Which blocks are paired for row 8, and rows 8, 9, 17 and 10 in their order: M 4, so that 3 copies are above half.
fn orders_of_8_and_17(w: &mut Writer) {
    w.title("row 8 for paired blocks, and row 17 between 9 and 10");
    w.words(&[5, 10, 1, 4, 99]);
    let plain = (5, 1, 1, 0);
    for records in [
        // The first of a pair, the second, both; the block behind a pair is not paired.
        [(5, 3, 1, 1), (5, 1, 1, 0), plain],
        [(5, 1, 1, 1), (5, 3, 1, 0), plain],
        [(5, 3, 1, 1), (5, 3, 1, 0), plain],
        [(5, 1, 1, 1), (5, 1, 1, 0), (5, 3, 1, 0)],
        // The last block with 1, within the limit of a pair and above it.
        [plain, plain, (5, 2, 1, 1)],
        [plain, plain, (5, 3, 1, 1)],
        // A byte above 1 pairs nothing: not its block, and not the next one.
        [(5, 3, 1, 2), plain, plain],
        [plain, (5, 1, 1, 255), (5, 3, 1, 0)],
        [(5, 1, 1, 2), (5, 5, 1, 0), plain],
        // Two successive 1s: the third block is paired as well.
        [(5, 1, 1, 1), (5, 1, 1, 1), plain],
        [(5, 1, 1, 1), (5, 1, 1, 1), (5, 3, 1, 0)],
        // Row 17 at block 0 and row 8 or 9 at the last.
        [(5, 1, 1, 7), plain, (5, 0, 1, 0)],
        [(5, 1, 1, 7), plain, (5, 1, 2, 0)],
    ] {
        for budget in [9, 2] {
            refused_plan(w, &paired_plan((2, 2), 3, budget, &records).bytes());
        }
    }
}

/// The examples of rows 3, 7 and 17 in version 2, and of row 18.
fn refused_pairs(w: &mut Writer) {
    w.title("the examples of rows 3, 7 and 17 with version 2");
    w.words(&[5, 10, 1, 4]);
    for (at, byte) in [
        (4, 0),
        (4, 6),
        (3, 2),
        (20, 2),
        (20, 255),
        (38, 1),
        (26, 1),
        (32, 1),
    ] {
        refused_plan(w, &changed(&K, at, byte));
    }
    for (at, byte) in [(17, 13), (15, 1), (23, 11), (24, 1), (25, 1), (19, 1)] {
        refused_plan(w, &changed(&K, at, byte));
    }
    refused_plan(w, &h_changed(4, 2));
    refused_plan(w, &K[..38]);
    refused_plan(w, &[&K[..], &[0]].concat());
    let many = Draft {
        records: vec![k().records[2]; 1025],
        ..k()
    };
    refused_plan(w, &many.bytes());
    w.title("the examples of row 18");
    for words in [[5, 5, 1, 4], [5, 9, 1, 4], [5, 6, 8, 8], [10, 10, 1, 1]] {
        handed_in(w, &k(), &words);
        handed_in(w, &k().unpaired(), &words);
    }
}

/// Every call on words handed in, the words set anew before those that may write.
pub(super) fn handed_in(w: &mut Writer, draft: &Draft, words: &[u64]) {
    w.plan(&draft.bytes());
    w.words(words);
    w.calls("krs");
    w.words(words);
    w.run(3);
    w.run(0);
}

/// A plan and words from which the next step is another one for the pairs alone, and the step that they forbid.
fn forbidden(rng: &mut Rng, size: Size) -> Option<(Draft, Vec<u64>, Step)> {
    let draft = draft(rng, size.paired());
    let plan = draft.plan()?;
    let without = draft.unpaired().plan()?;
    let words = leaning(rng, &plan);
    let step = step_plain(&without, &words)?;
    let differs = chosen(&without) == chosen(&plan) && step_plain(&plan, &words) != Some(step);
    differs.then_some((draft, words, step))
}

/// Steps that only a pair forbids, named and generated, beside the same words without pairs.
fn steps_for_pairs(w: &mut Writer, rng: &mut Rng) {
    w.title("steps that only a pair forbids");
    for shape in [(1, 2), (2, 1)] {
        for draft in [no_move_for_pair(shape), no_swap_for_pair(shape)] {
            for draft in [&draft.unpaired(), &draft] {
                handed_in(w, draft, &PAIR_WORDS);
            }
        }
    }
    let mut left = [12; 4];
    while left.iter().any(|number| *number > 0) {
        let size = rng.one_of(&[TINY, SMALL, SMALL]);
        let Some((draft, words, step)) = forbidden(rng, size) else {
            continue;
        };
        let number = &mut left[step.kind as usize];
        if *number == 0 {
            continue;
        }
        *number -= 1;
        w.plan(&draft.unpaired().bytes());
        w.words(&words);
        w.calls("s");
        w.plan(&draft.bytes());
        w.words(&words);
        w.calls("kssss");
        w.run(u32::MAX);
        w.calls("r");
    }
}

/// A plan damaged at each row, and at each two rows, in the order of the checks.
fn damaged(w: &mut Writer, rng: &mut Rng) {
    w.title("generated plans of version 2, damaged at one row and at two");
    w.lend(40);
    for _ in 0..2 {
        let good = draft(rng, SMALL.paired()).bytes();
        damaged_at(w, rng, &good, &ROWS_BEFORE_FEEDS);
    }
    for _ in 0..6 {
        for draft in at_fault(rng, SMALL.paired(), false) {
            refused_plan(w, &draft.bytes());
        }
    }
    w.title("random bytes of version 2");
    random_bytes(w, rng, 2, 20);
}

/// Plans that row 17 refuses, in each of its ways: alone, with 8 or 9 before it, with 10 or 11 after it.
fn mispaired_plans(w: &mut Writer, rng: &mut Rng) {
    w.title("generated plans that row 17 refuses, with 8, 9, 10 and 11 beside it");
    for how in MISPAIRINGS {
        for size in [TINY.paired(), SMALL.paired(), SMALL.paired()] {
            let alone = std::iter::repeat_with(|| mispaired(rng, size, how));
            let alone = alone.flatten().next().expect("an endless search");
            refused_plan(w, &alone.bytes());
            for row in [8, 9] {
                w.plan(&with_block_flaw(rng, alone.clone(), row).bytes());
                w.calls("pfs");
            }
            for row in [10, 11] {
                w.plan(&with_sum_flaw(rng, alone.clone(), row).bytes());
                w.calls("pfs");
            }
        }
    }
}

/// Generated plans with pairs, from their judgement to rest, and single steps.
fn accepted(w: &mut Writer, rng: &mut Rng) {
    w.title("generated plans with pairs");
    for (size, number) in [(TINY, 60), (SMALL, 60), (MEDIUM, 16)] {
        for k in 0..number {
            let draft = if k % 4 == 3 {
                filled(rng, size.paired())
            } else {
                draft(rng, size.paired())
            };
            let sets = [16, 1 << rng.below(4) | 16, rng.from_to(1, 31) as usize];
            visit(w, rng, &draft, &sets);
        }
    }
    w.title("single steps with pairs");
    for _ in 0..30 {
        let shape = rng.one_of(&[
            (2, 1),
            (1, 5),
            (4, 1),
            (2, 2),
            (2, 3),
            (3, 3),
            (5, 2),
            (2, 6),
        ]);
        let number = rng.from_to(6, 24);
        let draft = sized(rng, SMALL.paired(), shape.0, shape.1, number);
        let before = rng.below(20) as u32;
        one_by_one(w, rng, &draft, before);
    }
}

/// Damaged placements of plans with pairs: row 18 alone and with every set of the others.
fn broken_placements(w: &mut Writer, rng: &mut Rng) {
    w.title("generated placements that break row 18, alone and with 13 to 16");
    let sets: Vec<usize> = (16..32).chain([1, 2, 4, 8]).collect();
    for k in 0..12 {
        let (racks, per_rack) = rng.one_of(&[(2, 3), (3, 3), (2, 8), (4, 3)]);
        let draft = sized(rng, SMALL.paired(), racks, per_rack, 6 + k % 6);
        let plan = draft.plan().expect("an accepted plan");
        w.plan(&draft.bytes());
        damaged_words(w, rng, &plan, &sets);
    }
}

/// The largest plans of version 2: pairs back to back, and here and there.
fn large(w: &mut Writer, rng: &mut Rng) {
    w.title("plans of 64 machines and 1024 blocks with pairs");
    let back_to_back = largest(rng).coupled(1024);
    let some = sized(rng, LARGE.paired(), 4, 16, 1024);
    for draft in [back_to_back, some] {
        let plan = draft.plan().expect("an accepted plan");
        plan_calls(w, &draft);
        w.calls("ss");
        w.run(100);
        w.calls("r");
        w.words(&leaning(rng, &plan));
        w.calls("krs");
        w.run(5);
        damaged_words(w, rng, &plan, &[16]);
    }
}
