//! Trials of the most copies of a block: 8 in versions 1 and 2, 10 in version 3.

use super::conversions::every_call;
use super::*;
use crate::counts::chosen;
use crate::plan::most_copies;

/// All trials of the most copies.
pub fn all(w: &mut Writer, rng: &mut Rng) {
    limits(w);
    limits_of_pairs(w);
    spreads(w);
    limited_counts(w);
    limited_counts_of_pairs(w);
    generated(w, rng);
    single_steps(w, rng);
    largest_plans(w);
    beside_converted(w);
}

/// The plan in its own version and in all later ones up to 3; a plan of version 2 may have pairs.
pub(super) fn in_versions(draft: &Draft) -> Vec<Draft> {
    let later = |version: u16| Draft {
        version,
        ..draft.clone()
    };
    (draft.version..=3).map(later).collect()
}

/// A plan's judgement, counts and first placement, in each version.
fn judged(w: &mut Writer, draft: &Draft) {
    let number = draft.records.len();
    w.lend(number);
    for draft in in_versions(draft) {
        w.plan(&draft.bytes());
        w.calls("pfr");
        w.counts(number);
    }
}

/// Row 8 at every limit: the most copies of each version, and M where it is less.
fn limits(w: &mut Writer) {
    w.title("least copies 8 to 11 on 7 to 12 machines and on 64, in each version");
    for shape in [(1, 7), (2, 4), (3, 3), (5, 2), (11, 1), (4, 3), (8, 8)] {
        for least in 8..=11 {
            judged(w, &plan_of(shape, 2, 99, &[(9, least, 1), (3, 1, 1)]));
        }
    }
}

/// Row 8 at every limit of pairs: the most copies of each version, and half of M where it is less.
fn limits_of_pairs(w: &mut Writer) {
    w.title("least copies 8 to 11 of pairs on 16 to 22 machines and on 64");
    for shape in [
        (4, 4),
        (1, 17),
        (3, 6),
        (19, 1),
        (5, 4),
        (7, 3),
        (2, 11),
        (8, 8),
    ] {
        for least in 8..=11 {
            let records = [(9, least, 1, 1), (9, least, 1, 0), (3, 1, 1, 0)];
            judged(w, &paired_plan(shape, 2, 99, &records));
        }
    }
}

/// Spreads of 8 to 11 on as many racks and more, with least copies up to ten.
fn spreads(w: &mut Writer) {
    w.title("spreads of 8 to 11");
    for shape in [(9, 2), (10, 1), (12, 5)] {
        for (least, spread) in [
            (8, 9),
            (9, 8),
            (9, 9),
            (9, 10),
            (10, 10),
            (10, 11),
            (11, 11),
        ] {
            judged(w, &plan_of(shape, 2, 99, &[(9, least, spread)]));
        }
    }
}

/// From its judgement to rest, in each version.
fn placed(w: &mut Writer, draft: &Draft) {
    judged(w, draft);
    for draft in in_versions(draft) {
        w.plan(&draft.bytes());
        w.calls("fks");
        w.run(100_000);
        w.calls("r");
    }
}

/// Counts that reach nine and ten in version 3, held by budget, machines or places, or by shares that are small enough.
fn limited_counts(w: &mut Writer) {
    w.title("counts of nine and ten, limited by budget, machines and places");
    let (hot, cold) = ((7, 1, 1), (0, 1, 1));
    for budget in 8..=13 {
        placed(w, &plan_of((3, 4), 2, budget, &[hot, cold]));
    }
    for per_rack in 8..=12 {
        placed(w, &plan_of((1, per_rack), 3, 99, &[hot, cold]));
    }
    for (capacity, records) in [
        (1, &[hot, cold][..]),
        (1, &[hot]),
        (2, &[hot, hot, cold]),
        (2, &[hot, cold, hot, cold]),
    ] {
        placed(w, &plan_of((5, 2), capacity, 99, records));
    }
    placed(w, &calibration());
    let rising: Vec<_> = (1..=10).map(|p| (p, 1, 1)).collect();
    for budget in [44, 54, 55, 99] {
        placed(w, &plan_of((3, 4), 6, budget, &rising));
    }
}

/// The same for pairs, held by half of M and by the budget.
fn limited_counts_of_pairs(w: &mut Writer) {
    w.title("counts of nine and ten of pairs");
    let records = [(7, 1, 1, 1), (7, 1, 1, 0), (3, 1, 1, 0)];
    for shape in [(2, 8), (1, 17), (3, 6), (19, 1), (5, 4), (3, 7), (2, 11)] {
        placed(w, &paired_plan(shape, 3, 99, &records));
    }
    for budget in [19, 20, 22, 23, 24, 25] {
        placed(w, &paired_plan((5, 4), 3, budget, &records));
    }
    placed(w, &paired_plan((5, 4), 1, 99, &records));
}

/// A generated plan of version 3 with counts above those of the versions before.
fn above_eight(rng: &mut Rng, size: Size) -> Draft {
    let is_above = |draft: &Draft| {
        let counts = chosen(&draft.plan().expect("an accepted plan"));
        counts.iter().any(|c| *c > most_copies(2))
    };
    let mut drafts = std::iter::repeat_with(|| draft(rng, size.wide()));
    drafts.find(is_above).expect("an endless search")
}

/// Few blocks on machines enough for pairs of ten copies.
const ROOMY: Size = Size {
    machines: 30,
    blocks: 14,
    coarse: false,
    version: 3,
};

/// Generated plans with counts of nine and ten, from their judgement to rest, before that as version 2.
fn generated(w: &mut Writer, rng: &mut Rng) {
    w.title("generated plans with counts of nine and ten, each after the same as version 2");
    for (size, number) in [(SMALL, 6), (ROOMY, 8), (MEDIUM, 2)] {
        for _ in 0..number {
            let draft = above_eight(rng, size);
            let before = Draft {
                version: 2,
                ..draft.clone()
            };
            w.plan(&before.bytes());
            w.lend(draft.records.len());
            w.calls("pfs");
            let sets = [16, 1 << rng.below(4) | 16, rng.from_to(1, 31) as usize];
            visit(w, rng, &draft, &sets);
        }
    }
}

/// Single steps of plans with counts of nine and ten.
fn single_steps(w: &mut Writer, rng: &mut Rng) {
    w.title("single steps with counts of nine and ten");
    for _ in 0..8 {
        let draft = above_eight(rng, ROOMY);
        let before = rng.below(9) as u32;
        one_by_one(w, rng, &draft, before);
    }
}

/// The first placement of a plan of 1,024 blocks, the same machines for all of them, and a few steps from there.
fn stacked(w: &mut Writer, draft: &Draft, words: [u64; 2]) {
    plan_calls(w, draft);
    w.calls("s");
    w.words(&words.repeat(512));
    w.calls("krs");
    w.run(5);
    w.calls("r");
}

/// The largest plans: ten copies of 1,024 blocks, asked for or left by the budget, with pairs and without. As version 1
/// or 2 they stay at eight copies.
fn largest_plans(w: &mut Writer) {
    w.title("1024 blocks of popularity 4294967295 and ten copies");
    let ten = (1 << 10) - 1;
    stacked(w, &largest_grown(), [ten, ten]);
    let pairs = largest_grown().coupled(1024);
    stacked(w, &pairs, [ten, ten << 10]);
    for draft in [
        largest_wide().coupled(1024),
        Draft {
            version: 1,
            ..largest_grown()
        },
        Draft {
            version: 2,
            ..pairs
        },
    ] {
        plan_calls(w, &draft);
        w.calls("s");
    }
}

/// A plan of version 1 or 2 before its conversion: every call on both, and the words of the one with the other.
pub(super) fn compared(w: &mut Writer, old: &Draft) {
    let new = old.wide();
    every_call(w, old);
    w.convert(new.bytes().len());
    w.plan(&new.bytes());
    w.calls("krs");
    w.run(1);
    every_call(w, &new);
    w.plan(&old.bytes());
    w.calls("ks");
}

/// Plans of versions 1 and 2 before their conversions: the same answers where M is at most 8, and more copies above.
fn beside_converted(w: &mut Writer) {
    let single = [(7, 1, 1), (5, 2, 1), (0, 1, 1)];
    let pair = [(7, 1, 1, 1), (7, 1, 1, 0), (6, 2, 1, 0), (1, 1, 1, 0)];
    w.title("conversions with at most 8 machines: the same answers");
    for shape in [(1, 7), (2, 4), (8, 1)] {
        compared(w, &plan_of(shape, 3, 99, &single));
        compared(w, &paired_plan(shape, 4, 99, &pair));
    }
    w.title("conversions with more than 8 machines: counts that differ");
    compared(w, &calibration());
    for shape in [(3, 3), (10, 1), (3, 4)] {
        compared(w, &plan_of(shape, 3, 99, &single));
    }
    for shape in [(3, 3), (2, 9), (5, 4), (2, 11)] {
        compared(w, &paired_plan(shape, 4, 99, &pair));
    }
}
