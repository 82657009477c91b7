//! Trials of budgets about M × C: in version 4 row 23 refuses those above it, before it the smaller of both holds.

use super::conversions::every_call;
use super::copies::{compared, in_versions};
use super::feeds::{judged, verdict};
use super::reads::{random_histories, reads_with};
use super::*;
use crate::damage::{mispaired, near_places, over_both, with_block_flaw, with_sum_flaw};
use crate::damage::{Mispairing, MISPAIRINGS};

/// All trials of budgets.
pub fn all(w: &mut Writer, rng: &mut Rng) {
    halls(w);
    smaller_of_both(w);
    sums(w);
    orders_of_23(w);
    mispaired_plans(w, rng);
    damaged(w, rng);
    generated(w, rng);
    refused(w);
    lists_of_calls(w, rng);
    conversions(w);
    reads(w, rng);
}

/// The plan in its own version and in all later ones with the same budget, in version 4 with a feed for each rack.
fn in_all_versions(draft: &Draft) -> Vec<Draft> {
    let latest = draft.fed(draft.racks).with_budget(draft.budget);
    let mut drafts = in_versions(draft);
    drafts.push(latest);
    drafts
}

/// Budgets one below M × C, at it and above it: by one, by 2 to the power 8, 16 and 24, and the largest.
fn about(places: u32) -> Vec<u32> {
    let above = [0, 8, 16, 24].map(|bits| places + (1 << bits));
    [&[places - 1, places], &above[..], &[u32::MAX]].concat()
}

/// Halls from one place to 65,536, and the largest plan with one copy more in its budget than that.
fn halls(w: &mut Writer) {
    w.title("budgets about M x C, from one place to 65536, in each version");
    w.lend(1);
    for (shape, capacity) in [
        ((1, 1), 1),
        ((1, 1), 1024),
        ((64, 1), 1),
        ((3, 5), 17),
        ((8, 8), 1024),
    ] {
        let hall = plan_of(shape, capacity, 0, &[(9, 1, 1)]);
        for budget in about(hall.places() as u32) {
            for draft in in_all_versions(&hall.with_budget(budget)) {
                w.plan(&draft.bytes());
                w.calls("pf");
                w.counts(1);
            }
        }
    }
    refused_plan(w, &largest_fed().with_budget((1 << 16) + 1).bytes());
}

/// Plans that would have more copies than M × C if there were places for them.
fn short_of_places() -> [Draft; 4] {
    let pair = [(9, 1, 1, 1), (9, 1, 1, 0), (4, 1, 1, 0)];
    [
        over_places(),
        plan_of((1, 8), 2, 0, &[(7, 2, 1), (7, 1, 1), (1, 1, 1)]),
        plan_of((3, 2), 1, 0, &[(5, 2, 2), (5, 1, 1), (0, 1, 1)]),
        paired_plan((2, 3), 1, 0, &pair),
    ]
}

/// Every call on plans with budgets above M × C in versions 1 to 3, beside the same with M × C in versions 3 and 4.
fn smaller_of_both(w: &mut Writer) {
    w.title("budgets above M x C in versions 1 to 3, and at it in versions 3 and 4");
    for (hall, above) in short_of_places().iter().zip([1, 99, u32::MAX - 6, 1]) {
        let places = hall.places() as u32;
        for draft in in_versions(&hall.with_budget(places + above)) {
            every_call(w, &draft);
        }
        let at = hall.wide().with_budget(places);
        every_call(w, &at);
        every_call(w, &at.fed(at.racks));
    }
}

/// The sum of least copies, the budget and M × C in every order, on two places and on four: above M × C version 4 is
/// refused 23, also where 10 or 11 refuses the others.
fn sums(w: &mut Writer) {
    w.title("sums of least copies about budgets about M x C, in each version");
    for (shape, capacity, numbers) in [((1, 2), 1, 1..=4), ((2, 1), 2, 3..=6)] {
        for number in numbers {
            let hall = plan_of(shape, capacity, 0, &vec![(1, 1, 1); number]);
            let places = hall.places() as u32;
            for budget in places - 1..=places + 3 {
                for draft in in_all_versions(&hall.with_budget(budget)) {
                    verdict(w, &draft.bytes());
                }
            }
        }
    }
}

/// Row 23 with each row before it broken as well, beside the same flaws with a budget of M × C and one less.
fn orders_of_23(w: &mut Writer) {
    w.title("row 23 after 1 to 9, 17 and 22");
    w.words(&[5, 10, 1, 4, 99]);
    let good = paired_plan((4, 2), 3, 24, &[(9, 2, 2, 1), (9, 2, 2, 0), (5, 1, 1, 0)]).fed(2);
    for budget in [23, 24, 25, u32::MAX] {
        let bytes = good.with_budget(budget).bytes();
        refused_plan(w, &bytes);
        for (at, byte) in [
            (0, 0),
            (3, 1),
            (4, 9),
            (5, 0),
            (6, 17),
            (7, 0),
            (7, 3),
            (8, 5),
            (9, 0),
            (14, 9),
            (15, 4),
            (20, 0),
            (34, 11),
            (21, 9),
            (35, 0),
            (22, 2),
            (36, 1),
            (26, 8),
        ] {
            w.plan(&changed(&bytes, at, byte));
            w.calls("ps");
        }
        for short in [14, 15, 16, 36] {
            verdict(w, &bytes[..short]);
        }
    }
}

/// A plan of version 4 that row 17 refuses in this way.
fn mispaired_so(rng: &mut Rng, how: Mispairing) -> Draft {
    let drafts = std::iter::repeat_with(|| mispaired(rng, TINY.fed(), how));
    drafts.flatten().next().expect("an endless search")
}

/// Row 17 in each of its ways, with 23 after it, and with 8 and 9 before both; without the pairs 23 is given.
fn mispaired_plans(w: &mut Writer, rng: &mut Rng) {
    w.title("generated plans that row 17 refuses, with 23 after it");
    for how in MISPAIRINGS {
        let alone = mispaired_so(rng, how);
        let two = with_sum_flaw(rng, alone, 23);
        judged(w, &two);
        verdict(w, &two.unpaired().bytes());
        for row in [8, 9] {
            verdict(w, &with_block_flaw(rng, two.clone(), row).bytes());
        }
    }
}

/// Generated plans that 23 refuses with the flaw of each row before it, and with sums of least copies above M × C.
fn damaged(w: &mut Writer, rng: &mut Rng) {
    w.title("generated plans that row 23 refuses, damaged at each row before it");
    w.lend(40);
    for number in [6, 9] {
        let good = sized(rng, SMALL.fed(), 4, 3, number).bytes();
        let over = flawed(rng, good, 23);
        refused_plan(w, &over);
        for row in PLAN_ROWS.into_iter().take_while(|row| *row != 23) {
            w.plan(&flawed(rng, over.clone(), row));
            w.calls("ps");
        }
    }
    w.title("generated plans of versions 3 and 4 with more least copies than places");
    for k in 0..8 {
        let draft = match k % 2 {
            0 => over_both(rng, TINY.wide()),
            _ => over_capacity(rng, TINY.wide()),
        };
        judged(w, &draft);
        judged(w, &draft.fed(draft.racks).with_budget(draft.budget));
        judged(w, &draft.fed(draft.racks));
    }
}

/// Generated plans of version 3 with budgets about M × C, the same in version 4, and there with M × C at most.
fn generated(w: &mut Writer, rng: &mut Rng) {
    w.title("generated plans of version 3 with budgets about M x C, beside version 4");
    for k in 0..16 {
        let size = [TINY, SMALL][k % 2];
        let draft = near_places(rng, size.wide());
        let lowered = draft.fed(draft.racks);
        judged(w, &draft);
        judged(w, &lowered.with_budget(draft.budget));
        if lowered.budget != draft.budget {
            judged(w, &lowered);
        }
    }
    for size in [TINY, SMALL, SMALL] {
        let draft = filled(rng, size.fed());
        visit(w, rng, &draft, &[8]);
    }
}

/// Every call on plans that row 23 refuses, the converter's 3 among them.
fn refused(w: &mut Writer) {
    w.title("every call on plans that row 23 refuses");
    w.words(&[15, 5, 2, 99]);
    for (draft, budget) in [(h(), 13), (h(), u32::MAX), (k(), 13), (empty(), 7)] {
        let draft = draft.fed(draft.racks).with_budget(budget);
        refused_plan(w, &draft.bytes());
        for number in [0, 43, 99] {
            w.convert(number);
        }
        w.read(0, 9);
        w.popularity(0);
    }
}

/// Lists of calls of which some get the plan with a budget that 23 refuses, and at the end one as version 3, which takes it.
fn lists_of_calls(w: &mut Writer, rng: &mut Rng) {
    w.title("lists of calls with refused budgets in between");
    for number in [4, 7, 10] {
        let draft = sized(rng, SMALL.fed(), 4, 2, number);
        let over = draft.with_budget(draft.places() as u32 + 1);
        w.plan(&draft.bytes());
        w.words(&leaning(rng, &draft.plan().expect("an accepted plan")));
        w.calls("ks");
        w.plan(&over.bytes());
        w.calls("skrf");
        w.run(2);
        w.counts(40);
        w.plan(&draft.bytes());
        w.calls("ks");
        w.run(u32::MAX);
        w.calls("r");
        w.plan(&over.bytes());
        w.run(u32::MAX);
        w.plan(&draft.wide().with_budget(u32::MAX).bytes());
        w.calls("pk");
    }
}

/// Plans of versions 1 and 2 with budgets above M × C: the converter writes them as version 3 with the same budget. As
/// version 4 they are refused 23, and by the converter 3.
fn conversions(w: &mut Writer) {
    w.title("conversions of plans with budgets above M x C");
    for (hall, budget) in short_of_places().iter().zip([5, u32::MAX, 1 << 24, 7]) {
        let old = hall.with_budget(budget);
        compared(w, &old);
        let latest = old.fed(old.racks).with_budget(budget);
        verdict(w, &latest.bytes());
        w.convert(99);
    }
}

/// Reads and popularities with budgets at M × C and above it.
fn reads(w: &mut Writer, rng: &mut Rng) {
    w.title("reads with budgets about M x C");
    let with = |draft: &Draft, budget| draft.with_budget(budget).bytes();
    let plans = [
        with(&h().wide(), 13),
        with(&h().fed(2), 12),
        with(&h().fed(2), 13),
        with(&k().fed(2), u32::MAX),
    ];
    reads_with(w, &plans.each_ref().map(|bytes| &bytes[..]));
    random_histories(w, rng, 3, &[4]);
}
