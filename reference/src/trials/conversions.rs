//! Trials of the converter: plans of versions 1 and 2 as version 3, and its refusals.

use super::*;
use crate::damage::{mispaired, with_sum_flaw, MISPAIRINGS, ROWS_BEFORE_FEEDS};
use crate::reads::Entry;

/// All trials of the converter.
pub fn all(w: &mut Writer, rng: &mut Rng) {
    accepted(w, rng);
    version_3(w, rng);
    orders_of_12(w);
    damaged(w, rng);
    over_limits(w, rng);
    beside_converted(w, rng);
    largest_plans(w, rng);
}

/// The length of the result for so many blocks.
fn length_for(number: usize) -> usize {
    15 + 7 * number
}

/// Conversions into buffers that are empty, one byte too short, exact, and longer.
fn conversions(w: &mut Writer, draft: &Draft) {
    let length = length_for(draft.records.len());
    w.plan(&draft.bytes());
    for number in [0, length - 1, length, length + 1, length + 50] {
        w.convert(number);
    }
}

/// Popularities with every byte of their own, up to the largest of 3 bytes.
fn bytes_of_popularity() -> Draft {
    let popularities = [0, 0xFF, 0x100, 0xFFFF, 0x1_0000, 0x01_0203, 0xFF_FFFF];
    plan_of((3, 3), 9, 1 << 24, &popularities.map(|p| (p, 2, 1)))
}

/// Plans of versions 1 and 2, named and generated.
fn accepted(w: &mut Writer, rng: &mut Rng) {
    w.title("conversions of plans of versions 1 and 2");
    let mut drafts = vec![h(), h_budget(4), row_eleven(2), y(), z(), empty(), ties()];
    drafts.extend([k(), k().unpaired(), empty().unpaired()]);
    drafts.extend([bytes_of_popularity(), bytes_of_popularity().coupled(6)]);
    for size in [TINY, SMALL, SMALL, SMALL, MEDIUM] {
        drafts.extend([draft(rng, size), draft(rng, size.paired())]);
        drafts.push(filled(rng, size.paired()));
    }
    for draft in &drafts {
        conversions(w, draft);
    }
}

/// Plans of version 3 and of versions never described: 3 after 1 and 2, and before all other rows.
fn version_3(w: &mut Writer, rng: &mut Rng) {
    w.title("conversions of plans of version 3: refused 3");
    let some = draft(rng, SMALL.wide());
    for draft in [h().wide(), k().wide(), empty().wide(), video(), some] {
        conversions(w, &draft);
    }
    w.title("version 3 with the flaw of each row");
    for plan in [sized(rng, SMALL.wide(), 2, 3, 6), k().wide()] {
        for row in ROWS_BEFORE_FEEDS {
            w.plan(&flawed(rng, plan.bytes(), row));
            w.convert(0);
            w.convert(8000);
        }
    }
    w.title("version 3 in the lengths of 1 and 2, and versions never described");
    for (version, bytes) in [(3, &H[..]), (3, &K), (0, &H), (5, &K), (5, &H_3), (255, &H)] {
        w.plan(&changed(bytes, 4, version));
        w.convert(0);
        w.convert(99);
    }
    for bytes in [&H[..], &K, &H_3] {
        w.plan(&changed(bytes, 3, 1));
        w.convert(99);
    }
}

/// A buffer too short beside every other row: 12 comes last.
fn orders_of_12(w: &mut Writer) {
    w.title("conversions: 12 after all rows of the plan");
    let both = Draft {
        budget: 1,
        ..row_eleven(1)
    };
    for plan in [
        &[][..],
        &H[..14],
        &h_changed(0, 0),
        &h_changed(6, 0),
        &h_changed(8, 0),
        &h_changed(13, 5),
        &H[..29],
        &h_changed(4, 2),
        &h_changed(23, 5),
        &h_changed(24, 2),
        &changed(&K, 20, 2),
        &changed(&K, 38, 1),
        &changed(&K, 23, 11),
        &h_budget(3).bytes(),
        &row_eleven(1).bytes(),
        &row_eleven(1).unpaired().bytes(),
        &both.bytes(),
    ] {
        w.plan(plan);
        for number in [0, 28, 29, 30, 99] {
            w.convert(number);
        }
    }
}

/// Generated plans of each version, damaged at one row, and in version 2 at two.
fn damaged(w: &mut Writer, rng: &mut Rng) {
    w.title("conversions of generated plans, damaged at one row, in version 2 at two");
    for size in [SMALL, SMALL.paired(), SMALL.wide()] {
        let good = sized(rng, size, 3, 3, 8).bytes();
        for (at, a) in ROWS_BEFORE_FEEDS.into_iter().enumerate() {
            w.plan(&flawed(rng, good.clone(), a));
            w.convert(0);
            w.convert(80);
            if size.version != 2 {
                continue;
            }
            for b in &ROWS_BEFORE_FEEDS[at + 1..] {
                let two = flawed(rng, good.clone(), *b);
                w.plan(&flawed(rng, two, a));
                w.convert(rng.one_of(&[0, 60, 80]));
            }
        }
    }
    w.title("conversions of random bytes");
    for version in [1, 2, 3, 1, 2, 3, 1, 2, 3, 1, 2, 3] {
        w.plan(&noise(rng, version));
        w.convert(99);
    }
}

/// Plans that a limit refuses, rows 8 to 11 and 17, with a buffer that is empty or long enough.
fn over_limits(w: &mut Writer, rng: &mut Rng) {
    w.title("conversions of plans that rows 8 to 11 and 17 refuse");
    let mut drafts = Vec::new();
    for size in [SMALL, SMALL.paired()] {
        for _ in 0..4 {
            drafts.extend(two_records(rng, size, true));
            drafts.extend(two_records(rng, size, false));
            drafts.extend(over_budget(rng, size));
            drafts.extend(over_feeds(rng, size));
            drafts.push(over_capacity(rng, size));
        }
    }
    for how in MISPAIRINGS {
        let alone = std::iter::repeat_with(|| mispaired(rng, TINY.paired(), how));
        let alone = alone.flatten().next().expect("an endless search");
        drafts.push(with_sum_flaw(rng, alone.clone(), 10));
        drafts.push(with_sum_flaw(rng, alone.clone(), 11));
        drafts.push(alone);
    }
    for draft in &drafts {
        w.plan(&draft.bytes());
        w.convert(0);
        w.convert(length_for(draft.records.len()));
    }
}

/// Every call on a plan, with the same words and list at first: its judgement, counts, first placement, steps to rest,
/// a read and popularities.
pub(super) fn every_call(w: &mut Writer, draft: &Draft) {
    w.words(&vec![0; draft.records.len()]);
    to_rest(w, draft);
    let list = [(0, 7), (1, 7), (1, 8), (2, 9)];
    w.list(&list.map(|(block, tick)| Entry { block, tick }));
    w.count(3);
    w.popularity(0);
    w.read(1, 9);
    w.popularity(1);
}

/// Plans of versions 1 and 2 and what the converter writes for them: the answers are the same where M is at most 8.
fn beside_converted(w: &mut Writer, rng: &mut Rng) {
    w.title("plans of versions 1 and 2, each before its conversion");
    let mut drafts = vec![h(), y(), z(), empty(), k()];
    drafts.push(bytes_of_popularity().coupled(4));
    for size in [TINY, SMALL] {
        drafts.extend([draft(rng, size), draft(rng, size.paired())]);
        drafts.push(filled(rng, size.paired()));
    }
    for one in drafts {
        for draft in [&one, &one.wide()] {
            every_call(w, draft);
        }
    }
}

/// The largest plans of versions 1 and 2, and a short run of one beside that of its conversion.
fn largest_plans(w: &mut Writer, rng: &mut Rng) {
    w.title("conversions of plans of 1024 blocks, to 7183 bytes");
    let single = largest(rng);
    let paired = single.coupled(1024);
    for draft in [&single, &paired] {
        conversions(w, draft);
        w.convert(usize::from(u16::MAX));
    }
    for draft in [&paired, &paired.wide()] {
        w.plan(&draft.bytes());
        w.lend(1024);
        w.counts(1024);
        w.calls("pfr");
        w.run(20);
        w.calls("r");
    }
}
