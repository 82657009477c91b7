//! Claims of the specification on random plans, against brute force where the plans are tiny.

use placement_reference::calls::enter_run;
use placement_reference::convert::converted;
use placement_reference::counts::{chosen, largest_share, share};
use placement_reference::damage::*;
use placement_reference::gen::*;
use placement_reference::listing::text;
use placement_reference::placement::*;
use placement_reference::plan::{read, Block, Plan};
use placement_reference::steps::{run, step_literal, step_plain, End};

const QUARTER: Size = Size {
    machines: 4,
    blocks: 3,
    coarse: true,
    version: 1,
};

/// The same with one block more, in version 2, so that there are two pairs at times.
const PAIRED_QUARTER: Size = Size {
    blocks: 4,
    version: 2,
    ..QUARTER
};

/// Few blocks on machines enough for ten copies, of pairs too.
const ROOMY: Size = Size {
    machines: 24,
    blocks: 4,
    coarse: false,
    version: 1,
};

fn plans(seed: u64, number: u64, size: Size) -> Vec<Plan> {
    let mut rng = Rng::new(seed);
    (0..number)
        .map(|_| draft(&mut rng, size).plan().expect("accepted"))
        .collect()
}

/// So many plans of each version.
fn plans_of_all(seed: u64, number: u64, size: Size) -> Vec<Plan> {
    [size, size.paired(), size.wide(), size.fed()]
        .into_iter()
        .flat_map(|size| plans(seed, number, size))
        .collect()
}

/// The generators draw least copies up to the limit of each version, for pairs too.
#[test]
fn least_copies_reach_the_limit() {
    for (size, most) in [
        (ROOMY, 8),
        (ROOMY.paired(), 8),
        (ROOMY.wide(), 10),
        (ROOMY.fed(), 10),
    ] {
        let plans = plans(30, 2000, size);
        let least = |of_pairs: bool| {
            let blocks = |p: &Plan| -> Vec<usize> {
                let some = (0..p.blocks.len()).filter(|i| p.paired(*i) == of_pairs);
                some.map(|i| p.blocks[i].least).collect()
            };
            plans.iter().flat_map(blocks).max().unwrap_or(0)
        };
        assert_eq!(least(false), most);
        assert_eq!(least(true), if size.version == 1 { 0 } else { most });
    }
}

#[test]
fn both_searches_agree_to_rest() {
    let mut rng = Rng::new(11);
    for plan in plans_of_all(1, 300, TINY) {
        let mut words = leaning(&mut rng, &plan);
        loop {
            let step = step_plain(&plan, &words);
            assert_eq!(step, step_literal(&plan, &words));
            let Some(step) = step else { break };
            words = step.taken(&words);
        }
    }
}

#[test]
fn first_and_random_placements_are_feasible() {
    let mut rng = Rng::new(12);
    for size in [TINY, SMALL, MEDIUM] {
        for plan in plans_of_all(2, 150, size) {
            for words in [
                first(&plan),
                placement(&mut rng, &plan),
                leaning(&mut rng, &plan),
            ] {
                assert!(feasible(&plan, &words));
                assert_eq!(check(&plan, &words), Ok(plan.blocks.len()));
            }
        }
    }
}

fn squares(plan: &Plan, words: &[u64]) -> u128 {
    loads(plan, words)
        .iter()
        .map(|l| u128::from(*l) * u128::from(*l))
        .sum()
}

#[test]
fn loads_sum_up_and_steps_lower_the_squares() {
    let mut rng = Rng::new(13);
    for plan in plans_of_all(3, 200, SMALL) {
        let popularity: u64 = plan.blocks.iter().map(|b| b.popularity).sum();
        let mut words = leaning(&mut rng, &plan);
        while let Some(step) = step_plain(&plan, &words) {
            let after = step.taken(&words);
            assert!(feasible(&plan, &after));
            assert!(squares(&plan, &after) + 2 <= squares(&plan, &words));
            assert_eq!(loads(&plan, &after).iter().sum::<u64>(), 2520 * popularity);
            words = after;
        }
    }
}

#[test]
fn a_run_is_its_single_steps() {
    let mut rng = Rng::new(14);
    for plan in plans_of_all(4, 200, SMALL) {
        let begin = leaning(&mut rng, &plan);
        let (_, all, rest) = run(&plan, &begin, u32::MAX);
        let budget = rng.below(u64::from(all) + 2) as u32;
        let (end, taken, between) = run(&plan, &begin, budget);
        assert_eq!(taken, budget.min(all));
        assert_eq!(end == End::Spent, budget < all);
        assert_eq!(
            run(&plan, &between, u32::MAX),
            (End::Rest, all - taken, rest)
        );
    }
}

/// Every list of lawful counts.
fn all_counts(plan: &Plan) -> Vec<Vec<usize>> {
    let mut lists = vec![vec![]];
    for (i, b) in plan.blocks.iter().enumerate() {
        let longer = |list: &Vec<usize>| {
            let list = list.clone();
            (b.least..=plan.upper(i)).map(move |c| [list.clone(), vec![c]].concat())
        };
        lists = lists.iter().flat_map(longer).collect();
    }
    lists.retain(|l| l.iter().sum::<usize>() as u64 <= plan.limit());
    lists
}

#[test]
fn chosen_counts_by_brute_force() {
    let mut largest = [0; 4];
    for plan in [plans_of_all(5, 400, TINY), plans_of_all(5, 60, ROOMY)]
        .concat()
        .into_iter()
        .filter(|p| p.blocks.len() < 6)
    {
        let all = all_counts(&plan);
        let best = all.iter().map(|l| largest_share(&plan, l)).min().unwrap();
        let least = |i: usize| {
            let within = |l: &&Vec<usize>| largest_share(&plan, l) <= best;
            all.iter().filter(within).map(|l| l[i]).min().unwrap()
        };
        let expected: Vec<usize> = (0..plan.blocks.len()).map(least).collect();
        assert_eq!(chosen(&plan), expected);
        assert!(plan.pairs().all(|(i, k)| expected[i] == expected[k]));
        let largest = &mut largest[plan.version as usize - 1];
        *largest = expected.into_iter().fold(*largest, usize::max);
    }
    assert_eq!(largest, [8, 8, 10, 10]);
}

/// Every lawful placement, at any lawful counts.
fn all_placements(plan: &Plan) -> Vec<Vec<u64>> {
    let mut lists: Vec<Vec<u64>> = vec![vec![]];
    for (i, b) in plan.blocks.iter().enumerate() {
        let counted = |w: &u64| (b.least..=plan.upper(i)).contains(&copies_of(*w));
        let words: Vec<u64> = (1..1_u64 << plan.machines()).filter(counted).collect();
        let longer = |list: &Vec<u64>| {
            let list = list.clone();
            words.iter().map(move |w| [list.clone(), vec![*w]].concat())
        };
        lists = lists.iter().flat_map(longer).collect();
    }
    lists.retain(|l| feasible(plan, l));
    lists
}

fn maximum(plan: &Plan, words: &[u64]) -> u64 {
    *loads(plan, words).iter().max().unwrap()
}

/// The plan with fewer feeds than racks and more than one, if the racks can have them, and the largest spreads.
fn stretched(rng: &mut Rng, mut draft: Draft) -> Draft {
    let feeds = divisors(draft.racks);
    if feeds.len() > 2 {
        draft.feed_byte = rng.one_of(&feeds[1..feeds.len() - 1]);
    }
    for record in &mut draft.records {
        record.spread = record.least.min(draft.feed_byte);
    }
    draft
}

/// So many plans like that.
fn stretched_plans(seed: u64, number: u64, size: Size) -> Vec<Plan> {
    let mut rng = Rng::new(seed);
    let mut plan = || {
        let draft = draft(&mut rng, size.fed());
        stretched(&mut rng, draft).plan().expect("accepted")
    };
    (0..number).map(|_| plan()).collect()
}

/// A plan of version 4 on racks of one machine: on four racks with up to `blocks` blocks, or on six with two at most.
fn on_feeds(rng: &mut Rng, blocks: u64) -> Draft {
    let (racks, most) = rng.one_of(&[(4, blocks), (4, blocks), (6, 2)]);
    let number = rng.from_to(1, most);
    let draft = sized(rng, QUARTER.fed(), racks, 1, number);
    if rng.once_in(3) {
        draft
    } else {
        stretched(rng, draft)
    }
}

/// Larger spreads than one over fewer feeds than racks.
fn counts_feeds(plan: &Plan) -> bool {
    plan.feeds < plan.racks && plan.blocks.iter().any(|b| b.spread > 1)
}

#[test]
fn bound_at_rest_by_brute_force() {
    let mut rng = Rng::new(31);
    let fed = (0..300).map(|_| on_feeds(&mut rng, 4).plan().expect("accepted"));
    let some = [plans(6, 300, QUARTER), plans(6, 300, PAIRED_QUARTER)].concat();
    let some: Vec<Plan> = some.into_iter().chain(fed).collect();
    let with_pairs = some.iter().filter(|plan| plan.pairs().next().is_some());
    assert!(with_pairs.count() > 60);
    assert!(some.iter().filter(|plan| counts_feeds(plan)).count() > 30);
    for plan in some {
        let all = all_placements(&plan);
        let best = all.iter().map(|w| maximum(&plan, w)).min().unwrap();
        let s = largest_share(&plan, &chosen(&plan));
        let one = plan.blocks.iter().all(|b| b.spread == 1);
        let shares = if one { 1 } else { 3 };
        let machines = plan.machines() as u64;
        for words in all.iter().filter(|w| check(&plan, w).is_ok()) {
            let full = (0..plan.machines()).any(|m| held_by(words, m) == plan.capacity);
            if step_plain(&plan, words).is_none() && (one || !full) {
                let bound = machines * best + shares * (machines - 1) * s;
                assert!(machines * maximum(&plan, words) <= bound);
            }
        }
    }
}

/// The plan with room for all least copies, whatever its capacity and budget.
fn roomy(draft: &Draft) -> Draft {
    let mut roomy = draft.clone();
    roomy.capacity = 1024;
    roomy.budget = roomy.usable(u32::MAX.into());
    roomy
}

/// A budget above M × C says nothing of lawful placements: the plan that 23 refuses is looked at with M × C for it.
fn ten_and_eleven(seed: u64, drawn: impl Fn(&mut Rng) -> Draft) {
    let mut rng = Rng::new(seed);
    let (mut refused, mut version) = ([0; 24], 0);
    for _ in 0..600 {
        let mut draft = drawn(&mut rng);
        draft.capacity = rng.from_to(1, 2) as u16;
        draft.budget = rng.below(14) as u32;
        let mut plan = roomy(&draft).plan().expect("accepted");
        (plan.capacity, plan.budget) = (draft.capacity.into(), draft.budget.into());
        let mut verdict = read(&draft.bytes());
        if verdict == Err(23) {
            assert!(plan.version == 4 && plan.budget > plan.places());
            refused[23] += 1;
            verdict = read(&draft.fed(draft.feed_byte).bytes());
        }
        assert_eq!(verdict.is_ok(), !all_placements(&plan).is_empty());
        if let Err(row) = verdict {
            refused[usize::from(row)] += 1;
        }
        version = plan.version;
    }
    let given = [10, 11, 23].map(|row: usize| refused[row] > 20);
    assert_eq!(given, [true, version < 4, version == 4], "{refused:?}");
    assert_eq!(refused[11] == 0, version == 4, "{refused:?}");
}

/// For plans past 17 and 23: no lawful placement exists exactly if 10 or 11 is given, in version 4 exactly if 10 is.
#[test]
fn ten_and_eleven_are_exact() {
    ten_and_eleven(15, |rng| draft(rng, QUARTER));
    ten_and_eleven(18, |rng| draft(rng, PAIRED_QUARTER));
    ten_and_eleven(32, |rng| draft(rng, PAIRED_QUARTER.fed()));
    ten_and_eleven(33, |rng| on_feeds(rng, 4));
}

/// Random bytes, budgets and capacities over tiny plans of versions 2 to 4, whose feeds may be any too: the definition's
/// own words, row by row.
#[test]
fn rows_8_to_11_17_22_and_23_of_any_bytes() {
    rows_of_any_bytes(19, PAIRED_QUARTER, 3, 14);
    rows_of_any_bytes(21, PAIRED_QUARTER.wide(), 3, 14);
    rows_of_any_bytes(28, ROOMY.paired(), 12, 50);
    rows_of_any_bytes(29, ROOMY.wide(), 12, 50);
    rows_of_any_bytes(34, PAIRED_QUARTER.fed(), 3, 14);
    rows_of_any_bytes(35, ROOMY.fed(), 12, 50);
}

/// Least copies up to `most` and budgets below `budget`.
fn rows_of_any_bytes(seed: u64, size: Size, most: u64, budget: u64) {
    let mut rng = Rng::new(seed);
    let mut seen = [0; 24];
    for _ in 0..60_000 {
        let mut draft = draft(&mut rng, size);
        draft.capacity = rng.from_to(1, 3) as u16;
        draft.budget = rng.below(budget) as u32;
        for record in &mut draft.records {
            if rng.once_in(4) {
                record.pair = rng.one_of(&[0, 1, 1, 1, 2]);
            }
            if rng.once_in(6) {
                record.least = rng.from_to(0, most) as u8;
            }
            if rng.once_in(12) {
                record.popularity ^= 1;
            }
        }
        if size.version == 4 && rng.once_in(4) {
            draft.feed_byte = rng.below(u64::from(draft.racks) + 2) as u8;
        }
        let row = read(&draft.bytes()).err().unwrap_or(0);
        assert_eq!(row, row_by_words(&draft));
        seen[usize::from(row)] += 1;
    }
    for row in [0, 8, 9, 17, 10] {
        assert!(seen[row] > 100, "{seen:?}");
    }
    let (before, now) = match size.version {
        4 => ([11, 11], [22, 23]),
        _ => ([22, 23], [11, 11]),
    };
    assert_eq!(before.map(|row| seen[row]), [0, 0], "{seen:?}");
    assert!(now.iter().all(|row| seen[*row] > 100), "{seen:?}");
}

/// The row of a plan whose header is in order but for its feeds, from its fields.
fn row_by_words(draft: &Draft) -> u8 {
    let (records, machines) = (&draft.records, draft.machines());
    let (most, feeds) = match draft.version {
        1 | 2 => (8, draft.racks),
        3 => (10, draft.racks),
        _ => (10, draft.feed_byte),
    };
    if !(1..=64).any(|of_each| of_each * u32::from(feeds) == u32::from(draft.racks)) {
        return 22;
    }
    for (i, r) in records.iter().enumerate() {
        let paired = r.pair == 1 || i > 0 && records[i - 1].pair == 1;
        let upper = if paired { machines / 2 } else { machines };
        if r.least == 0 || u64::from(r.least) > upper.min(most) {
            return 8;
        }
        if r.spread == 0 || r.spread > r.least || r.spread > feeds {
            return 9;
        }
    }
    let fields = |r: &Record| (r.popularity, r.least, r.spread);
    for (i, r) in records.iter().enumerate() {
        let next_alike = |next: &Record| next.pair != 1 && fields(next) == fields(r);
        if r.pair > 1 || r.pair == 1 && !records.get(i + 1).is_some_and(next_alike) {
            return 17;
        }
    }
    let (budget, places) = (
        u64::from(draft.budget),
        machines * u64::from(draft.capacity),
    );
    match draft.least_sum() {
        _ if draft.version == 4 && budget > places => 23,
        sum if sum > budget => 10,
        sum if sum > places => 11,
        _ => 0,
    }
}

#[test]
fn a_share_is_whole_and_as_in_the_table() {
    let table = [2520, 1260, 840, 630, 504, 420, 360, 315, 280, 252];
    for p in [0, 1, 7, 1000, 0xFF_FFFF, 0xFFFF_FFFF] {
        for count in 1..=10 {
            assert_eq!(share(p, count) * count as u64, p * 2520);
            assert_eq!(share(p, count), p * table[count - 1]);
        }
    }
}

/// Damaged plans of any version get the row of their first flaw.
fn first_row(rng: &mut Rng, size: Size, number: u64) {
    for _ in 0..number {
        let mut plan = draft(rng, size);
        plan.records.push(Record {
            popularity: 7,
            least: 1,
            spread: 1,
            pair: 0,
        });
        let plan = roomy(&plan);
        let rows = match size.version {
            4 => &PLAN_ROWS[..8],
            _ => &ROWS_BEFORE_FEEDS[..7],
        };
        for (at, a) in rows.iter().enumerate() {
            let flaw = flawed(rng, plan.bytes(), *a);
            assert_eq!(read(&flaw), Err(*a));
            for b in &rows[at + 1..] {
                let flaw = flawed(rng, plan.bytes(), *b);
                assert_eq!(read(&flawed(rng, flaw, *a)), Err(*a));
            }
        }
        for a in [8, 9, 17] {
            if a < 17 || size.version >= 2 {
                assert_eq!(read(&flawed(rng, plan.bytes(), a)), Err(a));
            }
        }
        if size.version == 4 {
            before_23(rng, &plan.bytes());
        }
        limits_in_order(rng, size);
    }
}

/// Plans at fault with rows 8 and 9 in both orders, and with a limit of row 9, 10 or 11; in version 4 row 23 is first.
fn limits_in_order(rng: &mut Rng, size: Size) {
    for (first, row) in [(true, 8), (false, 9)] {
        if let Some(two) = two_records(rng, size, first) {
            assert_eq!(read(&two.bytes()), Err(row));
        }
    }
    if let Some(over) = over_budget(rng, size) {
        assert_eq!(read(&over.bytes()), Err(10));
    }
    if let Some(over) = over_feeds(rng, size) {
        assert_eq!(read(&over.bytes()), Err(9));
    }
    let [above, both] = match size.version {
        4 => [23, 23],
        _ => [11, 10],
    };
    assert_eq!(read(&over_capacity(rng, size).bytes()), Err(above));
    assert_eq!(read(&over_both(rng, size).bytes()), Err(both));
}

/// Row 23, alone and after each of the rows before it, of a plan of version 4 that has a block.
fn before_23(rng: &mut Rng, good: &[u8]) {
    let over = flawed(rng, good.to_vec(), 23);
    assert_eq!(read(&over), Err(23));
    for row in PLAN_ROWS.into_iter().take_while(|row| *row != 23) {
        assert_eq!(read(&flawed(rng, over.clone(), row)), Err(row));
    }
}

#[test]
fn damaged_plans_get_the_first_row() {
    let mut rng = Rng::new(16);
    first_row(&mut rng, SMALL, 200);
    first_row(&mut rng, SMALL.paired(), 200);
    first_row(&mut rng, SMALL.wide(), 200);
    first_row(&mut rng, SMALL.fed(), 200);
}

/// Row 22 in each of its ways is met by the flaws: no feed, too few or too many to divide the racks. And for several racks
/// the plans have one feed, a feed for each rack, and numbers between.
#[test]
fn feeds_of_all_kinds() {
    let mut rng = Rng::new(36);
    let (mut refused, mut accepted) = ([0; 3], [0; 3]);
    for _ in 0..1000 {
        let good = draft(&mut rng, SMALL.fed());
        let racks = good.racks;
        match good.feed_byte {
            _ if racks == 1 => {}
            1 => accepted[0] += 1,
            feeds => accepted[1 + usize::from(feeds == racks)] += 1,
        }
        let bytes = flawed(&mut rng, good.bytes(), 22);
        assert_eq!(read(&bytes), Err(22));
        match bytes[7] {
            0 => refused[0] += 1,
            feeds => refused[1 + usize::from(feeds > racks)] += 1,
        }
    }
    assert!(refused.iter().all(|n| *n > 100), "{refused:?}");
    assert!(accepted.iter().all(|n| *n > 100), "{accepted:?}");
}

/// The first 15 bytes of a plan of version 4 get 7, unless one of the rows before 6 refuses them.
#[test]
fn fifteen_bytes_of_version_4() {
    let mut rng = Rng::new(37);
    for _ in 0..2000 {
        let good = draft(&mut rng, SMALL.fed()).bytes();
        assert_eq!(read(&cut_short(&mut rng, good.clone())), Err(7));
        for row in [2, 3, 4, 22, 5] {
            let flaw = flawed(&mut rng, good.clone(), row);
            assert_eq!(read(&cut_short(&mut rng, flaw)), Err(row));
        }
        for row in [6, 7, 8, 9, 17, 23, 10] {
            let flaw = flawed(&mut rng, good.clone(), row);
            assert_eq!(read(&cut_short(&mut rng, flaw)), Err(7));
        }
    }
}

/// Row 17 in each of its ways: alone, after a flaw of 8 or 9 at any block, before one of 10 or 11, and of 23.
#[test]
fn mispaired_plans_get_row_17() {
    let mut rng = Rng::new(20);
    for (how, size) in MISPAIRINGS
        .into_iter()
        .flat_map(|how| [SMALL.paired(), SMALL.wide(), SMALL.fed()].map(|size| (how, size)))
    {
        let mut number = 0;
        while number < 60 {
            let Some(alone) = mispaired(&mut rng, size, how) else {
                continue;
            };
            number += 1;
            assert_eq!(read(&alone.bytes()), Err(17), "{how:?} {alone:?}");
            assert!(alone.unpaired().plan().is_some());
            for row in [8, 9] {
                let two = with_block_flaw(&mut rng, alone.clone(), row);
                assert_eq!(read(&two.bytes()), Err(row), "{how:?} {two:?}");
            }
            let later = match size.version {
                4 => &[(10, 10), (11, 23), (23, 23)][..],
                _ => &[(10, 10), (11, 11)],
            };
            for (flaw, row) in later {
                let two = with_sum_flaw(&mut rng, alone.clone(), *flaw);
                assert_eq!(read(&two.bytes()), Err(17), "{how:?} {two:?}");
                assert_eq!(read(&two.unpaired().bytes()), Err(*row));
            }
        }
    }
}

#[test]
fn damaged_placements_get_the_first_row() {
    let mut rng = Rng::new(17);
    let mut found = [0; 32];
    for plan in plans_of_all(7, 150, SMALL) {
        for set in 1..32_usize {
            let rows = [0, 1, 2, 3, 4].map(|r| set >> r & 1 == 1);
            let Some(words) = broken(&mut rng, &plan, rows) else {
                continue;
            };
            let row = ROWS[set.trailing_zeros() as usize];
            assert_eq!(check(&plan, &words), Err(row));
            found[set] += 1;
        }
    }
    assert!(found[1..].iter().all(|n| *n > 5), "{found:?}");
}

/// The fields of an accepted plan, written in this version.
fn written(plan: &Plan, version: u16) -> Vec<u8> {
    let record = |b: &Block| Record {
        popularity: b.popularity as u32,
        least: b.least as u8,
        spread: b.spread as u8,
        pair: b.pair,
    };
    let draft = Draft {
        version,
        racks: plan.racks as u8,
        per_rack: plan.per_rack as u8,
        feed_byte: plan.feeds as u8,
        capacity: plan.capacity as u16,
        budget: plan.budget as u32,
        records: plan.blocks.iter().map(record).collect(),
    };
    draft.bytes()
}

/// An accepted plan of version 1 or 2 and its conversion: the fields are the same; counts, placement, runs and listing
/// are, too, unless some count of the conversion is above 8, and so on at most 8 machines.
#[test]
fn a_conversion_reads_as_the_same_plan() {
    let mut rng = Rng::new(22);
    let mut others = 0;
    for (size, number) in [(TINY, 150), (SMALL, 150), (MEDIUM, 20)] {
        for k in 0..2 * number {
            let version = 1 + k % 2;
            let draft = draft(&mut rng, Size { version, ..size });
            let old = draft.bytes();
            let new = converted(&old).expect("accepted");
            let plan = read(&old).expect("accepted");
            let wide = read(&new).expect("accepted");
            let version_3 = Plan {
                version: 3,
                ..plan.clone()
            };
            assert_eq!(wide, version_3);
            assert_eq!(new, draft.wide().bytes());
            assert_eq!(new, written(&plan, 3));
            assert_eq!(old, written(&plan, version));
            if chosen(&wide).iter().all(|c| *c <= 8) {
                same_answers(&mut rng, &plan, &old, &new);
            } else {
                assert!(plan.machines() > 8);
                assert_ne!(chosen(&wide), chosen(&plan));
                others += 1;
            }
        }
    }
    assert!(others > 10, "{others}");
}

/// Counts, first placement, a run from any placement and the listing are the same for both.
fn same_answers(rng: &mut Rng, plan: &Plan, old: &[u8], new: &[u8]) {
    let other = read(new).expect("accepted");
    assert_eq!(chosen(&other), chosen(plan));
    assert_eq!(first(&other), first(plan));
    let mut words = [leaning(rng, plan), Vec::new()];
    words[1] = words[0].clone();
    let budget = rng.below(9) as u32;
    let ends = [
        enter_run(old, &mut words[0], budget),
        enter_run(new, &mut words[1], budget),
    ];
    assert_eq!(ends[0], ends[1]);
    assert_eq!(words[0], words[1]);
    assert_eq!(text(old, 1000), text(new, 1000));
}

/// Damaged bytes of any version: the converter gives the plan's own row, and 3 for versions 3 and 4 before 4.
#[test]
fn a_conversion_is_refused_as_the_plan() {
    let mut rng = Rng::new(23);
    for k in 0..8000 {
        let version = 1 + k % 4;
        let size = Size { version, ..SMALL };
        let row = any_row(&mut rng, version);
        let good = draft(&mut rng, size).bytes();
        let once = flawed(&mut rng, good, row);
        let row = read(&once).err();
        let expected = match row {
            Some(1..=3) => row,
            _ if version >= 3 => Some(3),
            _ => row,
        };
        assert_eq!(converted(&once).err(), expected);
    }
}

/// A plan of version 4 with a feed for each rack answers as the same plan in version 3. So do both where every spread is
/// one, whatever the feeds.
#[test]
fn a_feed_for_each_rack_is_version_3() {
    let mut rng = Rng::new(38);
    for (size, number) in [(TINY, 150), (SMALL, 150), (MEDIUM, 20)] {
        for _ in 0..number {
            let mut wide = draft(&mut rng, size.wide());
            let each = wide.fed(wide.racks);
            assert_eq!(each.bytes(), written(&each.plan().expect("accepted"), 4));
            same_everywhere(&mut rng, &wide, &each);
            for record in &mut wide.records {
                record.spread = 1;
            }
            for feeds in divisors(wide.racks) {
                same_everywhere(&mut rng, &wide, &wide.fed(feeds));
            }
        }
    }
}

/// Both plans have the same counts, first placement, runs and listing, and the same check of placements of all kinds.
fn same_everywhere(rng: &mut Rng, one: &Draft, other: &Draft) {
    let (plan, bytes) = (one.plan().expect("accepted"), one.bytes());
    same_answers(rng, &plan, &bytes, &other.bytes());
    let set = rng.from_to(1, 31);
    let rows = [0, 1, 2, 3, 4].map(|r| set >> r & 1 == 1);
    if let Some(words) = broken(rng, &plan, rows) {
        let other = other.plan().expect("accepted");
        assert_eq!(check(&plan, &words), check(&other, &words));
    }
}

/// A budget above M × C in versions 1 to 3: all calls answer as with M × C, and so do those of version 4 with M × C and a
/// feed for each rack.
#[test]
fn a_budget_above_the_places_is_cut() {
    let mut rng = Rng::new(44);
    let mut bound = [0; 3];
    for (size, number) in [(TINY, 300), (SMALL, 300), (MEDIUM, 20)] {
        for (k, size) in [size, size.paired(), size.wide()].into_iter().enumerate() {
            for _ in 0..number {
                let draft = near_places(&mut rng, size);
                if u64::from(draft.budget) <= draft.places() {
                    continue;
                }
                let cut = draft.with_budget(draft.places() as u32);
                same_everywhere(&mut rng, &draft, &cut);
                if size.version == 3 {
                    same_everywhere(&mut rng, &draft, &draft.fed(draft.racks));
                }
                let plan = draft.plan().expect("accepted");
                let endless = Plan {
                    capacity: 1 << 40,
                    ..plan.clone()
                };
                bound[k] += u64::from(chosen(&endless) != chosen(&plan));
            }
        }
    }
    assert!(bound.iter().all(|n| *n > 20), "{bound:?}");
}

/// An accepted plan of version 4 with a feed for each rack answers as the same plan in version 3. Conversely the version 4
/// plan with the fields of an accepted one of version 3 answers alike, or 23 refuses it: exactly if the budget is above
/// M × C.
#[test]
fn twins_but_for_the_budget() {
    let mut rng = Rng::new(45);
    let (mut alike, mut refused) = (0, [0; 24]);
    for (size, number) in [(TINY, 300), (SMALL, 300), (MEDIUM, 20)] {
        for k in 0..2 * number {
            let size = [size.wide(), size.fed()][k % 2];
            let drawn = near_places(&mut rng, size);
            let fed = drawn.fed(drawn.racks).with_budget(drawn.budget);
            let wide = drawn.wide();
            let rows = [&wide, &fed].map(|draft| read(&draft.bytes()).err());
            let over = u64::from(drawn.budget) > drawn.places();
            match rows {
                [None, None] => {
                    assert!(!over);
                    same_everywhere(&mut rng, &wide, &fed);
                    alike += 1;
                }
                [row, Some(row_4)] => {
                    assert_eq!(row_4 == 23, over);
                    assert!(if over {
                        row.is_none()
                    } else {
                        row == Some(row_4)
                    });
                    refused[usize::from(row_4)] += 1;
                }
                _ => panic!("{wide:?} is refused, in version 4 it is not"),
            }
        }
    }
    assert!(alike > 200 && refused[23] > 200 && refused[10] > 20);
}

/// The feeds of a block, counted as the document says: machine m is in rack m div S, rack r hangs on feed r mod F.
fn feeds_by_words(plan: &Plan, word: u64) -> usize {
    let held = (0..plan.machines()).filter(|m| word >> m & 1 == 1);
    let feeds: std::collections::BTreeSet<usize> =
        held.map(|m| m / plan.per_rack % plan.feeds).collect();
    feeds.len()
}

/// A word with so many copies, on any machines.
fn any_word(rng: &mut Rng, machines: usize, copies: usize) -> u64 {
    let mut word = 0;
    while copies_of(word) < copies {
        word |= 1 << rng.below(machines as u64);
    }
    word
}

/// Row 15 of any words with the chosen counts: some block is on fewer feeds than its spread. Among them are words for
/// which the racks would suffice.
#[test]
fn row_15_counts_feeds() {
    let mut rng = Rng::new(39);
    let (mut refused, mut by_racks) = (0, 0);
    for plan in stretched_plans(40, 4000, SMALL) {
        let mut words = first(&plan);
        for word in &mut words {
            if rng.once_in(4) {
                *word = any_word(&mut rng, plan.machines(), copies_of(*word));
            }
        }
        let too_few = |plan: &Plan| {
            let mut blocks = plan.blocks.iter().zip(&words);
            blocks.any(|(b, w)| feeds_by_words(plan, *w) < b.spread)
        };
        let row = check(&plan, &words).err();
        assert_eq!(row == Some(15), too_few(&plan));
        let by_rack = Plan {
            feeds: plan.racks,
            ..plan.clone()
        };
        refused += u64::from(row == Some(15));
        by_racks += u64::from(row == Some(15) && !too_few(&by_rack));
    }
    assert!(refused > 200 && by_racks > 100, "{refused} {by_racks}");
}

/// Racks of S machines as R × S racks of one machine on R feeds: the machines of a rack become the racks of a feed.
fn rack_as_feed(draft: &Draft) -> Draft {
    let mut fed = draft.fed(draft.racks);
    (fed.racks, fed.per_rack) = (draft.racks * draft.per_rack, 1);
    fed
}

/// Machine m after that: the racks of a feed lie as far apart as there are feeds.
fn renumbered(plan: &Plan, m: usize) -> usize {
    m % plan.per_rack * plan.racks + m / plan.per_rack
}

/// A plan of version 3 and the same one with feeds for racks and racks for machines: counts, the first placement, what
/// is lawful, loads and rest are the same but for the machines' numbers.
#[test]
fn feeds_stand_for_racks() {
    let mut rng = Rng::new(41);
    let mut several = 0;
    for (size, number) in [(TINY, 300), (SMALL, 300), (MEDIUM, 20)] {
        for _ in 0..number {
            let draft = draft(&mut rng, size.wide());
            let plan = draft.plan().expect("accepted");
            let fed = rack_as_feed(&draft).plan().expect("accepted");
            let moved = |word: &u64| {
                let held = (0..plan.machines()).filter(|m| holds(*word, *m));
                held.fold(0, |w, m| w | 1 << renumbered(&plan, m))
            };
            let all = |words: &[u64]| -> Vec<u64> { words.iter().map(moved).collect() };
            several += u64::from(fed.feeds > 1 && fed.feeds < fed.racks);
            assert_eq!(chosen(&fed), chosen(&plan));
            assert_eq!(first(&fed), all(&first(&plan)));
            let (_, _, rest) = run(&plan, &first(&plan), u32::MAX);
            let set = rng.from_to(1, 15);
            let rows = [0, 1, 2, 3, 4].map(|r| set << 1 >> r & 1 == 1);
            let damaged = broken(&mut rng, &plan, rows).unwrap_or_default();
            for words in [leaning(&mut rng, &plan), rest] {
                assert!(feasible(&fed, &all(&words)));
                assert_eq!(
                    step_plain(&fed, &all(&words)).is_none(),
                    step_plain(&plan, &words).is_none()
                );
                let (before, after) = (loads(&plan, &words), loads(&fed, &all(&words)));
                for (m, load) in before.iter().enumerate() {
                    assert_eq!(after[renumbered(&plan, m)], *load);
                }
            }
            assert_eq!(check(&fed, &all(&damaged)), check(&plan, &damaged));
        }
    }
    assert!(several > 100, "{several}");
}

/// Among the steps to rest on fewer feeds than racks are all kinds, and moves between racks of one feed; beside them are
/// moves and exchanges that come first by rack and that only the feeds forbid.
#[test]
fn random_steps_meet_the_feeds() {
    let mut rng = Rng::new(42);
    let (mut kinds, mut one_feed, mut forbidden) = ([0; 4], 0, [0; 2]);
    for plan in stretched_plans(43, 600, SMALL) {
        if plan.feeds == plan.racks {
            continue;
        }
        let by_rack = Plan {
            feeds: plan.racks,
            ..plan.clone()
        };
        let mut words = leaning(&mut rng, &plan);
        while let Some(step) = step_plain(&plan, &words) {
            kinds[step.kind as usize] += 1;
            let between = plan.rack_of(step.m) != plan.rack_of(step.n);
            one_feed += u64::from(between && plan.feed_of(step.m) == plan.feed_of(step.n));
            let other = step_plain(&by_rack, &words).expect("a step by rack, too");
            if other != step {
                assert!(other.allowed(&by_rack, &words) && !other.allowed(&plan, &words));
                forbidden[usize::from(other.kind.exchanges())] += 1;
            }
            words = step.taken(&words);
        }
    }
    assert!(kinds.iter().all(|n| *n > 100), "{kinds:?}");
    assert!(one_feed > 100, "{one_feed}");
    assert!(forbidden.iter().all(|n| *n > 20), "{forbidden:?}");
}
