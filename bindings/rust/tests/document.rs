//! The specification's own examples, and the repository's stored ones.

use bpl::{Call, Entry, Reply, Report, Request, RunEnd, Step};
use placement_reference::gen::Draft;
use placement_reference::samples;
use std::fs;
use std::path::PathBuf;

/// Plan H: counts 4, 2, 1; words 15, 5, 2; the listing's five lines.
#[test]
fn plan_h() {
    let bytes = samples::h().bytes();
    let (mut counts, mut words) = ([0; 3], [0; 3]);
    assert_eq!(bpl::plan(&bytes), Ok(()));
    assert_eq!(bpl::counts(&bytes, &mut counts), Ok(()));
    assert_eq!(counts, [4, 2, 1]);
    assert_eq!(bpl::first(&bytes, &mut words), Ok(()));
    assert_eq!(words, [15, 5, 2]);
    assert_eq!(bpl::check(&bytes, &words), Ok(()));
    let report = Report {
        max_load: 15_120,
        min_load: 7560,
        total_load: 50_400,
        max_share: 7560,
    };
    assert_eq!(bpl::report(&bytes, &words), Ok(report));
    assert_eq!(bpl::step(&bytes, &mut words), Ok(None));
    let listing = "plan 2 2 3\nblock 0 4 7560 0 1 2 3\nblock 1 2 7560 0 2\nblock 2 1 5040 1\nrest 0 15120 7560 50400 7560\n";
    assert_eq!(bpl::listing(&bytes, 100_000).as_deref(), Ok(listing));
}

/// Plan Y: two moves, then rest; with step limit 1 `spent`.
#[test]
fn plan_y() {
    let bytes = samples::y().bytes();
    let mut words = [0; 3];
    assert_eq!(bpl::first(&bytes, &mut words), Ok(()));
    assert_eq!(words, [1, 2, 1]);
    let mut spent = words;
    assert_eq!(bpl::run(&bytes, &mut spent, 1), Ok(RunEnd::Spent(1)));
    let first = Step::Move { m: 0, n: 1, i: 0 };
    assert_eq!(bpl::step(&bytes, &mut words), Ok(Some(first)));
    assert_eq!(words, spent);
    let second = Step::Move { m: 1, n: 0, i: 1 };
    assert_eq!(bpl::step(&bytes, &mut words), Ok(Some(second)));
    assert_eq!(bpl::step(&bytes, &mut words), Ok(None));
}

/// Plan Z: two swaps, then rest with words 1, 2, 1, 2.
#[test]
fn plan_z() {
    let bytes = samples::z().bytes();
    let mut words = [1, 1, 2, 2];
    let first = Step::Swap {
        m: 0,
        n: 1,
        i: 0,
        j: 2,
    };
    assert_eq!(bpl::step(&bytes, &mut words), Ok(Some(first)));
    let second = Step::Swap {
        m: 1,
        n: 0,
        i: 0,
        j: 1,
    };
    assert_eq!(bpl::step(&bytes, &mut words), Ok(Some(second)));
    assert_eq!(bpl::run(&bytes, &mut words, 9), Ok(RunEnd::Rest(0)));
    assert_eq!(words, [1, 2, 1, 2]);
}

/// Plan K, with a pair: counts 2, 2, 1, 1; words 5, 10, 1, 4; the listing.
#[test]
fn plan_k() {
    let bytes = samples::k().bytes();
    let (mut counts, mut words) = ([0; 4], [0; 4]);
    assert_eq!(bpl::counts(&bytes, &mut counts), Ok(()));
    assert_eq!(counts, [2, 2, 1, 1]);
    assert_eq!(bpl::first(&bytes, &mut words), Ok(()));
    assert_eq!(words, [5, 10, 1, 4]);
    let listing = bpl::listing(&bytes, 100_000);
    assert_eq!(listing.as_deref(), Ok(samples::K_LISTING));
}

/// Plans H and K converted: pair bytes 0 for H, K's own for K, and the same listings. Bytes behind the plan stay.
#[test]
fn plans_converted() {
    let mut buffer = [0xEE; 50];
    assert_eq!(bpl::convert(&samples::H, &mut buffer), Ok(36));
    assert_eq!(buffer[..36], samples::H_3);
    assert_eq!(buffer[36..], [0xEE; 14]);
    let listing = bpl::listing(&samples::H_3, 100_000);
    assert_eq!(listing.as_deref(), Ok(samples::H_LISTING));

    assert_eq!(bpl::convert(&samples::K, &mut buffer), Ok(43));
    assert_eq!(buffer[..43], samples::K_3);
    let listing = bpl::listing(&samples::K_3, 100_000);
    assert_eq!(listing.as_deref(), Ok(samples::K_LISTING));
}

/// The converter's refusals: versions 3 and 4, and a buffer one byte too short. Nothing is written.
#[test]
fn conversions_refused() {
    let mut buffer = [0xEE; 36];
    let again = bpl::convert(&samples::H_3, &mut buffer).unwrap_err();
    assert_eq!(again.number(), 3);
    let on_feeds = bpl::convert(&samples::H_4, &mut buffer).unwrap_err();
    assert_eq!(on_feeds.number(), 3);
    let short = bpl::convert(&samples::H, &mut buffer[..35]).unwrap_err();
    assert_eq!(
        short.to_string(),
        "refused 12: a lent buffer is too short for the plan's blocks"
    );
    assert_eq!(buffer, [0xEE; 36]);
}

/// The largest popularity of version 3, of one block on one machine: its share has 44 bits.
#[test]
fn widest_popularity() {
    let mut bytes = vec![0x42, 0x50, 0x4C, 0, 3, 1, 1, 0, 1, 0, 0, 0, 1, 0, 1];
    bytes.extend([0xFF, 0xFF, 0xFF, 0xFF, 1, 1, 0]);
    let share = 2520 * u64::from(u32::MAX);
    let listing =
        format!("plan 1 1 1\nblock 0 1 {share} 0\nrest 0 {share} {share} {share} {share}\n");
    assert_eq!(bpl::listing(&bytes, 9), Ok(listing));
    assert_eq!(
        bpl::report(&bytes, &[1]).map(|report| report.max_load),
        Ok(share)
    );
}

/// The plan's bytes in this version.
fn in_version(version: u16, draft: &Draft) -> Vec<u8> {
    let draft = Draft {
        version,
        ..draft.clone()
    };
    draft.bytes()
}

/// What is said of the plan in this version: nothing, or the number of the refusal.
fn judged(version: u16, draft: &Draft) -> Result<(), u8> {
    bpl::plan(&in_version(version, draft)).map_err(bpl::Refusal::number)
}

/// Row 8 by version: eight least copies at most, in versions 3 and 4 ten.
#[test]
fn least_copies_by_version() {
    for (least, rows) in [
        (8, [Ok(()), Ok(()), Ok(()), Ok(())]),
        (9, [Err(8), Err(8), Ok(()), Ok(())]),
        (10, [Err(8), Err(8), Ok(()), Ok(())]),
        (11, [Err(8), Err(8), Err(8), Err(8)]),
    ] {
        let draft = samples::plan_of((4, 3), 1, 12, &[(1, least, 1)]);
        let said = [1, 2, 3, 4].map(|version| judged(version, &draft));
        assert_eq!(said, rows, "{least} least copies");
    }
}

/// Row 8 of a pair by version, on so many machines in one rack: the smaller of that limit and half of them.
#[test]
fn least_copies_of_a_pair() {
    for (machines, least, rows) in [
        (20, 8, [Ok(()), Ok(()), Ok(())]),
        (20, 9, [Err(8), Ok(()), Ok(())]),
        (20, 10, [Err(8), Ok(()), Ok(())]),
        (22, 11, [Err(8), Err(8), Err(8)]),
        (19, 9, [Err(8), Ok(()), Ok(())]),
        (19, 10, [Err(8), Err(8), Err(8)]),
        (8, 4, [Ok(()), Ok(()), Ok(())]),
        (8, 5, [Err(8), Err(8), Err(8)]),
    ] {
        let pair = [(1, least, 1, 1), (1, least, 1, 0)];
        let draft = samples::paired_plan((1, machines), 3, 22, &pair);
        let said = [2, 3, 4].map(|version| judged(version, &draft));
        assert_eq!(said, rows, "{least} least copies of a pair, M {machines}");
    }
}

/// A block read once, on twelve machines with room for it: eight copies, in versions 3 and 4 ten, and whole shares.
#[test]
fn ten_copies() {
    let draft = samples::plan_of((3, 4), 1, 12, &[(1, 1, 1)]);
    for (version, expected) in [
        (1, "block 0 8 315 0 1 2 4 5 6 8 9\nrest 0 315 0 2520 315\n"),
        (2, "block 0 8 315 0 1 2 4 5 6 8 9\nrest 0 315 0 2520 315\n"),
        (
            3,
            "block 0 10 252 0 1 2 3 4 5 6 8 9 10\nrest 0 252 0 2520 252\n",
        ),
        (
            4,
            "block 0 10 252 0 1 2 3 4 5 6 8 9 10\nrest 0 252 0 2520 252\n",
        ),
    ] {
        let listing = bpl::listing(&in_version(version, &draft), 9);
        assert_eq!(listing, Ok(format!("plan 3 4 1\n{expected}")));
    }
}

/// A block on nine machines that hold one copy each has eight copies, and nine where the plan is converted.
#[test]
fn one_copy_more_when_converted() {
    let old = samples::plan_of((3, 3), 1, 9, &[(5, 1, 1)]).bytes();
    let mut new = [0; 22];
    assert_eq!(bpl::convert(&old, &mut new), Ok(22));
    assert_eq!(new[5..15], old[5..15]);
    assert_eq!(new[15..], [0, 0, 0, 5, 1, 1, 0]);
    for (bytes, count, word, max_share) in [
        (&old[..], 8, 0b011_111_111, 1575),
        (&new[..], 9, 0b111_111_111, 1400),
    ] {
        let (mut counts, mut words) = ([0], [0]);
        assert_eq!(bpl::counts(bytes, &mut counts), Ok(()));
        assert_eq!(bpl::first(bytes, &mut words), Ok(()));
        assert_eq!((counts, words), ([count], [word]));
        let report = bpl::report(bytes, &words);
        assert_eq!(report.map(|report| report.max_share), Ok(max_share));
    }
}

/// A plan's row, if one refuses it.
fn row_of(bytes: &[u8]) -> u8 {
    bpl::plan(bytes).map_or_else(bpl::Refusal::number, |()| 0)
}

/// Plan H in version 4 with a feed for each of its two racks: counts, placement, report and listing are plan H's.
#[test]
fn plan_h_on_two_feeds() {
    let (mut counts, mut words) = ([0; 3], [0; 3]);
    assert_eq!(bpl::counts(&samples::H_4, &mut counts), Ok(()));
    assert_eq!(counts, [4, 2, 1]);
    assert_eq!(bpl::first(&samples::H_4, &mut words), Ok(()));
    assert_eq!(words, [15, 5, 2]);
    assert_eq!(bpl::check(&samples::H_4, &words), Ok(()));
    assert_eq!(
        bpl::report(&samples::H_4, &words),
        bpl::report(&samples::H, &words)
    );
    assert_eq!(bpl::step(&samples::H_4, &mut words), Ok(None));
    let listing = bpl::listing(&samples::H_4, 100_000);
    assert_eq!(listing.as_deref(), Ok(samples::H_LISTING));
    let listing = bpl::listing(&samples::K_4, 100_000);
    assert_eq!(listing.as_deref(), Ok(samples::K_LISTING));
}

/// Four racks of two machines on two feeds: counts, first placement, reports before and after the run, and its steps.
/// Words whose block 0 lies in racks 0 and 2, both on the first feed, get 15, and pass with a feed for each rack.
#[test]
fn plan_on_two_feeds() {
    let bytes = samples::feeds().bytes();
    let (mut counts, mut words) = ([0; 6], [0; 6]);
    assert_eq!(bpl::counts(&bytes, &mut counts), Ok(()));
    assert_eq!(counts, [2, 2, 2, 3, 1, 3]);
    assert_eq!(bpl::first(&bytes, &mut words), Ok(()));
    assert_eq!(words, [5, 80, 10, 161, 4, 82]);
    let report = |max_load, min_load| Report {
        max_load,
        min_load,
        total_load: 209_160,
        max_share: 21_000,
    };
    assert_eq!(bpl::report(&bytes, &words), Ok(report(36_120, 15_120)));
    let near = [17, 68, 10, 161, 4, 82];
    assert_eq!(bpl::check(&bytes, &near).unwrap_err().number(), 15);
    let by_rack = samples::feeds().fed(4).bytes();
    assert_eq!(bpl::check(&by_rack, &near), Ok(()));
    let steps = [0; 4].map(|_| bpl::step(&bytes, &mut words).expect("a placement"));
    assert_eq!(
        steps,
        [
            Some(Step::Move { m: 4, n: 5, i: 1 }),
            Some(Step::Move { m: 6, n: 7, i: 1 }),
            Some(Step::RackMove { m: 7, n: 3, i: 1 }),
            None
        ]
    );
    assert_eq!(words, [5, 40, 10, 161, 4, 82]);
    assert_eq!(bpl::report(&bytes, &words), Ok(report(36_120, 15_960)));
}

/// A step between racks is a `RackMove` also where both hang on one feed.
#[test]
fn step_on_one_feed() {
    let bytes = samples::two_feeds().bytes();
    let mut words = samples::TWO_FEEDS_WORDS;
    let step = Step::RackMove { m: 0, n: 2, i: 0 };
    assert_eq!(bpl::step(&bytes, &mut words), Ok(Some(step)));
    assert_eq!(words, [6, 3]);
}

/// A step that would leave a block on too few feeds is none; with a feed for each rack it is the next one.
#[test]
fn steps_that_feeds_forbid() {
    let [m, n, i, j] = [0, 3, 0, 7];
    for (draft, before, next) in [
        (
            samples::no_move_for_feed(),
            &samples::NO_MOVE_WORDS[..],
            Step::RackMove { m, n, i },
        ),
        (
            samples::no_swap_for_feed(),
            &samples::NO_SWAP_WORDS,
            Step::RackSwap { m, n, i, j },
        ),
    ] {
        let mut words = before.to_vec();
        assert_eq!(bpl::step(&draft.bytes(), &mut words), Ok(None));
        let by_rack = draft.fed(draft.racks).bytes();
        assert_eq!(bpl::step(&by_rack, &mut words), Ok(Some(next)));
        let near = bpl::check(&draft.bytes(), &words).unwrap_err();
        assert_eq!(near.number(), 15);
    }
}

/// Row 22, of plan H on so many feeds; and row 9, which compares with feeds: with one, block 0 may not have spread 2.
#[test]
fn feeds_of_plan_h() {
    let on_feeds = |feeds| row_of(&samples::h().fed(feeds).bytes());
    assert_eq!([0, 1, 2, 3, 4, 255].map(on_feeds), [22, 9, 0, 22, 22, 22]);
    let uneven = bpl::plan(&samples::h().fed(3).bytes()).unwrap_err();
    assert_eq!(
        uneven.to_string(),
        "refused 22: the number of feeds is 0 or does not divide the number of racks"
    );
}

/// Row 22 stands after 4 and before 5, where all that come later hold as well. Versions 1 to 3 have no F.
#[test]
fn order_of_row_22() {
    let header = |version, racks, feeds, capacity| {
        let mut bytes = samples::H_4;
        (bytes[4], bytes[5], bytes[7], bytes[9]) = (version, racks, feeds, capacity);
        row_of(&bytes)
    };
    assert_eq!(header(0, 0, 0, 0), 3);
    assert_eq!(header(5, 0, 0, 0), 3);
    assert_eq!(header(4, 0, 0, 0), 4);
    assert_eq!(header(4, 33, 0, 0), 4);
    assert_eq!(header(4, 2, 0, 0), 22);
    assert_eq!(header(4, 2, 3, 0), 22);
    assert_eq!(header(4, 2, 2, 0), 5);
    assert_eq!(header(4, 2, 1, 3), 9);
    assert_eq!(header(4, 2, 2, 3), 0);
    for old in [samples::H.to_vec(), samples::H_3.to_vec()] {
        let without_capacity = [&old[..7], &[0, 0], &old[9..]].concat();
        assert_eq!(row_of(&without_capacity), 5);
    }
}

/// Row 23, of plan H with so many copies in its budget: in version 4 it has at most 12, and the versions before it use no
/// more of a larger one.
#[test]
fn budgets_of_plan_h() {
    let on_two_feeds = |budget| row_of(&samples::h().fed(2).with_budget(budget).bytes());
    let budgets = [11, 12, 13, 1 << 16, u32::MAX];
    assert_eq!(budgets.map(on_two_feeds), [0, 0, 23, 23, 23]);
    let unusable = bpl::plan(&samples::h().fed(2).with_budget(13).bytes()).unwrap_err();
    assert_eq!(
        unusable.to_string(),
        "refused 23: the budget, in version 4, is above what the machines hold"
    );
    for old in [samples::h(), samples::h().unpaired(), samples::h().wide()] {
        let all = bpl::listing(&old.with_budget(12).bytes(), 9).expect("an accepted plan");
        for budget in [13, 1 << 16, u32::MAX] {
            let listing = bpl::listing(&old.with_budget(budget).bytes(), 9);
            assert_eq!(listing.as_ref(), Ok(&all));
        }
    }
}

/// A hall with four places and a budget of nine: counts 3, 1, and no machine without a copy, in versions 1 to 3. Version
/// 4 writes nothing, and makes the same of a budget of four.
#[test]
fn budget_above_the_places() {
    let old = samples::over_places();
    let version_4 = old.fed(2);
    for draft in [&old, &old.unpaired(), &old.wide(), &version_4] {
        let (mut counts, mut words) = ([0; 2], [0; 2]);
        assert_eq!(bpl::counts(&draft.bytes(), &mut counts), Ok(()));
        assert_eq!(bpl::first(&draft.bytes(), &mut words), Ok(()));
        assert_eq!((counts, words), ([3, 1], [0b0111, 0b1000]));
    }
    let mut words = [7; 2];
    let unusable = version_4.with_budget(old.budget).bytes();
    let refused = bpl::first(&unusable, &mut words).unwrap_err();
    assert_eq!((refused.number(), words), (23, [7; 2]));
}

/// Row 23 stands after 17 and before 10 and 11, where all that come later hold as well.
#[test]
fn order_of_row_23() {
    let pair = [(1, 1, 1, 1), (1, 1, 1, 0), (1, 1, 1, 0), (1, 1, 1, 0)];
    let two_places = samples::paired_plan((1, 2), 1, 0, &pair).wide();
    let row = |draft: &Draft, budget: u32, changes: &[(usize, u8)]| {
        let mut bytes = draft.with_budget(budget).bytes();
        for (at, byte) in changes {
            bytes[*at] = *byte;
        }
        row_of(&bytes)
    };
    let latest = two_places.fed(1);
    assert_eq!(row(&latest, 3, &[(7, 2), (9, 0), (20, 0)]), 22);
    assert_eq!(row(&latest, 3, &[(20, 0), (22, 2)]), 8);
    assert_eq!(row(&latest, 3, &[(42, 0), (22, 2)]), 9);
    assert_eq!(row(&latest, 3, &[(22, 2)]), 17);
    assert_eq!(row(&latest, 3, &[]), 23);
    assert_eq!(row(&latest, 4, &[]), 23);
    assert_eq!(row(&latest, 2, &[]), 10);
    assert_eq!(row(&two_places, 3, &[]), 10);
    assert_eq!(row(&two_places, 4, &[]), 11);
}

/// A version 4 file of 15 bytes gets 7, whatever its last byte would say of B alone, but 4, 22 and 5 come first.
#[test]
fn fifteen_bytes_of_version_4() {
    let mut cut = samples::H_4;
    for last in 0..=255 {
        cut[14] = last;
        assert_eq!(row_of(&cut[..15]), 7, "{last}");
    }
    for (at, byte, row) in [
        (0, 0, 2),
        (4, 5, 3),
        (5, 0, 4),
        (7, 0, 22),
        (7, 3, 22),
        (9, 0, 5),
    ] {
        let mut wrong = cut;
        wrong[at] = byte;
        assert_eq!(row_of(&wrong[..15]), row, "byte {at} is {byte}");
    }
    assert_eq!(row_of(&cut[..14]), 1);
    cut[14..16].copy_from_slice(&[4, 1]);
    assert_eq!(row_of(&cut[..16]), 6, "16 bytes have the whole B");
    cut[14..16].copy_from_slice(&[0, 0]);
    assert_eq!(row_of(&cut[..16]), 0, "no block at all");
}

/// A step that would bring a pair together is none; without the pair it is the next one.
#[test]
fn steps_that_a_pair_forbids() {
    let (one_rack, two_racks) = ((1, 2), (2, 1));
    let [m, n, i, j] = [0, 1, 0, 3];
    for (draft, next) in [
        (samples::no_move_for_pair(one_rack), Step::Move { m, n, i }),
        (
            samples::no_move_for_pair(two_racks),
            Step::RackMove { m, n, i },
        ),
        (
            samples::no_swap_for_pair(one_rack),
            Step::Swap { m, n, i, j },
        ),
        (
            samples::no_swap_for_pair(two_racks),
            Step::RackSwap { m, n, i, j },
        ),
    ] {
        let mut words = samples::PAIR_WORDS;
        assert_eq!(bpl::step(&draft.bytes(), &mut words), Ok(None));
        let without = draft.unpaired().bytes();
        assert_eq!(bpl::step(&without, &mut words), Ok(Some(next)));
        let together = bpl::check(&draft.bytes(), &words).unwrap_err();
        assert_eq!(together.number(), 18);
    }
}

/// Plan Y as a script, with calls between that are refused: the last reply of each of its beginnings. No call at all
/// answers as a check that passed.
#[test]
fn plan_y_as_a_script() {
    let (bytes, other) = (samples::y().bytes(), samples::h_budget(3).bytes());
    let calls = [
        Call::new(Request::Run(0)),
        Call::new(Request::Check).with_other(),
        Call::new(Request::Step),
        Call::new(Request::Step).lending(2),
        Call::new(Request::Run(1)).lending(3),
        Call::new(Request::Step),
        Call::new(Request::Check),
    ];
    let row = |reply| match reply {
        Reply::Refused(refusal) => Err(refusal.number()),
        said => Ok(said),
    };
    let step = Step::Move { m: 0, n: 1, i: 0 };
    let expected = [
        (Ok(Reply::Checked), [1, 2, 1, 77]),
        (Ok(Reply::Ran(RunEnd::Spent(0))), [1, 2, 1, 77]),
        (Err(10), [1, 2, 1, 77]),
        (Ok(Reply::Stepped(Some(step))), [2, 2, 1, 77]),
        (Err(12), [2, 2, 1, 77]),
        (Ok(Reply::Ran(RunEnd::Rest(1))), [2, 1, 1, 77]),
        (Ok(Reply::Stepped(None)), [2, 1, 1, 77]),
        (Ok(Reply::Checked), [2, 1, 1, 77]),
    ];
    for (made, (reply, after)) in expected.into_iter().enumerate() {
        let mut words = [1, 2, 1, 77];
        let said = bpl::play(&bytes, &other, &mut words, &calls[..made]);
        assert_eq!((row(said), words), (reply, after), "{made} calls");
    }
}

/// Reads of plan K, whose blocks 0 and 1 are a pair: the window's end, rows 19 to 21, and the larger of a pair.
#[test]
fn reads_of_plan_k() {
    let mut list = [Entry::default(); 4];
    let mut count = 0;
    for (block, tick) in [(0, u32::MAX), (1, 0), (1, 7_199_998)] {
        count = bpl::read(&samples::K, block, tick, &mut list, count).expect("a read");
    }
    let popularity = |list: &[Entry], count| {
        [0, 1, 2].map(|block| bpl::popularity(&samples::K, block, list, count).expect("a block"))
    };
    assert_eq!((count, popularity(&list, count)), (3, [2, 2, 0]));
    let row = |block, tick, list: &mut [Entry], count| {
        let refusal = bpl::read(&samples::K, block, tick, list, count).unwrap_err();
        refusal.number()
    };
    let before = list;
    assert_eq!(row(4, 0, &mut list, count), 19);
    assert_eq!(row(2, 7_199_997, &mut list, count), 20);
    assert_eq!(row(2, 7_199_998, &mut list[..3], count), 21);
    assert_eq!(list, before);
    let after = bpl::read(&samples::K, 2, 7_199_999, &mut list, count);
    assert_eq!(after, Ok(3), "the first read is two hours old");
    let entry = |block, tick| Entry { block, tick };
    assert_eq!(list[..2], before[1..3]);
    assert_eq!(list[2..], [entry(2, 7_199_999), entry(0, 0)]);
    assert_eq!(popularity(&list, 3), [2, 2, 1]);
}

/// The refusals of the empty file and of a short buffer, in words.
#[test]
fn refusals() {
    let empty = bpl::plan(&[]).unwrap_err();
    assert_eq!(empty.number(), 1);
    assert_eq!(
        empty.to_string(),
        "refused 1: the plan is shorter than 15 bytes"
    );
    assert_eq!(
        format!("{empty:?}"),
        "Refusal(1: the plan is shorter than 15 bytes)"
    );
    let short = bpl::first(&samples::h().bytes(), &mut [0; 2]).unwrap_err();
    assert_eq!(short.number(), 12);
    let mut strange = samples::H;
    strange[4] = 5;
    assert_eq!(
        bpl::plan(&strange).unwrap_err().to_string(),
        "refused 3: the plan's version is none of 1 to 4, or is 3 or 4 already where it is converted"
    );
    let mut differing = samples::k();
    differing.records[1].popularity += 1;
    let differs = bpl::plan(&differing.bytes()).unwrap_err();
    assert_eq!(
        differs.to_string(),
        "refused 17: a pair byte is neither 0 nor 1, marks no pair, or marks two blocks that differ"
    );
    let together = bpl::check(&samples::K, &[5, 9, 1, 4]).unwrap_err();
    assert_eq!(
        together.to_string(),
        "refused 18: a machine holds both blocks of a pair"
    );
    let unknown = bpl::popularity(&samples::K, 4, &[], 0).unwrap_err();
    assert_eq!(
        unknown.to_string(),
        "refused 19: the block is not in the plan"
    );
    let full = bpl::read(&samples::K, 0, 0, &mut [], 0).unwrap_err();
    assert_eq!(
        full.to_string(),
        "refused 21: the list is full of reads that still count"
    );
}

/// A plan of so many blocks of one copy, on one machine that holds 1,024.
fn of_blocks(blocks: u16) -> Vec<u8> {
    let [high, low] = blocks.to_be_bytes();
    let mut bytes = vec![0x42, 0x50, 0x4C, 0, 1, 1, 1, 4, 0, 0, 0, 4, 0, high, low];
    bytes.extend([0, 0, 1, 1, 1].repeat(usize::from(blocks)));
    bytes
}

/// The most blocks: as many words are enough, one block more is refused by 6.
#[test]
fn most_blocks() {
    let most = of_blocks(bpl::MAX_BLOCKS as u16);
    let mut words = [0; bpl::MAX_BLOCKS];
    assert_eq!(bpl::first(&most, &mut words), Ok(()));
    assert_eq!(words, [1; bpl::MAX_BLOCKS]);
    let fewer = bpl::first(&most, &mut words[1..]).unwrap_err();
    assert_eq!(fewer.number(), 12);
    let more = bpl::plan(&of_blocks(bpl::MAX_BLOCKS as u16 + 1)).unwrap_err();
    assert_eq!(more.to_string(), "refused 6: more than 1,024 blocks");
}

/// Each stored example: its plan gives its listing.
#[test]
fn examples() {
    let folder = PathBuf::from(env!("CARGO_MANIFEST_DIR")).join("../../examples");
    let mut seen = 0;
    for entry in fs::read_dir(folder).expect("the examples' folder") {
        let path = entry.expect("an entry of the folder").path();
        if path.extension().is_some_and(|end| end == "plan") {
            let bytes = fs::read(&path).expect("a plan");
            let stored = fs::read_to_string(path.with_extension("listing")).expect("its listing");
            let listing = bpl::listing(&bytes, 100_000)
                .unwrap_or_else(|refusal| format!("refused {}\n", refusal.number()));
            assert_eq!(listing, stored, "{}", path.display());
            seen += 1;
        }
    }
    assert!(seen > 0, "no example was found");
}
