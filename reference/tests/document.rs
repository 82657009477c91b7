//! The specification's own trial plans and examples of refusals.

use placement_reference::calls::*;
use placement_reference::convert::{converted, enter_convert, LARGEST_PLAN};
use placement_reference::counts::chosen;
use placement_reference::gen::Draft;
use placement_reference::listing::text;
use placement_reference::placement::{copies_of, first, loads};
use placement_reference::plan::Plan;
use placement_reference::samples::*;
use placement_reference::steps::{step_literal, step_plain, End, Kind, Step};

fn plan_row(draft: &Draft) -> Option<u8> {
    enter_plan(&draft.bytes()).err()
}

/// The same fields in another version.
fn in_version(version: u64, verdict: Result<Plan, u8>) -> Result<Plan, u8> {
    verdict.map(|plan| Plan { version, ..plan })
}

fn check_row(draft: &Draft, words: &[u64]) -> Option<u8> {
    enter_check(&draft.bytes(), words).err()
}

#[test]
fn plan_h_and_its_listing() {
    assert_eq!(h().bytes(), H);
    assert_eq!(text(&H, 100_000), H_LISTING);
    let plan = h().plan().unwrap();
    assert_eq!(chosen(&plan), [4, 2, 1]);
    assert_eq!(first(&plan), [15, 5, 2]);
    assert_eq!(chosen(&h_budget(4).plan().unwrap()), [2, 1, 1]);
}

#[test]
fn rows_one_to_seven() {
    assert_eq!(enter_plan(&[]).err(), Some(1));
    let changed = |at: usize, byte: u8| {
        let mut bytes = H;
        bytes[at] = byte;
        enter_plan(&bytes).err()
    };
    assert_eq!(changed(0, 0), Some(2));
    for version in [0, 5, 255] {
        assert_eq!(changed(4, version), Some(3));
    }
    assert_eq!(changed(3, 1), Some(3));
    for version in [2, 3] {
        assert_eq!(changed(4, version), Some(7), "a length of version 1");
    }
    let machines = |racks, per_rack| {
        plan_row(&Draft {
            racks,
            per_rack,
            ..h()
        })
    };
    assert_eq!(machines(13, 5), Some(4));
    assert_eq!(machines(16, 16), Some(4));
    assert_eq!(machines(8, 8), None);
    assert_eq!(plan_row(&Draft { capacity: 0, ..h() }), Some(5));
    assert_eq!(
        plan_row(&Draft {
            capacity: 1025,
            ..h()
        }),
        Some(5)
    );
    let records = vec![h().records[1]; 1025];
    assert_eq!(plan_row(&Draft { records, ..h() }), Some(6));
    assert_eq!(enter_plan(&H[..29]).err(), Some(7));
}

#[test]
fn rows_eight_to_eleven() {
    let with = |least: [u8; 2], spread: [u8; 2]| {
        let mut draft = h();
        for i in 0..2 {
            draft.records[i].least = least[i];
            draft.records[i].spread = spread[i];
        }
        plan_row(&draft)
    };
    assert_eq!(with([2, 5], [2, 1]), Some(8));
    assert_eq!(with([2, 1], [3, 1]), Some(9));
    assert_eq!(with([2, 5], [3, 1]), Some(9), "block 0 comes first");
    assert_eq!(with([5, 1], [2, 2]), Some(8));
    assert_eq!(with([0, 1], [0, 1]), Some(8), "8 before 9 at one block");
    assert_eq!(plan_row(&h_budget(3)), Some(10));
    assert_eq!(plan_row(&row_eleven(1)), Some(11));
    assert_eq!(first(&row_eleven(2).plan().unwrap()), [1, 1]);
}

#[test]
fn rows_twelve_to_sixteen() {
    assert_eq!(check_row(&h(), &[15, 5]), Some(12));
    assert_eq!(check_row(&h(), &[15, 5, 16]), Some(13));
    assert_eq!(check_row(&h(), &[15, 1, 2]), Some(14));
    assert_eq!(check_row(&h_budget(4), &[3, 4, 8]), Some(15));
    let narrow = Draft { capacity: 2, ..h() };
    assert_eq!(check_row(&narrow, &[15, 3, 1]), Some(16));
    assert_eq!(check_row(&h(), &[15, 5, 2]), None);
    assert_eq!(enter_counts(&H, &mut [0; 2]), Err(12));
}

#[test]
fn plan_k_and_its_listing() {
    assert_eq!(k().bytes(), K);
    assert_eq!(text(&K, 100_000), K_LISTING);
    let plan = k().plan().unwrap();
    assert_eq!(chosen(&plan), [2, 2, 1, 1]);
    assert_eq!(first(&plan), [5, 10, 1, 4]);
    assert_eq!(enter_plan(&K[..38]).err(), Some(7));
}

/// Row 8 goes by a paired block's own limit, here half of four machines.
#[test]
fn row_eight_of_pairs() {
    let with = |records: &[(u32, u8, u8, u8)]| plan_row(&paired_plan((2, 2), 3, 12, records));
    assert_eq!(with(&[(1, 2, 1, 1), (1, 2, 1, 0), (1, 4, 1, 0)]), None);
    assert_eq!(with(&[(1, 3, 1, 1), (1, 2, 1, 0)]), Some(8));
    assert_eq!(with(&[(1, 2, 1, 1), (1, 3, 1, 0)]), Some(8));
    assert_eq!(with(&[(1, 1, 1, 0), (1, 3, 1, 1)]), Some(8));
    assert_eq!(with(&[(1, 3, 1, 2), (1, 3, 1, 0)]), Some(17));
    let alone = [(1, 1, 1, 1), (1, 1, 1, 0)];
    assert_eq!(plan_row(&paired_plan((1, 1), 9, 9, &alone)), Some(8));
    assert_eq!(plan_row(&paired_plan((1, 3), 9, 9, &alone)), None);
}

/// Row 17 in each of its ways, after 8 and 9 over all blocks and before 10 and 11.
#[test]
fn row_seventeen() {
    let with = |at: usize, byte: u8| {
        let mut bytes = K;
        bytes[at] = byte;
        enter_plan(&bytes).err()
    };
    assert_eq!(with(20, 2), Some(17), "neither 0 nor 1");
    assert_eq!(with(26, 255), Some(17), "neither 0 nor 1");
    assert_eq!(with(38, 1), Some(17), "the last block");
    assert_eq!(with(26, 1), Some(17), "two successive blocks");
    assert_eq!(with(32, 1), Some(17), "a pair that differs");
    assert_eq!(with(23, 11), Some(17), "popularity");
    assert_eq!(with(25, 1), Some(17), "spread");
    let other = |least: u8, budget: u32, capacity: u16, pair: u8| {
        let records = [(1, 1, 1, 1), (1, 2, 1, 0), (1, least, 1, pair)];
        plan_row(&paired_plan((2, 2), capacity, budget, &records))
    };
    assert_eq!(other(1, 9, 9, 0), Some(17), "least copies");
    assert_eq!(other(0, 9, 9, 0), Some(8));
    assert_eq!(other(1, 3, 9, 0), Some(17), "before 10");
    assert_eq!(other(4, 9, 1, 0), Some(17), "before 11");
}

#[test]
fn row_eighteen() {
    for words in [[5, 5, 1, 4], [5, 9, 1, 4], [10, 10, 1, 1]] {
        assert_eq!(check_row(&k(), &words), Some(18));
        assert_eq!(check_row(&k().unpaired(), &words), None);
    }
    assert_eq!(check_row(&k(), &[5, 5, 16, 4]), Some(13));
    assert_eq!(check_row(&k(), &[5, 5, 3, 4]), Some(14));
    assert_eq!(check_row(&k(), &[3, 3, 1, 4]), Some(15));
    assert_eq!(check_row(&k(), &[5, 5, 1, 1]), Some(16));
    let mut words = [5, 9, 1, 4];
    assert_eq!(enter_report(&K, &words).err(), Some(18));
    assert_eq!(enter_step(&K, &mut words).err(), Some(18));
    assert_eq!(enter_run(&K, &mut words, 9).err(), Some(18));
    assert_eq!(words, [5, 9, 1, 4]);
}

/// A version 2 plan with all bytes 0 is the plan of version 1.
#[test]
fn all_pair_bytes_zero() {
    for draft in [h(), h_budget(3), row_eleven(1), y(), z(), empty(), ties()] {
        let unpaired = enter_plan(&draft.unpaired().bytes());
        assert_eq!(in_version(2, enter_plan(&draft.bytes())), unpaired);
        assert_eq!(text(&draft.bytes(), 9), text(&draft.unpaired().bytes(), 9));
    }
}

/// The step that would come next without the pair brings its blocks together; with it the placement is at rest.
#[test]
fn steps_that_a_pair_forbids() {
    for (shape, kinds) in [
        ((1, 2), [Kind::Move, Kind::Swap]),
        ((2, 1), [Kind::RackMove, Kind::RackSwap]),
    ] {
        let moved = step(kinds[0], 0, 1, 0, None);
        let swapped = step(kinds[1], 0, 1, 0, Some(3));
        for (draft, next) in [
            (no_move_for_pair(shape), moved),
            (no_swap_for_pair(shape), swapped),
        ] {
            let without = draft.unpaired().plan().unwrap();
            assert_eq!(step_literal(&without, &PAIR_WORDS), Some(next));
            let plan = draft.plan().unwrap();
            assert_eq!(check_row(&draft, &PAIR_WORDS), None);
            assert_eq!(step_literal(&plan, &PAIR_WORDS), None);
            assert_eq!(step_plain(&plan, &PAIR_WORDS), None);
        }
        // The first block of the pair would be where the second stays, or the second where the first stays.
        let plan = no_swap_for_pair(shape).plan().unwrap();
        let without = no_swap_for_pair(shape).unpaired().plan().unwrap();
        let back = step(kinds[1], 0, 1, 2, Some(1));
        assert!(back.allowed(&without, &PAIR_WORDS) && !back.allowed(&plan, &PAIR_WORDS));
    }
}

#[test]
fn version_three() {
    for (draft, bytes, listing) in [(h(), &H_3[..], H_LISTING), (k(), &K_3, K_LISTING)] {
        assert_eq!(draft.wide().bytes(), bytes);
        let old = enter_plan(&draft.bytes());
        assert_eq!(enter_plan(bytes), in_version(3, old));
        assert_eq!(text(bytes, 100_000), listing);
        assert_eq!(enter_plan(&bytes[..bytes.len() - 1]).err(), Some(7));
        assert_eq!(enter_plan(&[bytes, &[0]].concat()).err(), Some(7));
    }
    for (version, bytes) in [(1, &H_3[..]), (2, &H_3), (2, &K_3), (3, &K)] {
        let mut bytes = bytes.to_vec();
        bytes[4] = version;
        assert_eq!(
            enter_plan(&bytes).err(),
            Some(7),
            "another version's length"
        );
    }
}

/// Popularities above 16,777,215, up to 4,294,967,295.
#[test]
fn wider_popularity() {
    let plan = video().plan().unwrap();
    let popularities: Vec<u64> = plan.blocks.iter().map(|b| b.popularity).collect();
    assert_eq!(popularities[..2], [16_777_216, 20_000_000]);
    assert_eq!(chosen(&plan), [1, 2, 2, 2, 1, 1]);
    let bytes = largest_wide().bytes();
    assert_eq!(bytes.len(), 7183);
    assert_eq!(bytes.len(), LARGEST_PLAN);
    let plan = enter_plan(&bytes).unwrap();
    assert_eq!(plan.blocks[1023].popularity, 4_294_967_295);
    let mut words = [0; 1024];
    enter_first(&bytes, &mut words).unwrap();
    let report = enter_report(&bytes, &words).unwrap();
    assert_eq!(report.largest_share, 4_294_967_295 * 252);
    assert_eq!(report.maximum, 160 * report.largest_share);
    assert_eq!(report.sum, 2520 * 1024 * 4_294_967_295);
}

/// Least copies up to 8, from version 3 on up to 10, where there are as many machines.
#[test]
fn row_eight_of_each_version() {
    for machines in [7, 8, 9, 10, 11, 64] {
        for least in 7..=12 {
            let draft = plan_of((1, machines), 1, 99, &[(1, least, 1)]);
            let row = |most: u8| (least > most.min(machines)).then_some(8);
            assert_eq!(plan_row(&draft), row(8));
            assert_eq!(plan_row(&draft.unpaired()), row(8));
            assert_eq!(plan_row(&draft.wide()), row(10));
            assert_eq!(plan_row(&draft.fed(1)), row(10));
        }
    }
    for machines in [15, 16, 17, 18, 19, 20, 21, 64] {
        for least in 7..=12 {
            let records = [(1, least, 1, 1), (1, least, 1, 0)];
            let draft = paired_plan((1, machines), 1, 99, &records);
            let row = |most: u8| (least > most.min(machines / 2)).then_some(8);
            assert_eq!(plan_row(&draft), row(8));
            assert_eq!(plan_row(&draft.wide()), row(10));
            assert_eq!(plan_row(&draft.fed(1)), row(10));
        }
    }
}

/// The counts of a plan.
fn counts(draft: &Draft) -> Vec<usize> {
    chosen(&draft.plan().unwrap())
}

/// Counts above eight, held by the budget, by M, by places and by half of M; before version 3 they stay at eight.
#[test]
fn ten_copies() {
    let (hot, cold) = ((7, 1, 1), (0, 1, 1));
    for (draft, before, now) in [
        (plan_of((3, 4), 9, 10, &[hot, cold]), [8, 1], [9, 1]),
        (plan_of((3, 4), 9, 99, &[hot, cold]), [8, 1], [10, 1]),
        (plan_of((3, 3), 9, 99, &[hot, cold]), [8, 1], [9, 1]),
        (plan_of((2, 5), 1, 99, &[hot, cold]), [8, 1], [9, 1]),
        (plan_of((1, 8), 9, 99, &[hot, cold]), [8, 1], [8, 1]),
    ] {
        assert_eq!(counts(&draft), before);
        assert_eq!(counts(&draft.unpaired()), before);
        assert_eq!(counts(&draft.wide()), now);
        assert_eq!(counts(&draft.fed(1)), now);
    }
    let pair = [(7, 1, 1, 1), (7, 1, 1, 0)];
    for (machines, before, now) in [(16, 8, 8), (17, 8, 8), (18, 8, 9), (19, 8, 9), (20, 8, 10)] {
        let draft = paired_plan((1, machines), 9, 99, &pair);
        assert_eq!(counts(&draft), [before; 2]);
        assert_eq!(counts(&draft.wide()), [now; 2]);
    }
    let rising: Vec<_> = (1..=10).map(|p| (p, 1, 1)).collect();
    let draft = plan_of((2, 6), 10, 55, &rising).wide();
    assert_eq!(counts(&draft), [1, 2, 3, 4, 5, 6, 7, 8, 9, 10]);
    let grown = largest_grown();
    assert_eq!(counts(&grown), [10; 1024]);
    assert_eq!(counts(&grown.coupled(1024)), [10; 1024]);
}

/// Above 8 machines a converted plan has the same fields, and may have other counts, placement and listing.
#[test]
fn a_conversion_with_more_copies() {
    let old = calibration().bytes();
    let new = converted(&old).unwrap();
    assert_eq!(enter_plan(&new), in_version(3, enter_plan(&old)));
    assert_eq!(counts(&calibration()), [8]);
    assert_eq!(counts(&calibration().wide()), [9]);
    let mut words = [[0], [0]];
    enter_first(&old, &mut words[0]).unwrap();
    enter_first(&new, &mut words[1]).unwrap();
    assert_eq!(words.map(|w| copies_of(w[0])), [8, 9]);
    assert_eq!(enter_check(&new, &words[0]).err(), Some(14));
    assert_eq!(enter_check(&old, &words[1]).err(), Some(14));
    let listings = [
        "plan 3 3 1\nblock 0 8 2205 0 1 2 3 4 5 6 7\nrest 0 2205 0 17640 2205\n",
        "plan 3 3 1\nblock 0 9 1960 0 1 2 3 4 5 6 7 8\nrest 0 1960 1960 17640 1960\n",
    ];
    assert_eq!([text(&old, 9), text(&new, 9)], listings);
}

/// Row 17 looks at every byte of the popularity.
#[test]
fn row_seventeen_of_version_three() {
    let row = |at: usize, flipped: u8| {
        let mut bytes = K_3;
        bytes[at] ^= flipped;
        enter_plan(&bytes).err()
    };
    for at in (15..=18).chain(22..=25) {
        assert_eq!(row(at, 1), Some(17), "a pair that differs in byte {at}");
    }
    for at in [28, 35, 42] {
        assert_eq!(row(at, 1), Some(17), "the pair byte {at}");
        assert_eq!(row(at, 2), Some(17), "the pair byte {at}");
    }
    assert_eq!(row(21, 1), None, "no pair");
    assert_eq!(row(29, 1), None, "a block without a pair");
}

/// What each version has: the bytes before the records and of a record, and the most copies. Others are never described.
#[test]
fn the_versions() {
    for version in 0..=9 {
        let on_64 = |least: u8, number: usize| Draft {
            version,
            ..plan_of((8, 8), 9, 99, &vec![(7, least, 1); number])
        };
        let described = match version {
            1 => (15, 5, 8),
            2 => (15, 6, 8),
            3 => (15, 7, 10),
            4 => (16, 7, 10),
            _ => {
                assert_eq!(plan_row(&on_64(1, 2)), Some(3));
                continue;
            }
        };
        let (header, record, most) = described;
        assert_eq!(on_64(1, 0).bytes().len(), header);
        assert_eq!(on_64(1, 2).bytes().len(), header + 2 * record);
        assert_eq!(plan_row(&on_64(1, 0)), None);
        assert_eq!(plan_row(&on_64(most, 2)), None);
        assert_eq!(plan_row(&on_64(most + 1, 2)), Some(8));
    }
}

/// With a feed for each rack version 4 is version 3.
#[test]
fn version_four() {
    for (draft, bytes, listing) in [(h(), &H_4[..], H_LISTING), (k(), &K_4, K_LISTING)] {
        assert_eq!(draft.fed(2).bytes(), bytes);
        assert_eq!(
            enter_plan(bytes),
            in_version(4, enter_plan(&draft.wide().bytes()))
        );
        assert_eq!(text(bytes, 100_000), listing);
        assert_eq!(enter_plan(&bytes[..bytes.len() - 1]).err(), Some(7));
        assert_eq!(enter_plan(&[bytes, &[0]].concat()).err(), Some(7));
    }
    let bytes = largest_fed().bytes();
    assert_eq!(bytes.len(), 7184);
    let plan = enter_plan(&bytes).unwrap();
    assert_eq!(
        (plan.feeds, plan.blocks[1023].popularity),
        (8, 4_294_967_295)
    );
    assert_eq!(enter_plan(&bytes[..7183]).err(), Some(7));
    assert_eq!(enter_plan(&[&bytes[..], &[0]].concat()).err(), Some(7));
    assert_eq!(chosen(&feeds().plan().unwrap()), [2, 2, 2, 3, 1, 3]);
}

/// Row 22: F is 0 or does not divide R.
#[test]
fn row_twenty_two() {
    assert_eq!(plan_row(&h().fed(0)), Some(22), "no feed");
    assert_eq!(plan_row(&h().fed(3)), Some(22), "more feeds than racks");
    assert_eq!(
        plan_row(&h().fed(1)),
        Some(9),
        "a divisor; block 0 has spread 2"
    );
    assert_eq!(plan_row(&h().fed(2)), None);
    for racks in 1..=64 {
        for feeds in 0..=255 {
            let divides =
                (1..=racks).any(|quotient| feeds as u32 * quotient as u32 == racks.into());
            let row = plan_row(&plan_of((racks, 1), 1, 0, &[]).fed(feeds));
            assert_eq!(
                row,
                (!divides).then_some(22),
                "{racks} racks, {feeds} feeds"
            );
        }
    }
}

/// Row 22 directly after 4, before 5 and all later ones.
#[test]
fn the_place_of_row_twenty_two() {
    let with = |changes: &[(usize, u8)]| {
        let mut bytes = K_4;
        for (at, byte) in changes {
            bytes[*at] = *byte;
        }
        enter_plan(&bytes).err()
    };
    for feeds in [0, 3, 255] {
        let wrong = (7, feeds);
        assert_eq!(with(&[wrong]), Some(22));
        for (earlier, row) in [
            ((0, 0), 2),
            ((4, 5), 3),
            ((5, 0), 4),
            ((6, 0), 4),
            ((6, 33), 4),
        ] {
            assert_eq!(with(&[wrong, earlier]), Some(row));
        }
        for (later, row) in [
            ((9, 0), 5),
            ((8, 4), 5),
            ((14, 4), 6),
            ((15, 5), 7),
            ((20, 5), 8),
            ((21, 3), 9),
            ((22, 2), 17),
            ((13, 13), 23),
            ((13, 5), 10),
        ] {
            assert_eq!(with(&[later]), Some(row));
            assert_eq!(with(&[wrong, later]), Some(22));
        }
    }
    assert_eq!(plan_row(&row_eleven(1).fed(1)), Some(10));
    assert_eq!(plan_row(&row_eleven(1).fed(2)), Some(22));
}

/// Row 23: a budget above M × C, in version 4 alone. The versions before it take the smaller of both.
#[test]
fn row_twenty_three() {
    for (budget, row) in [
        (11, None),
        (12, None),
        (13, Some(23)),
        (1 << 16, Some(23)),
        (u32::MAX, Some(23)),
    ] {
        assert_eq!(plan_row(&h().fed(2).with_budget(budget)), row);
        for draft in [h(), h().unpaired(), h().wide()] {
            let draft = draft.with_budget(budget);
            assert_eq!(enter_plan(&draft.bytes()).unwrap().budget, budget.into());
            if row.is_some() {
                let listing = text(&draft.with_budget(12).bytes(), 100_000);
                assert_eq!(text(&draft.bytes(), 100_000), listing);
            }
        }
    }
    for machines in 1..=64 {
        for capacity in [1, 2, 255, 256, 1023, 1024] {
            let hall = plan_of((1, machines), capacity, 0, &[]);
            let places = u32::from(machines) * u32::from(capacity);
            for (budget, row) in [
                (places - 1, None),
                (places, None),
                (places + 1, Some(23)),
                (places + (1 << 16), Some(23)),
                (u32::MAX, Some(23)),
            ] {
                assert_eq!(plan_row(&hall.fed(1).with_budget(budget)), row);
                assert_eq!(plan_row(&hall.wide().with_budget(budget)), None);
            }
        }
    }
}

/// Row 23 after all others but 10 and 11.
#[test]
fn row_twenty_three_after_seventeen() {
    for budget in [13, u32::MAX] {
        let wrong = k().fed(2).with_budget(budget).bytes();
        assert_eq!(enter_plan(&wrong).err(), Some(23));
        for (at, byte, row) in [
            (0, 0, 2),
            (4, 5, 3),
            (5, 0, 4),
            (7, 0, 22),
            (7, 3, 22),
            (9, 0, 5),
            (14, 4, 6),
            (15, 5, 7),
            (20, 5, 8),
            (41, 5, 8),
            (21, 3, 9),
            (42, 3, 9),
            (22, 2, 17),
            (43, 1, 17),
            (26, 11, 17),
        ] {
            let mut bytes = wrong.clone();
            bytes[at] = byte;
            assert_eq!(enter_plan(&bytes).err(), Some(row));
        }
        assert_eq!(enter_plan(&wrong[..14]).err(), Some(1));
        assert_eq!(enter_plan(&wrong[..15]).err(), Some(7));
        assert_eq!(enter_plan(&wrong[..43]).err(), Some(7));
    }
}

/// Row 23 before 10 and 11, on two places with five blocks of one copy. Version 4 is never refused 11.
#[test]
fn row_twenty_three_before_ten() {
    let five = plan_of((1, 2), 1, 0, &[(1, 1, 1); 5]);
    for (budget, before, now) in [
        (0, 10, 10),
        (2, 10, 10),
        (3, 10, 23),
        (4, 10, 23),
        (5, 11, 23),
        (u32::MAX, 11, 23),
    ] {
        for draft in [five.clone(), five.unpaired(), five.wide()] {
            assert_eq!(plan_row(&draft.with_budget(budget)), Some(before));
        }
        assert_eq!(plan_row(&five.fed(1).with_budget(budget)), Some(now));
    }
}

/// A budget that cannot be used: where every machine has one place, versions 1 to 3 share out as many copies as machines.
#[test]
fn the_smaller_of_budget_and_places() {
    for budget in [4, 5, 9, u32::MAX] {
        let draft = over_places().with_budget(budget);
        for draft in [draft.clone(), draft.unpaired(), draft.wide()] {
            let plan = draft.plan().unwrap();
            assert_eq!(chosen(&plan), [3, 1]);
            assert_eq!(first(&plan), [0b0111, 0b1000]);
        }
        let version_4 = draft.fed(1).with_budget(budget);
        assert_eq!(plan_row(&version_4), (budget > 4).then_some(23));
        assert_eq!(chosen(&draft.fed(1).plan().unwrap()), [3, 1]);
    }
}

/// A file of version 4 in 15 bytes lacks the last byte of the number of blocks: it passes 6 and gets 7, whatever the byte
/// before it says; 1 to 5 and 22 come first. In 16 bytes it is a plan without blocks.
#[test]
fn version_four_in_fifteen_bytes() {
    for last in 0..=255 {
        let with = |at: usize, byte: u8| {
            let mut bytes = H_4[..15].to_vec();
            (bytes[14], bytes[at]) = (last, byte);
            enter_plan(&bytes).err()
        };
        assert_eq!(with(14, last), Some(7));
        for (at, byte, row) in [
            (0, 0, 2),
            (4, 5, 3),
            (5, 0, 4),
            (6, 33, 4),
            (7, 0, 22),
            (7, 3, 22),
            (5, 3, 22),
            (9, 0, 5),
            (8, 4, 5),
        ] {
            assert_eq!(with(at, byte), Some(row));
        }
        let whole = [&H_4[..14], &[last, 0]].concat();
        let row = match last {
            0 => None,
            1..=4 => Some(7),
            _ => Some(6),
        };
        assert_eq!(enter_plan(&whole).err(), row);
    }
    assert_eq!(enter_plan(&H_4[..14]).err(), Some(1));
    for feeds in [1, 3] {
        let bytes = empty().fed(feeds).bytes();
        assert_eq!((bytes.len(), enter_plan(&bytes).err()), (16, None));
        assert_eq!(text(&bytes, 9), "plan 3 2 0\nrest 0 0 0 0 0\n");
    }
}

/// In version 4 rows 9 and 15 count feeds: rack r hangs on feed r mod F.
#[test]
fn spread_over_feeds() {
    let on_six = |feeds: u8, spread: u8| plan_of((6, 1), 9, 3, &[(1, 3, spread)]).fed(feeds);
    for (feeds, most) in [(1, 1), (2, 2), (3, 3), (6, 3)] {
        for spread in 1..=4 {
            let row = plan_row(&on_six(feeds, spread));
            assert_eq!(row, (spread > most).then_some(9));
        }
    }
    // Two feeds: racks 0, 2 and 4, racks 1, 3 and 5. Three feeds: racks 0 and 3, 1 and 4, 2 and 5.
    for (feeds, spread, word, row) in [
        (2, 2, 0b010101, Some(15)),
        (2, 2, 0b101010, Some(15)),
        (2, 2, 0b000111, None),
        (2, 2, 0b110001, None),
        (3, 2, 0b010101, None),
        (3, 3, 0b000111, None),
        (3, 3, 0b010101, None),
        (3, 3, 0b110001, None),
        (3, 3, 0b001011, Some(15)),
        (3, 3, 0b011010, Some(15)),
        (6, 3, 0b001011, None),
    ] {
        assert_eq!(check_row(&on_six(feeds, spread), &[word]), row);
    }
    assert_eq!(check_row(&two_feeds(), &[3, 5]), Some(15));
    assert_eq!(check_row(&two_feeds().fed(4), &[3, 5]), None);
    assert_eq!(check_row(&two_feeds().wide(), &[3, 5]), None);
}

/// The kinds of steps go by rack, also between racks of one feed; a step may not leave a block on too few feeds, though
/// the racks would suffice.
#[test]
fn steps_on_feeds() {
    let next = |draft: &Draft, words: &[u64]| {
        assert_eq!(check_row(draft, words), None);
        let plan = draft.plan().unwrap();
        let next = step_plain(&plan, words);
        assert_eq!(step_literal(&plan, words), next);
        next
    };
    let moved = step(Kind::RackMove, 0, 2, 0, None);
    assert_eq!(next(&two_feeds(), &TWO_FEEDS_WORDS), Some(moved));
    let moved = step(Kind::RackMove, 0, 3, 0, None);
    let swapped = step(Kind::RackSwap, 0, 3, 0, Some(7));
    for (draft, words, forbidden) in [
        (no_move_for_feed(), &NO_MOVE_WORDS[..], moved),
        (no_swap_for_feed(), &NO_SWAP_WORDS, swapped),
    ] {
        assert_eq!(next(&draft, words), None);
        assert_eq!(next(&draft.fed(4), words), Some(forbidden));
        assert_eq!(next(&draft.wide(), words), Some(forbidden));
    }
}

#[test]
fn the_converter() {
    let mut buffer = [9; 40];
    assert_eq!(enter_convert(&H, &mut buffer), Ok(36));
    assert_eq!(buffer[..36], H_3);
    assert_eq!(buffer[36..], [9; 4], "later bytes stay");
    assert_eq!(converted(&K).unwrap(), K_3);
    let unpaired = h().unpaired().bytes();
    assert_eq!(converted(&unpaired).unwrap(), H_3, "pair byte 0");
    assert_eq!(
        converted(&empty().bytes()).unwrap(),
        empty().wide().bytes(),
        "no record"
    );
}

/// What the converter answers with a buffer of this length; a refusal writes nothing.
fn convert_row(bytes: &[u8], length: usize) -> Option<u8> {
    let mut buffer = vec![9; length];
    let row = enter_convert(bytes, &mut buffer).err();
    assert!(row.is_none() || buffer.iter().all(|b| *b == 9));
    row
}

/// The plan's own row; 3 for all other versions, after 1 and 2 and before 4; 12 after 11.
#[test]
fn refusals_of_the_converter() {
    let mut later = H_3;
    (later[5], later[8]) = (0, 0);
    for bytes in [
        &H_3[..],
        &K_3,
        &later,
        &H_3[..35],
        &h_budget(3).wide().bytes(),
        &H_4,
        &K_4,
        &H_4[..15],
        &h().fed(0).bytes(),
        &h().fed(2).with_budget(13).bytes(),
        &plan_of((0, 0), 0, 0, &[]).fed(0).bytes(),
    ] {
        assert_eq!(convert_row(bytes, 99), Some(3));
        assert_eq!(convert_row(bytes, 0), Some(3));
    }
    assert_eq!(convert_row(&H_3[..14], 99), Some(1));
    let mut marked = H_3;
    marked[0] = 0;
    assert_eq!(convert_row(&marked, 99), Some(2));
    assert_eq!(convert_row(&H_4[..14], 99), Some(1));
    assert_eq!(convert_row(&[&[0], &H_4[1..]].concat(), 99), Some(2));
    for length in [0, 30, 35] {
        assert_eq!(convert_row(&H, length), Some(12));
        assert_eq!(convert_row(&h_budget(3).bytes(), length), Some(10));
    }
    assert_eq!(convert_row(&H, 36), None);
    assert_eq!(convert_row(&row_eleven(1).bytes(), 28), Some(11));
    assert_eq!(convert_row(&row_eleven(2).bytes(), 28), Some(12));
    assert_eq!(convert_row(&row_eleven(2).bytes(), 29), None);
    let above = h_budget(13).bytes();
    assert_eq!(convert_row(&above, 35), Some(12));
    assert_eq!(converted(&above).unwrap(), h_budget(13).wide().bytes());
}

fn step(kind: Kind, m: usize, n: usize, i: usize, j: Option<usize>) -> Step {
    Step { kind, m, n, i, j }
}

#[test]
fn plan_y() {
    let plan = y().plan().unwrap();
    let bytes = y().bytes();
    let begin = first(&plan);
    assert_eq!(begin, [1, 2, 1]);
    assert_eq!(loads(&plan, &begin), [15_120, 2520]);
    let mut words = begin.clone();
    let taken = enter_step(&bytes, &mut words).unwrap();
    assert_eq!(taken, Some(step(Kind::Move, 0, 1, 0, None)));
    assert_eq!(loads(&plan, &words), [5040, 12_600]);
    let taken = enter_step(&bytes, &mut words).unwrap();
    assert_eq!(taken, Some(step(Kind::Move, 1, 0, 1, None)));
    assert_eq!(loads(&plan, &words), [7560, 10_080]);
    assert_eq!(enter_step(&bytes, &mut words), Ok(None));
    for (budget, said) in [
        (0, (End::Spent, 0)),
        (1, (End::Spent, 1)),
        (2, (End::Rest, 2)),
        (u32::MAX, (End::Rest, 2)),
    ] {
        assert_eq!(enter_run(&bytes, &mut begin.clone(), budget), Ok(said));
    }
}

#[test]
fn plan_z() {
    let plan = z().plan().unwrap();
    let bytes = z().bytes();
    let mut words = Z_WORDS;
    let taken = enter_step(&bytes, &mut words).unwrap();
    assert_eq!(taken, Some(step(Kind::Swap, 0, 1, 0, Some(2))));
    let taken = enter_step(&bytes, &mut words).unwrap();
    assert_eq!(taken, Some(step(Kind::Swap, 1, 0, 0, Some(1))));
    assert_eq!(words, [1, 2, 1, 2]);
    assert_eq!(loads(&plan, &words), [15_120, 15_120]);
    assert_eq!(enter_step(&bytes, &mut words), Ok(None));
}

#[test]
fn no_block_and_one_machine() {
    assert_eq!(text(&empty().bytes(), 9), "plan 3 2 0\nrest 0 0 0 0 0\n");
    let plan = one_machine().plan().unwrap();
    assert_eq!(step_literal(&plan, &first(&plan)), None);
}

#[test]
fn order_puts_kind_first_and_n_before_i() {
    let plan = order_of_move().plan().unwrap();
    let next = Some(step(Kind::Move, 0, 1, 1, None));
    assert_eq!(step_literal(&plan, &ORDER_WORDS), next);
    assert_eq!(step_plain(&plan, &ORDER_WORDS), next);
    assert!(step(Kind::Move, 0, 2, 0, None).allowed(&plan, &ORDER_WORDS));
    let plan = order_of_kind().plan().unwrap();
    let next = Some(step(Kind::Move, 2, 3, 3, None));
    assert_eq!(step_literal(&plan, &KIND_WORDS), next);
    assert_eq!(step_plain(&plan, &KIND_WORDS), next);
    assert!(step(Kind::RackMove, 0, 2, 0, None).allowed(&plan, &KIND_WORDS));
}

#[test]
fn ties_come_to_four_each() {
    let plan = ties().plan().unwrap();
    let mut words = TIES_WORDS;
    enter_run(&ties().bytes(), &mut words, u32::MAX).unwrap();
    assert_eq!(loads(&plan, &words), [10_080; 3]);
}

#[test]
fn words_past_the_blocks_stay() {
    let mut words = [1, 2, 1, 77, u64::MAX];
    enter_run(&y().bytes(), &mut words, 9).unwrap();
    assert_eq!(words[3..], [77, u64::MAX]);
    let mut counts = [9; 5];
    enter_counts(&H, &mut counts).unwrap();
    assert_eq!(counts, [4, 2, 1, 9, 9]);
    enter_first(&H, &mut words).unwrap();
    assert_eq!(words, [15, 5, 2, 77, u64::MAX]);
}
