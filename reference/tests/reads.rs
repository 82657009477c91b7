//! Reads counted over two hours: the rows and their order, the edges of the window and of the ticks, and pairs.

use placement_reference::reads::*;
use placement_reference::samples::{empty, h, h_budget, H, H_4, K, K_4};

const NONE: Entry = Entry { block: 0, tick: 0 };

fn entry(block: u32, tick: u32) -> Entry {
    Entry { block, tick }
}

/// Entries with these ticks, of blocks 0, 1, 2 and 0 again.
fn at(ticks: &[u32]) -> Vec<Entry> {
    let entries = ticks.iter().enumerate();
    entries.map(|(i, t)| entry(i as u32 % 3, *t)).collect()
}

/// A read of block 1 that is refused: its number, and nothing of the list is altered.
fn refused(list: &[Entry], count: u64, tick: u32) -> u8 {
    refused_for(&H, 1, list, count, tick)
}

fn refused_for(bytes: &[u8], block: u32, list: &[Entry], count: u64, tick: u32) -> u8 {
    let mut after = list.to_vec();
    let row = enter_read(bytes, block, tick, &mut after, count).expect_err("a refusal");
    assert_eq!(after, list, "a refused read wrote");
    row
}

/// A read of block 1 that is accepted: the new count, and the list afterwards.
fn accepted(list: &[Entry], count: u64, tick: u32) -> (u64, Vec<Entry>) {
    let mut after = list.to_vec();
    let answer = enter_read(&H, 1, tick, &mut after, count).expect("an accepted read");
    (answer, after)
}

#[test]
fn from_an_empty_list() {
    let mut list = [NONE; 3];
    for (count, (block, tick)) in (0..).zip([(2, 100), (0, 100), (2, 7_200_099)]) {
        let answer = enter_read(&H, block, tick, &mut list, count);
        assert_eq!(answer, Ok(count + 1));
    }
    assert_eq!(
        list,
        [entry(2, 100), entry(0, 100), entry(2, 7_200_099)],
        "in order"
    );
    let popularity = |block| enter_popularity(&H, block, &list, 3);
    assert_eq!([0, 1, 2, 3].map(popularity), [Ok(1), Ok(0), Ok(2), Err(19)]);
    assert_eq!(enter_read(&H, 1, 7_200_100, &mut list, 3), Ok(2));
    assert_eq!(list, [entry(2, 7_200_099), entry(1, 7_200_100), NONE]);
}

#[test]
fn age_at_the_end_of_the_window() {
    let list = [entry(0, 5), entry(2, 6), entry(9, 9)];
    let (count, after) = accepted(&list, 2, 5 + 7_199_999);
    assert_eq!((count, after[0]), (3, list[0]), "7,199,999 counts");
    let (count, after) = accepted(&list, 2, 5 + 7_200_000);
    assert_eq!(count, 2, "7,200,000 does not");
    assert_eq!(after, [list[1], entry(1, 7_200_005), NONE]);
}

#[test]
fn age_of_the_last_tick() {
    for last in [0, 5, 1 << 31, u32::MAX] {
        let list = [entry(0, last), NONE];
        let tick = |age: u32| last.wrapping_add(age);
        for age in [0, 7_199_999] {
            assert_eq!(accepted(&list, 1, tick(age)).0, 2);
        }
        for age in [7_200_000, (1 << 31) - 1] {
            let (count, after) = accepted(&list, 1, tick(age));
            assert_eq!((count, after), (1, vec![entry(1, tick(age)), NONE]));
        }
        for age in [1 << 31, (1 << 31) + 1, u32::MAX] {
            assert_eq!(refused(&list, 1, tick(age)), 20);
        }
    }
}

#[test]
fn ticks_that_start_over() {
    let list = at(&[u32::MAX - 7_000_000, u32::MAX, 3, 0]);
    let (count, after) = accepted(&list, 3, 199_998);
    assert_eq!((count, &after[..3]), (4, &list[..3]));
    let (count, after) = accepted(&list, 3, 199_999);
    assert_eq!(count, 3);
    assert_eq!(after, [list[1], list[2], entry(1, 199_999), NONE]);
}

#[test]
fn an_empty_list_has_no_last_tick() {
    let list = at(&[5, 6]);
    for tick in [0, 1, 1 << 31, u32::MAX] {
        assert_eq!(
            accepted(&list, 0, tick),
            (1, vec![entry(1, tick), NONE]),
            "count 0"
        );
        assert_eq!(refused(&[], 0, tick), 21, "usable length 0");
        assert_eq!(refused(&[], u64::MAX, tick), 21, "usable length 0");
    }
}

/// The last tick is that of the last entry, whatever stands behind it, and each entry is judged for itself.
#[test]
fn lists_that_no_history_made() {
    let list = at(&[7_200_000, 0, 1, 1 << 31, 9]);
    let (count, after) = accepted(&list, 3, 7_200_000);
    assert_eq!(count, 3);
    assert_eq!(after[..3], [list[0], list[2], entry(1, 7_200_000)]);
    assert_eq!(after[3..], [NONE; 2], "later usable records become 0");
    assert_eq!(refused(&list, 4, 7_200_000), 20);
    let strange = [entry(u32::MAX, 5), entry(77, 6), NONE];
    assert_eq!(accepted(&strange, 2, 7).1[..2], strange[..2]);
}

#[test]
fn a_count_above_the_length() {
    let list = at(&[0, 1, 7_200_000]);
    for count in [3, 4, 4096, 1 << 32, u64::MAX] {
        let (answer, after) = accepted(&list, count, 7_200_000);
        assert_eq!(answer, 3);
        assert_eq!(after, [list[1], list[2], entry(1, 7_200_000)]);
        assert_eq!(refused(&list, count, 7_199_999), 20);
        assert_eq!(enter_popularity(&H, 2, &list, count), Ok(1));
    }
}

#[test]
fn a_full_list() {
    let list = at(&[0, 1, 2]);
    assert_eq!(refused(&list, 3, 7_199_999), 21);
    let (count, after) = accepted(&list, 3, 7_200_000);
    assert_eq!(count, 3, "not full after the dropping");
    assert_eq!(after[..2], list[1..]);
    assert_eq!(accepted(&list, 2, 2).0, 3, "the last record is free");
}

/// Records past 4,096 are not used: a list is full without them, and they stay as they are.
#[test]
fn lists_longer_than_4096() {
    let list: Vec<Entry> = (0..4100).map(|i| entry(i % 3, i)).collect();
    for count in [4096, 4097, 4100, u64::MAX] {
        assert_eq!(refused(&list, count, 7_199_999), 21);
        let (answer, after) = accepted(&list, count, 7_200_000);
        assert_eq!(answer, 4096);
        assert_eq!(after[..4095], list[1..4096]);
        assert_eq!(after[4095], entry(1, 7_200_000));
        assert_eq!(after[4096..], list[4096..]);
        let reads = [0, 1, 2].map(|block| enter_popularity(&H, block, &list, count));
        assert_eq!(reads, [Ok(1366), Ok(1365), Ok(1365)]);
    }
    let (answer, after) = accepted(&list, 7, 1 << 31);
    assert_eq!(answer, 1);
    assert_eq!(after[1..4096], [NONE; 4095]);
    assert_eq!(after[4096..], list[4096..]);
}

/// The plan's rows, 19, 20, 21, each before the next.
#[test]
fn order_of_the_rows() {
    let full = at(&[9, 9]);
    for (bytes, row) in [
        (vec![], 1),
        (H[..29].to_vec(), 7),
        (h_budget(3).bytes(), 10),
        (H_4[..15].to_vec(), 7),
        (h().fed(3).bytes(), 22),
        (h().fed(1).bytes(), 9),
        (h().fed(2).with_budget(13).bytes(), 23),
    ] {
        assert_eq!(refused_for(&bytes, 3, &full, 2, 0), row);
        assert_eq!(enter_popularity(&bytes, 3, &full, 2), Err(row));
    }
    let mut mispaired = K;
    mispaired[20] = 2;
    assert_eq!(refused_for(&mispaired, 4, &full, 2, 0), 17);
    assert_eq!(enter_popularity(&mispaired, 4, &full, 2), Err(17));
    for block in [3, 4, 1 << 16, 1 << 31, u32::MAX] {
        assert_eq!(refused_for(&H, block, &full, 2, 0), 19, "19 before 20");
        assert_eq!(refused_for(&H, block, &full, 2, 9), 19, "19 before 21");
        assert_eq!(enter_popularity(&H, block, &full, 2), Err(19));
    }
    assert_eq!(refused_for(&empty().bytes(), 0, &full, 0, 9), 19);
    assert_eq!(refused(&full, 2, 8), 20, "20 before 21");
    assert_eq!(refused(&full, 2, 9), 21);
    assert_eq!(accepted(&full, 1, 9).0, 2, "12 is not tested: B is 3");
}

/// Blocks 0 and 1 of plan K are a pair.
#[test]
fn popularity_of_a_pair_is_the_larger() {
    let blocks = [1, 2, 1, 0, 1, 2, 0, 9, 3];
    let list = blocks.map(|block| entry(block, 7));
    let popularity = |count| [0, 1, 2, 3].map(|block| enter_popularity(&K, block, &list, count));
    assert_eq!(popularity(9), [3, 3, 2, 1].map(Ok));
    assert_eq!(popularity(4), [2, 2, 1, 0].map(Ok));
    assert_eq!(popularity(0), [Ok(0); 4]);
    let first = [entry(0, 1)];
    assert_eq!(enter_popularity(&K, 1, &first, 1), Ok(1));
    assert_eq!(enter_popularity(&K_4, 1, &first, 1), Ok(1));
}
