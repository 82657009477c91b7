//! Reads and popularities against the independent reference, over random histories and at the edges. BPL_CASES sets the
//! number of cases.

mod common;

use bpl::{Entry, MAX_ENTRIES, READ_WINDOW_MS};
use common::*;
use placement_reference::gen::Rng;
use placement_reference::histories::{history, manner, Event};
use placement_reference::reads::{enter_popularity, enter_read};
use placement_reference::samples::{empty, h, h_budget, H, K};
use std::mem::{align_of, offset_of, size_of};

/// A read on both: the same answer, and the same whole list afterwards. A refused one writes nothing, and none past the
/// records that are used.
fn read(bytes: &[u8], block: u32, tick: u32, list: &mut [Entry], count: u64) -> Result<u64, u8> {
    let before = list.to_vec();
    let mut theirs = reference_list(list);
    let said = numbered(bpl::read(bytes, block, tick, list, count));
    let expected = enter_read(bytes, block, tick, &mut theirs, count);
    let call = || format!("read {block} {tick} {count} {bytes:?} {before:?}");
    assert_eq!(said, expected, "{}", call());
    assert_eq!(*list, list_of(&theirs), "{}", call());
    let used = match said {
        Ok(_) => list.len().min(MAX_ENTRIES),
        Err(_) => 0,
    };
    assert_eq!(list[used..], before[used..], "{}", call());
    said
}

/// A popularity on both: the same answer.
fn popularity(bytes: &[u8], block: u32, list: &[Entry], count: u64) -> Result<u64, u8> {
    let said = numbered(bpl::popularity(bytes, block, list, count));
    let expected = enter_popularity(bytes, block, &reference_list(list), count);
    let call = || format!("popularity {block} {count} {bytes:?} {list:?}");
    assert_eq!(said, expected, "{}", call());
    said
}

/// What a caller has in hand.
#[derive(Default)]
struct Caller {
    plan: Vec<u8>,
    list: Vec<Entry>,
    count: u64,
}

impl Caller {
    /// Does what comes next, and compares what a call answers and leaves with the reference.
    fn does(&mut self, event: Event) -> Option<Result<u64, u8>> {
        match event {
            Event::Plan(bytes) => self.plan = bytes,
            Event::List(list) => self.list = list_of(&list),
            Event::Count(count) => self.count = count,
            Event::Read { block, tick } => {
                let said = read(&self.plan, block, tick, &mut self.list, self.count);
                self.count = said.unwrap_or(self.count);
                return Some(said);
            }
            Event::Popularity { block } => {
                let said = popularity(&self.plan, block, &self.list, self.count);
                return Some(said);
            }
        }
        None
    }
}

/// Random histories: each call is handed the list and the count that the one before it left, or damaged ones.
#[test]
fn histories() {
    let mut met = [0; 24];
    for case in 0..cases(40_000) {
        let rng = &mut Rng::new(7 << 32 | case);
        let manner = manner(rng);
        let mut caller = Caller::default();
        for event in history(rng, manner) {
            if let Some(said) = caller.does(event) {
                met[usize::from(said.err().unwrap_or(0))] += 1;
            }
        }
    }
    let rows = [0, 1, 2, 3, 4, 22, 5, 6, 7, 8, 9, 17, 23, 10, 11, 19, 20, 21];
    assert!(
        cases(40_000) < 5000 || rows.iter().all(|row| met[*row] > 0),
        "not all was met: {met:?}"
    );
    println!("{met:?}");
}

/// The list of 4,096 records filled read by read, and on while reads leave the window.
#[test]
fn a_whole_list() {
    let mut list = vec![Entry::default(); MAX_ENTRIES + 3];
    let (mut count, mut full) = (0, 0);
    for i in 0..6000_u32 {
        let tick = (i * 1500).wrapping_sub(1_000_000);
        match read(&K, i % 4, tick, &mut list, count) {
            Ok(answer) => count = answer,
            Err(row) => full += u32::from(row == 21),
        }
    }
    assert_eq!(count, MAX_ENTRIES as u64);
    assert_eq!(full, 4800 - MAX_ENTRIES as u32);
    for block in 0..4 {
        assert!(popularity(&K, block, &list, count).is_ok());
    }
}

/// Ages at the window's end and at half a turn of the ticks, for last ticks at the ends of 32 bits.
#[test]
fn edges_of_the_age() {
    let half = 1 << 31;
    let ages = [0, 1, READ_WINDOW_MS - 1, READ_WINDOW_MS, READ_WINDOW_MS + 1];
    for last in [0, 1, 7_200_000, half - 1, half, u32::MAX - 1, u32::MAX] {
        for age in ages.into_iter().chain([half - 1, half, half + 1, u32::MAX]) {
            let tick = last.wrapping_add(age);
            for room in 1..4 {
                for count in 0..5 {
                    let mut list = vec![
                        Entry {
                            block: 1,
                            tick: last
                        };
                        room
                    ];
                    let said = read(&H, 2, tick, &mut list, count);
                    let ahead = count > 0 && age >= half;
                    assert_eq!(said == Err(20), ahead, "{last} {age}");
                }
            }
        }
    }
}

/// Counts at the length, above it and in full width, on lists of any length up to some past 4,096.
#[test]
fn edges_of_the_count() {
    for room in [0, 1, 2, 5, 4095, 4096, 4097, 4099] {
        let list: Vec<Entry> = (0..room)
            .map(|i| Entry {
                block: i % 3,
                tick: i,
            })
            .collect();
        let length = u64::from(room);
        for count in [
            0,
            1,
            length,
            length + 1,
            1 << 32,
            1 << 32 | 1,
            1 << 63,
            u64::MAX,
        ] {
            for tick in [room, READ_WINDOW_MS, READ_WINDOW_MS + 2, 1 << 31] {
                let _ = read(&H, 2, tick, &mut list.clone(), count);
            }
            for block in 0..4 {
                let _ = popularity(&H, block, &list, count);
            }
        }
    }
}

/// The plan's rows, 19, 20 and 21 in their order, where all that come later hold as well.
#[test]
fn order_of_the_rows() {
    let mut list = [Entry { block: 0, tick: 9 }; 2];
    let mut wrong_pair = K;
    wrong_pair[20] = 2;
    for (plan, block, tick, row) in [
        (&[][..], 9, 8, 1),
        (&h().fed(3).bytes(), 9, 8, 22),
        (&h().fed(2).with_budget(13).bytes(), 9, 8, 23),
        (&h_budget(3).bytes(), 9, 8, 10),
        (&wrong_pair, 9, 8, 17),
        (&empty().bytes(), 0, 8, 19),
        (&H, 3, 8, 19),
        (&H, 1 << 16, 8, 19),
        (&H, u32::MAX, 9, 19),
        (&H, 2, 8, 20),
        (&H, 2, 9, 21),
    ] {
        assert_eq!(read(plan, block, tick, &mut list, 2), Err(row));
        let asked = popularity(plan, block, &list, 2);
        assert_eq!(asked.err(), (row != 20 && row != 21).then_some(row));
    }
}

/// The record has the layout of `struct bpl_entry`: two numbers of 32 bits, the block first.
#[test]
fn layout_of_an_entry() {
    assert_eq!((size_of::<Entry>(), align_of::<Entry>()), (8, 4));
    assert_eq!((offset_of!(Entry, block), offset_of!(Entry, tick)), (0, 4));
}
