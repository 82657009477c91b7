//! Trials of reads and popularities, and rows 19 to 21.

use super::*;
use crate::histories::{history, Caller, Event, Manner};
use crate::reads::{Entry, HALF_TURN, MOST_ENTRIES, WINDOW};
use crate::stream::RECORDS;

/// The largest count that the stream can name.
const LARGEST_COUNT: u64 = (1 << 48) - 1;

/// All trials of reads.
pub fn all(w: &mut Writer, rng: &mut Rng) {
    whole_list(w, rng);
    ages(w);
    orders_of_rows(w);
    counts_handed_in(w);
    popularities_of_pairs(w);
    unordered_lists(w);
    w.title("reads: random histories");
    random_histories(w, rng, 60, &[1, 2]);
}

/// A record of any numbers that are not 0, so that one written shows.
fn strange(rng: &mut Rng) -> Entry {
    Entry {
        block: rng.from_to(1, u64::from(u32::MAX)) as u32,
        tick: rng.from_to(1, u64::from(u32::MAX)) as u32,
    }
}

/// A list of records (block, tick), and the count of entries that the next call hands in.
fn handed_in(w: &mut Writer, list: &[(u32, u32)], count: u64) {
    let entry = |(block, tick): &(u32, u32)| Entry {
        block: *block,
        tick: *tick,
    };
    let list: Vec<Entry> = list.iter().map(entry).collect();
    w.list(&list);
    w.count(count);
}

/// A list longer than 4,096 records, full of entries: counts above the length, rows 20 and 21, also where 4,095 are
/// lent, then reads that drop one entry, half of them, and nearly all.
fn whole_list(w: &mut Writer, rng: &mut Rng) {
    w.title("reads: a list of 4150 records, of which 4096 are used");
    let gap = WINDOW / MOST_ENTRIES as u32;
    let start = 0_u32.wrapping_sub(2000 * gap);
    let tick = |i: usize| start.wrapping_add(i as u32 * gap);
    let mut list: Vec<Entry> = (0..RECORDS).map(|_| strange(rng)).collect();
    for (i, entry) in list[..MOST_ENTRIES].iter_mut().enumerate() {
        *entry = Entry {
            block: i as u32 % 5,
            tick: tick(i),
        };
    }
    w.plan(&K);
    w.records(0, &list);
    w.lend_records(4150);
    for count in [4096, 4097, 4150, 1 << 32, LARGEST_COUNT] {
        w.count(count);
        w.read(2, tick(0).wrapping_add(WINDOW - 1));
        w.popularity(3);
    }
    w.lend_records(4095);
    w.read(2, tick(4094).wrapping_sub(1));
    w.read(2, tick(0).wrapping_add(WINDOW - 1));
    w.lend_records(4150);
    w.read(2, tick(0).wrapping_add(WINDOW));
    w.read(2, tick(0).wrapping_add(WINDOW));
    w.popularity(2);
    w.read(1, tick(2048).wrapping_add(WINDOW));
    w.popularity(0);
    w.read(3, tick(4095).wrapping_add(WINDOW));
    w.read(3, tick(2048).wrapping_add(2 * WINDOW));
    w.popularity(3);
}

/// Ages at the window's end and at half a turn, with ticks that start over.
fn ages(w: &mut Writer) {
    w.title("reads: ages at the end of the window and at half a turn");
    w.plan(&H);
    for last in [5, 0, HALF_TURN, u32::MAX] {
        for age in [
            0,
            WINDOW - 1,
            WINDOW,
            WINDOW + 1,
            HALF_TURN - 1,
            HALF_TURN,
            HALF_TURN + 1,
            u32::MAX,
        ] {
            let before = last.wrapping_sub(1);
            handed_in(w, &[(0, before), (1, last), (7, 8), (9, 10)], 2);
            w.read(2, last.wrapping_add(age));
            w.popularity(0);
        }
    }
}

/// The plan's rows, 19, 20 and 21, where those that come later hold as well; a refused read drops nothing.
fn orders_of_rows(w: &mut Writer) {
    w.title("reads: rows 19 to 21 after those of the plan");
    let old = [(0, 0), (1, WINDOW - 1), (2, WINDOW)];
    let full = [(0, WINDOW), (1, WINDOW), (2, WINDOW)];
    let wrong_pair = [&K[..20], &[2], &K[21..]].concat();
    for plan in [
        &[][..],
        &h_changed(0, 0),
        &H[..29],
        &h_budget(3).bytes(),
        &row_eleven(1).bytes(),
        &wrong_pair,
        &empty().bytes(),
        &H,
        &K,
    ] {
        w.plan(plan);
        for (list, tick) in [
            (&old[..], WINDOW - 1),
            (&old, WINDOW),
            (&full, WINDOW - 1),
            (&full, WINDOW),
            (&full[..2], 2 * WINDOW),
            (&[], 9),
        ] {
            for block in [2, 3, 4, 1 << 16, u32::MAX] {
                handed_in(w, list, 3);
                w.read(block, tick);
                w.popularity(block);
            }
        }
    }
}

/// Counts below the length, at it, above it and in more than 32 bits, and an empty list at any tick.
fn counts_handed_in(w: &mut Writer) {
    w.title("reads: counts below, at and above the length");
    w.plan(&H);
    let list = [(1, 0), (2, 1), (0, WINDOW), (1, 7)];
    for length in [4, 3, 1, 0] {
        for count in [0, 1, 2, 3, 4, 5, 1 << 32, 1 << 32 | 1, LARGEST_COUNT] {
            for tick in [0, WINDOW, HALF_TURN] {
                handed_in(w, &list[..length], count);
                w.read(1, tick);
                w.popularity(1);
            }
        }
    }
}

/// Plan K, whose blocks 0 and 1 are a pair, and the same without it.
fn popularities_of_pairs(w: &mut Writer) {
    w.title("popularities of a pair: the larger");
    let reads = [1, 2, 1, 0, 1, 2, 0, 9, 3, 0, 0, 0].map(|block| (block, 7));
    for plan in [k(), k().unpaired()] {
        w.plan(&plan.bytes());
        handed_in(w, &reads, 0);
        for count in 0..=reads.len() {
            w.count(count as u64);
            for block in 0..4 {
                w.popularity(block);
            }
        }
    }
}

/// Lists that no history made: entries too old behind younger ones, and ticks ahead before the last one.
fn unordered_lists(w: &mut Writer) {
    w.title("reads: lists that no history made");
    w.plan(&H);
    let list = [(0, WINDOW), (1, 0), (2, HALF_TURN), (77, 1), (1, 2), (0, 9)];
    for count in 0..=list.len() {
        for tick in [9, WINDOW - 1, WINDOW, WINDOW + 1, HALF_TURN] {
            handed_in(w, &list, count as u64);
            w.read(2, tick);
            w.read(0, tick);
        }
    }
}

/// Writes what comes next; of a list the records that differ from those that the caller has in hand.
fn event(w: &mut Writer, caller: &Caller, event: &Event) {
    match event {
        Event::Plan(bytes) => w.plan(bytes),
        Event::List(list) => {
            for (i, entry) in list.iter().enumerate() {
                if caller.list[i] != *entry {
                    w.records(i, &[*entry]);
                }
            }
        }
        Event::Count(count) => w.count((*count).min(LARGEST_COUNT)),
        Event::Read { block, tick } => w.read(*block, *tick),
        Event::Popularity { block } => w.popularity(*block),
    }
}

/// Popularities and reads of one short list with each of these plans, refused ones among them.
pub(super) fn reads_with(w: &mut Writer, plans: &[&[u8]]) {
    let records = [(0, 7), (1, 7), (1, 8), (2, 9), (9, 9)];
    let list = records.map(|(block, tick)| Entry { block, tick });
    for plan in plans {
        w.plan(plan);
        w.list(&list);
        w.count(4);
        for block in 0..4 {
            w.popularity(block);
        }
        for (block, tick) in [(4, 9), (3, 9), (2, 8), (2, WINDOW + 7), (1, WINDOW + 8)] {
            w.read(block, tick);
        }
    }
}

/// Random histories over short lists, with a few strange records behind, and plans of these versions.
pub(super) fn random_histories(
    w: &mut Writer,
    rng: &mut Rng,
    number: usize,
    versions: &'static [u16],
) {
    for k in 0..number {
        let manner = Manner {
            room: 1 + k % 10,
            calls: 24,
            damaged: k % 3 == 2,
            dense: rng.once_in(3),
            versions,
        };
        let mut list = vec![Entry::default(); manner.room];
        let mut caller = Caller {
            list: list.clone(),
            ..Caller::default()
        };
        list.extend((0..3).map(|_| strange(rng)));
        w.records(0, &list);
        w.lend_records(manner.room);
        for next in history(rng, manner) {
            event(w, &caller, &next);
            caller.does(&next);
        }
    }
}
