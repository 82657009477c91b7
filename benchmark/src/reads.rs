//! The calls on reads that are timed. Each side has records of its own form, and makes its list before the clock runs.

use crate::timing::timed;
use placement_reference::plan::Refusal;
use placement_reference::reads::{Entry, MOST_ENTRIES, WINDOW};

/// A call on a list whose records are all entries; a popularity has no tick.
pub struct Call<'a> {
    pub bytes: &'a [u8],
    pub block: u32,
    pub tick: u32,
    pub list: &'a [Entry],
}

/// What a call answers.
type Answer = Result<u64, Refusal>;

/// A side's two calls, on records of its own form.
type Read<E> = fn(&[u8], u32, u32, &mut [E], u64) -> Answer;
type Popularity<E> = fn(&[u8], u32, &[E], u64) -> Answer;

/// The time between two entries of a full list, so that all are in the window.
const GAP: u32 = WINDOW / MOST_ENTRIES as u32;

/// A full list of 4,096 entries: reads of the first `blocks` blocks in turn, from tick 0 on.
pub fn full_list(blocks: u16) -> Vec<Entry> {
    let entry = |i: u32| Entry {
        block: i % u32::from(blocks),
        tick: i * GAP,
    };
    (0..MOST_ENTRIES as u32).map(entry).collect()
}

/// The tick at which the first `number` entries of a full list are too old, and the others are not.
pub fn tick_that_drops(number: u32) -> u32 {
    WINDOW + (number - 1) * GAP
}

/// Times a read on records of a side's own form: seconds, and the new count and the list after it. Before each call the
/// list is put in place.
pub fn read_timed<E: Copy>(
    call: &Call,
    form: fn(&Entry) -> E,
    back: fn(&E) -> Entry,
    read: Read<E>,
) -> (f64, (u64, Vec<Entry>)) {
    let start: Vec<E> = call.list.iter().map(form).collect();
    let (mut list, count) = (start.clone(), start.len() as u64);
    let (seconds, answer) = timed(|| {
        list.copy_from_slice(&start);
        read(call.bytes, call.block, call.tick, &mut list, count)
    });
    let count = answer.expect("a read that is accepted");
    (seconds, (count, list.iter().map(back).collect()))
}

/// Times a popularity on records of a side's own form: seconds, and the answer.
pub fn popularity_timed<E>(
    call: &Call,
    form: fn(&Entry) -> E,
    popularity: Popularity<E>,
) -> (f64, u64) {
    let list: Vec<E> = call.list.iter().map(form).collect();
    let (seconds, answer) = timed(|| popularity(call.bytes, call.block, &list, list.len() as u64));
    (seconds, answer.expect("a block of the plan"))
}
