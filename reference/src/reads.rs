//! Reads counted over two hours, for the next plan file (rows 19 to 21). The entries stand in a lent list of records;
//! how many there are is handed in, and answered anew for an accepted read. A refused call writes nothing.

use crate::plan::{read, refuse_if, Plan, Refusal};

/// The records of a list that are used at most; those past them are never read or written.
pub const MOST_ENTRIES: usize = 4096;

/// A read counts while its age is below this number of milliseconds: two hours.
pub const WINDOW: u32 = 7_200_000;

/// The age from which on the last tick is taken to lie ahead: successive accepted reads are less than this apart.
pub const HALF_TURN: u32 = 1 << 31;

/// A record of the list: the block that was read, and the millisecond tick, which starts over after 32 bits.
#[derive(Clone, Copy, Debug, Default, PartialEq, Eq)]
pub struct Entry {
    pub block: u32,
    pub tick: u32,
}

/// The age of a tick: the difference modulo 2 to the power 32.
pub fn age(now: u32, tick: u32) -> u32 {
    now.wrapping_sub(tick)
}

/// The usable length of a list: the smaller of its length and 4,096.
pub fn usable(list: &[Entry]) -> usize {
    list.len().min(MOST_ENTRIES)
}

/// The entries: the first `count` records; a count above the usable length is taken as it.
pub fn entries(list: &[Entry], count: u64) -> &[Entry] {
    let number = count.min(usable(list) as u64);
    &list[..number as usize]
}

/// Row 19: the block is not in the plan.
fn is_unknown(plan: &Plan, block: u32) -> bool {
    block as usize >= plan.blocks.len()
}

/// Row 20: there is a last tick, and its age is 2 to the power 31 or more.
fn is_ahead(entries: &[Entry], tick: u32) -> bool {
    let last = entries.last();
    last.is_some_and(|e| age(tick, e.tick) >= HALF_TURN)
}

/// The entries that still count at a tick, in order.
fn kept(entries: &[Entry], tick: u32) -> Vec<Entry> {
    let counts = |e: &&Entry| age(tick, e.tick) < WINDOW;
    entries.iter().filter(counts).copied().collect()
}

/// The number of a block's entries.
fn reads_of(entries: &[Entry], block: usize) -> u64 {
    entries.iter().filter(|e| e.block as usize == block).count() as u64
}

/// Enters a read of a block at a tick. Entries too old are dropped, those kept move to the front in order, the new one
/// follows, and later usable records become 0. Answers the new count.
pub fn enter_read(
    bytes: &[u8],
    block: u32,
    tick: u32,
    list: &mut [Entry],
    count: u64,
) -> Result<u64, Refusal> {
    let plan = read(bytes)?;
    let usable = usable(list);
    let before = entries(list, count);
    refuse_if(is_unknown(&plan, block), 19)?;
    refuse_if(is_ahead(before, tick), 20)?;
    let mut after = kept(before, tick);
    refuse_if(after.len() == usable, 21)?;
    after.push(Entry { block, tick });
    let number = after.len();
    after.resize(usable, Entry::default());
    list[..usable].copy_from_slice(&after);
    Ok(number as u64)
}

/// The popularity of a block: the number of its entries, for both blocks of a pair the larger of their numbers.
pub fn enter_popularity(
    bytes: &[u8],
    block: u32,
    list: &[Entry],
    count: u64,
) -> Result<u64, Refusal> {
    let plan = read(bytes)?;
    let entries = entries(list, count);
    refuse_if(is_unknown(&plan, block), 19)?;
    let block = block as usize;
    let own = reads_of(entries, block);
    let other = plan.partner(block).map(|k| reads_of(entries, k));
    Ok(own.max(other.unwrap_or(0)))
}
