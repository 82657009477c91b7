//! Reads of blocks, counted over two hours in a lent list.

use crate::answers::{settled, Refusal};
use crate::raw;

/// The records of a list that are used at most.
pub const MAX_ENTRIES: usize = 4096;

/// A read counts while its age is below this number of milliseconds: two hours.
pub const READ_WINDOW_MS: u32 = 7_200_000;

/// A record of the list: a block that was read, and the millisecond tick at which it was.
#[derive(Clone, Copy, Debug, Default, PartialEq, Eq, Hash)]
#[repr(C)]
pub struct Entry {
    pub block: u32,
    pub tick: u32,
}

/// Enters a read of a block at a millisecond tick, which starts over after 32 bits, and answers the new count of
/// entries: refusals 1 to 11, 17 and 19 to 23.
///
/// The entries are the first `count` records of `list`; start with a count of 0, and hand in the list and the count
/// that the last accepted read left. Entries of two hours and more are dropped, those kept move to the front in order,
/// the new one follows, and later records become 0. Records past `MAX_ENTRIES` are never read or written, and a count
/// above the number of records that are used is taken as it.
///
/// A tick behind that of the last entry is refused with 20: take ticks from a monotonic clock. After 2^31 ms (24.8
/// days) without an accepted read every read is refused with 20 until the tick has gone round: pass a count of 0 to
/// begin anew.
///
/// ```
/// use bpl::Entry;
///
/// // One rack of two machines, three blocks of one copy.
/// let mut plan = vec![0x42, 0x50, 0x4C, 0, 1, 1, 2, 0, 2, 0, 0, 0, 3, 0, 3];
/// plan.extend([0, 0, 4, 1, 1, 0, 0, 1, 1, 1, 0, 0, 2, 1, 1]);
/// let mut list = [Entry::default(); 2];
/// let mut count = bpl::read(&plan, 2, 5_000, &mut list, 0)?;
/// count = bpl::read(&plan, 2, 6_000, &mut list, count)?;
/// assert_eq!(bpl::popularity(&plan, 2, &list, count)?, 2);
/// // The list is full until the first read is two hours old.
/// assert_eq!(bpl::read(&plan, 0, 7_204_999, &mut list, count).unwrap_err().number(), 21);
/// count = bpl::read(&plan, 0, 7_205_000, &mut list, count)?;
/// assert_eq!(count, 2);
/// assert_eq!(bpl::popularity(&plan, 2, &list, count)?, 1);
/// # Ok::<(), bpl::Refusal>(())
/// ```
pub fn read(
    plan: &[u8],
    block: u32,
    tick: u32,
    list: &mut [Entry],
    count: u64,
) -> Result<u64, Refusal> {
    let mut out = [0; raw::READ_NUMBERS];
    // SAFETY: each pointer and length are those of a slice that is borrowed for the whole call; `list` is borrowed
    // alone, so it overlaps no other buffer, and `out` is a local of its own with the length that is passed.
    settled(unsafe {
        raw::bpl_read(
            plan.as_ptr(),
            plan.len(),
            block,
            tick,
            list.as_mut_ptr(),
            list.len(),
            count,
            out.as_mut_ptr(),
            out.len(),
        )
    })?;
    Ok(out[0])
}

/// The popularity of a block: the number of its entries, for both blocks of a pair the larger of their numbers.
/// Refusals 1 to 11, 17, 19, 22 and 23. Entries are dropped by reads alone.
pub fn popularity(plan: &[u8], block: u32, list: &[Entry], count: u64) -> Result<u64, Refusal> {
    let mut out = [0; raw::POPULARITY_NUMBERS];
    // SAFETY: as in `read`; the list is not written.
    settled(unsafe {
        raw::bpl_popularity(
            plan.as_ptr(),
            plan.len(),
            block,
            list.as_ptr(),
            list.len(),
            count,
            out.as_mut_ptr(),
            out.len(),
        )
    })?;
    Ok(out[0])
}
