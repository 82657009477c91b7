//! Plans, placements and comparisons that the tests share.
#![allow(dead_code)]

use bpl::{Entry, Refusal, Report, RunEnd, Step};
use placement_reference::calls;
use placement_reference::damage::*;
use placement_reference::gen::{
    draft, filled, leaning, noise, placement, sized, too_long, Draft, Rng, Size, MEDIUM, SMALL,
    TINY,
};
use placement_reference::plan::{read, Plan};
use placement_reference::reads;
use placement_reference::steps::{self, End, Kind};

/// What stands in a buffer before a call, so that a write is seen.
pub const PATTERN: u64 = 0xA5C3_96F0_1B2D_4E87;

/// The number of cases: BPL_CASES, or the test's own.
pub fn cases(default: u64) -> u64 {
    match std::env::var("BPL_CASES") {
        Ok(text) => text.parse().expect("BPL_CASES is a number"),
        Err(_) => default,
    }
}

/// Sixty blocks on up to twenty machines.
const LONG: Size = Size {
    machines: 20,
    blocks: 60,
    coarse: false,
    version: 1,
};

/// The same size in any version.
pub fn any_version(rng: &mut Rng, size: Size) -> Size {
    Size {
        version: rng.from_to(1, 4) as u16,
        ..size
    }
}

/// Mostly small plans, since the reference's search is plain loops; all versions.
pub fn size(rng: &mut Rng) -> Size {
    let size = match rng.below(20) {
        0 => MEDIUM,
        1 => LONG,
        2..=9 => SMALL,
        _ => TINY,
    };
    any_version(rng, size)
}

/// A plan of version 4 with two or three feeds and twice or three times as many racks, every spread as large as it may
/// be: racks often suffice where feeds do not.
fn on_few_feeds(rng: &mut Rng) -> Draft {
    let feeds = rng.from_to(2, 3) as u8;
    let racks = feeds * rng.from_to(2, 3) as u8;
    let (per_rack, number) = (rng.from_to(1, 2) as u8, rng.from_to(1, 12));
    let mut draft = sized(rng, SMALL.fed(), racks, per_rack, number);
    draft.feed_byte = feeds;
    for record in &mut draft.records {
        record.spread = record.least.min(feeds);
    }
    draft
}

/// A plan that the checks accept.
pub fn accepted(rng: &mut Rng) -> Draft {
    let size = size(rng);
    match rng.below(10) {
        0 => on_few_feeds(rng),
        1 | 2 => filled(rng, size),
        _ => draft(rng, size),
    }
}

/// A plan that row 17 refuses, at times with a flaw of rows 8 to 11 or 23 beside it.
fn wrongly_paired(rng: &mut Rng, size: Size) -> Option<Draft> {
    let how = rng.one_of(&MISPAIRINGS);
    let version = size.version.max(2);
    let alone = mispaired(rng, Size { version, ..size }, how)?;
    Some(match rng.below(8) {
        row @ (0 | 1) => with_block_flaw(rng, alone, 8 + row as u8),
        row @ (2 | 3) => with_sum_flaw(rng, alone, 8 + row as u8),
        4 => with_sum_flaw(rng, alone, 23),
        _ => alone,
    })
}

/// A plan of this size that rows 8 to 11, 17 or 23 refuse, if one is made.
fn over_limits(rng: &mut Rng, size: Size) -> Option<Draft> {
    match rng.below(6) {
        0 => over_budget(rng, size),
        1 => Some(over_capacity(rng, size)),
        2 => over_feeds(rng, size),
        3 => wrongly_paired(rng, size),
        4 => Some(over_both(rng, size)),
        _ => {
            let least_first = rng.once_in(2);
            two_records(rng, size, least_first)
        }
    }
}

/// A damaged plan, or bytes that are none.
pub fn damaged(rng: &mut Rng) -> Vec<u8> {
    let size = size(rng);
    let whole = accepted(rng);
    let kind = rng.below(12);
    match kind {
        0..=4 => {
            if let Some(draft) = over_limits(rng, size) {
                return draft.bytes();
            }
        }
        5 => return noise(rng, size.version as u8),
        6 => return too_long(rng),
        7 if whole.version == 4 => return cut_short(rng, whole.bytes()),
        _ => {}
    }
    let row = match kind {
        8 if whole.version == 4 => 22,
        9 if whole.version == 4 => 23,
        _ => any_row(rng, whole.version),
    };
    let once = flawed(rng, whole.bytes(), row);
    if once.len() >= 15 && rng.once_in(3) {
        let row = any_row(rng, whole.version);
        return flawed(rng, once, row);
    }
    once
}

/// Bytes of either sort, at times with a budget about M × C.
pub fn any_bytes(rng: &mut Rng) -> Vec<u8> {
    match rng.below(12) {
        0..=2 => damaged(rng),
        3 => {
            let size = size(rng);
            near_places(rng, size).bytes()
        }
        _ => accepted(rng).bytes(),
    }
}

/// B words for a plan: a good placement, a damaged one, or random words.
pub fn any_placement(rng: &mut Rng, plan: &Plan) -> Vec<u64> {
    match rng.below(9) {
        0 | 1 => placement(rng, plan),
        2..=4 => leaning(rng, plan),
        5 | 6 => {
            let rows = [(); 5].map(|()| rng.once_in(3));
            broken(rng, plan, rows).unwrap_or_else(|| placement(rng, plan))
        }
        7 => {
            let too_near = [false, false, true, false, false];
            broken(rng, plan, too_near).unwrap_or_else(|| placement(rng, plan))
        }
        _ => plan.blocks.iter().map(|_| rng.word()).collect(),
    }
}

/// Words to lend with these bytes: a placement and spare words behind it, or one too few, or any.
pub fn lent_words(rng: &mut Rng, bytes: &[u8]) -> Vec<u64> {
    let Ok(plan) = read(bytes) else {
        let number = rng.below(20) as usize;
        return patterned(number);
    };
    let mut words = any_placement(rng, &plan);
    if rng.once_in(12) {
        words.pop();
        return words;
    }
    let spare = rng.below(4) as usize;
    words.extend(patterned(spare));
    words
}

/// The version that the bytes tell, if they reach so far.
pub fn version_of(bytes: &[u8]) -> Option<u16> {
    let field = bytes.get(3..5)?;
    Some(u16::from_be_bytes([field[0], field[1]]))
}

/// Lengths for a converted plan's buffer: two at random, near to what the plan needs, and what it needs.
pub fn buffer_lengths(rng: &mut Rng, bytes: &[u8]) -> [usize; 3] {
    let at = if version_of(bytes) == Some(4) { 14 } else { 13 };
    let blocks = bytes
        .get(at..at + 2)
        .map_or(0, |b| usize::from(b[0]) << 8 | usize::from(b[1]));
    let need = 15 + 7 * blocks;
    let near = need - 3 + rng.below(7) as usize;
    let any = match rng.below(4) {
        0 => 0,
        1 => bytes.len(),
        2 => need - 1,
        _ => rng.below(2 * need as u64) as usize,
    };
    [near, any, need]
}

/// Words that all differ.
pub fn patterned(number: usize) -> Vec<u64> {
    (0..number as u64)
        .map(|i| PATTERN.wrapping_mul(2 * i + 1))
        .collect()
}

/// A step limit.
pub fn step_limit(rng: &mut Rng) -> u32 {
    match rng.below(6) {
        0 => 0,
        1 => 1,
        2 => 2,
        3 => u32::MAX,
        _ => rng.below(40) as u32,
    }
}

/// A binding's answer with the refusal as its number.
pub fn numbered<T>(answer: Result<T, Refusal>) -> Result<T, u8> {
    answer.map_err(Refusal::number)
}

/// The reference's report as the binding's.
pub fn report_of(report: calls::Report) -> Report {
    Report {
        max_load: report.maximum,
        min_load: report.minimum,
        total_load: report.sum,
        max_share: report.largest_share,
    }
}

/// The reference's step as the binding's.
pub fn step_of(step: steps::Step) -> Step {
    let steps::Step { kind, m, n, i, j } = step;
    match (kind, j) {
        (Kind::Move, None) => Step::Move { m, n, i },
        (Kind::RackMove, None) => Step::RackMove { m, n, i },
        (Kind::Swap, Some(j)) => Step::Swap { m, n, i, j },
        (Kind::RackSwap, Some(j)) => Step::RackSwap { m, n, i, j },
        _ => panic!("a move has no second block and a swap has one: {step:?}"),
    }
}

/// The reference's records of a list as the binding's.
pub fn list_of(list: &[reads::Entry]) -> Vec<Entry> {
    let entry = |e: &reads::Entry| Entry {
        block: e.block,
        tick: e.tick,
    };
    list.iter().map(entry).collect()
}

/// The binding's records of a list as the reference's.
pub fn reference_list(list: &[Entry]) -> Vec<reads::Entry> {
    let entry = |e: &Entry| reads::Entry {
        block: e.block,
        tick: e.tick,
    };
    list.iter().map(entry).collect()
}

/// The reference's end of a run as the binding's.
pub fn end_of((end, steps): (End, u32)) -> RunEnd {
    match end {
        End::Rest => RunEnd::Rest(steps),
        End::Spent => RunEnd::Spent(steps),
    }
}

/// A refused call left the buffer as it was, and any call the items past the plan's blocks.
pub fn kept<T: PartialEq + std::fmt::Debug>(
    refused: bool,
    bytes: &[u8],
    before: &[T],
    after: &[T],
) {
    if refused {
        assert_eq!(before, after, "a refused call wrote");
    } else {
        let blocks = read(bytes)
            .expect("an answered call has a plan")
            .blocks
            .len();
        assert_eq!(before[blocks..], after[blocks..], "a call wrote past B");
    }
}
