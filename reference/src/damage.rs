//! Damaged plans (rows 1 to 11, 17, 22 and 23) and damaged placements (rows 13 to 16, and 18).

use crate::gen::{draft, filled, placement, Draft, Record, Rng, Size};
use crate::placement::{broken_rows, copies_of, held_by, holds};
use crate::plan::{most_copies, Plan};

/// The rows for a plan of any version, in the order of the checks. In version 4 a plan that breaks 11 breaks 23 or 10, too,
/// so that 11 is never given.
pub const PLAN_ROWS: [u8; 14] = [1, 2, 3, 4, 22, 5, 6, 7, 8, 9, 17, 23, 10, 11];

/// Those for a plan of version 2 or 3. Row 17 refuses none of version 1.
pub const ROWS_BEFORE_FEEDS: [u8; 12] = [1, 2, 3, 4, 5, 6, 7, 8, 9, 17, 10, 11];

/// A row that a plan of this version may break.
pub fn any_row(rng: &mut Rng, version: u16) -> u8 {
    let since = |row: u8| match row {
        17 => 2,
        22 | 23 => 4,
        _ => 1,
    };
    let rows = PLAN_ROWS.into_iter();
    let rows: Vec<u8> = rows.filter(|row| since(*row) <= version).collect();
    rng.one_of(&rows)
}

/// The plan file with one more flaw, that of the given row (1 to 11, 17 from version 2 on, 22 and 23 in version 4). Rows
/// that need a record are left out of a file that has none.
pub fn flawed(rng: &mut Rng, mut bytes: Vec<u8>, row: u8) -> Vec<u8> {
    let above = above_most(&bytes);
    let later = header_length(&bytes) - 15;
    match row {
        1 => bytes.truncate(rng.below(15) as usize),
        2 => bytes[rng.below(3) as usize] ^= rng.from_to(1, 255) as u8,
        3 => strange_version(rng, &mut bytes),
        4 => set(&mut bytes, 5, &machines_refused(rng)),
        22 => flaw_feeds(rng, &mut bytes),
        5 => set(
            &mut bytes,
            7 + later,
            &rng.one_of(&[[0, 0], [4, 1], [255, 255], [8, 0]]),
        ),
        6 => set(
            &mut bytes,
            13 + later,
            &rng.one_of(&[[4, 1], [255, 255], [5, 0]]),
        ),
        7 => lengthened(rng, &mut bytes),
        8 => flaw_record(rng, &mut bytes, 0, &[0, above, 255]),
        9 => flaw_record(rng, &mut bytes, 1, &[0, above, 65, 255]),
        10 => set(&mut bytes, 9 + later, &rng.one_of(&[[0; 4], [0, 0, 0, 1]])),
        17 => flaw_record(rng, &mut bytes, 2, &[2, 3, 128, 255]),
        23 => flaw_budget(rng, &mut bytes),
        _ => {
            set(&mut bytes, 5, &[1, 1, 1]);
            set(&mut bytes, 7 + later, &[0, 1]);
        }
    }
    bytes
}

/// Writes `what` from byte `at` on, as far as the file reaches.
fn set(bytes: &mut [u8], at: usize, what: &[u8]) {
    for (k, byte) in what.iter().enumerate() {
        if at + k < bytes.len() {
            bytes[at + k] = *byte;
        }
    }
}

/// Another version: 0, or one above 4, so that no request describes it.
fn strange_version(rng: &mut Rng, bytes: &mut [u8]) {
    bytes[rng.from_to(3, 4) as usize] ^= rng.from_to(1, 255) as u8;
    if bytes[3] == 0 && (1..=4).contains(&bytes[4]) {
        bytes[4] += 4;
    }
}

/// Racks and machines per rack that row 4 refuses; some products are 0 or small in 8 bits.
fn machines_refused(rng: &mut Rng) -> [u8; 2] {
    rng.one_of(&[
        [0, 4],
        [4, 0],
        [0, 0],
        [13, 5],
        [5, 13],
        [1, 65],
        [65, 1],
        [16, 16],
        [128, 2],
        [255, 255],
        [43, 6],
    ])
}

/// Feeds that row 22 refuses, in a file of version 4: none, fewer than the racks that do not divide them, or more.
fn flaw_feeds(rng: &mut Rng, bytes: &mut [u8]) {
    if header_length(bytes) == 15 || bytes.len() < 8 {
        return;
    }
    let racks = bytes[5];
    let between: Vec<u8> = (1..racks).filter(|f| !racks.is_multiple_of(*f)).collect();
    bytes[7] = match rng.below(3) {
        0 => 0,
        1 if !between.is_empty() => rng.one_of(&between),
        _ => rng.from_to(u64::from(racks.min(254)) + 1, 255) as u8,
    };
}

/// A budget above so many places: one above, the largest, or any.
fn above(rng: &mut Rng, places: u64) -> u32 {
    let most = u64::from(u32::MAX);
    let budget = match rng.below(3) {
        0 => places + 1,
        1 => most,
        _ => rng.from_to(places + 1, most),
    };
    budget as u32
}

/// A budget that row 23 refuses, in a file of version 4.
fn flaw_budget(rng: &mut Rng, bytes: &mut [u8]) {
    if header_length(bytes) == 15 || bytes.len() < 10 {
        return;
    }
    let capacity = u16::from_be_bytes([bytes[8], bytes[9]]);
    let places = u64::from(bytes[5]) * u64::from(bytes[6]) * u64::from(capacity);
    set(bytes, 10, &above(rng, places).to_be_bytes());
}

/// The version of this file if it has one of less than 256, otherwise 1.
fn version_in(bytes: &[u8]) -> u8 {
    match bytes.get(3..5) {
        Some([0, version]) => *version,
        _ => 1,
    }
}

/// One more than the most copies of a block in this file's version.
fn above_most(bytes: &[u8]) -> u8 {
    most_copies(version_in(bytes).into()) as u8 + 1
}

/// The bytes before the records of this file.
fn header_length(bytes: &[u8]) -> usize {
    match version_in(bytes) {
        4 => 16,
        _ => 15,
    }
}

/// The bytes of a popularity in this file, and those of a record.
fn record_widths(bytes: &[u8]) -> (usize, usize) {
    match version_in(bytes) {
        3 | 4 => (4, 7),
        2 => (3, 6),
        _ => (3, 5),
    }
}

/// The first 15 bytes of a file of version 4, with any byte for the first of the number of blocks: row 7, whatever row 6
/// would say of that byte, unless an earlier row refuses it.
pub fn cut_short(rng: &mut Rng, mut bytes: Vec<u8>) -> Vec<u8> {
    bytes.truncate(15);
    bytes[14] = rng.below(256) as u8;
    bytes
}

/// One byte too few, one too many, or one record too many.
fn lengthened(rng: &mut Rng, bytes: &mut Vec<u8>) {
    let record = [0, 0, 0, 1, 1, 1, 0];
    let (width, length) = record_widths(bytes);
    match rng.below(3) {
        0 if bytes.len() > header_length(bytes) => bytes.truncate(bytes.len() - 1),
        1 => bytes.extend(&record[4 - width..][..length]),
        _ => bytes.push(0),
    }
}

/// Puts one of the numbers into byte `at` behind the popularity of a record, where the records of this file have one.
fn flaw_record(rng: &mut Rng, bytes: &mut [u8], at: usize, numbers: &[u8]) {
    let (width, length) = record_widths(bytes);
    let header = header_length(bytes);
    let number = bytes.len().saturating_sub(header) / length;
    if number > 0 && width + at < length {
        let i = rng.below(number as u64) as usize;
        bytes[header + length * i + width + at] = rng.one_of(numbers);
    }
}

/// An accepted plan, changed so that row 10 and not an earlier one refuses it: one copy too few.
pub fn over_budget(rng: &mut Rng, size: Size) -> Option<Draft> {
    let mut draft = draft(rng, size);
    draft.budget = u32::try_from(draft.least_sum().checked_sub(1)?).ok()?;
    Some(draft)
}

/// A full plan, with one block more than the machines can hold: row 11, in version 4 row 23.
pub fn over_capacity(rng: &mut Rng, size: Size) -> Draft {
    let mut draft = filled(rng, size);
    draft.records.push(Record {
        popularity: rng.below(9) as u32,
        least: 1,
        spread: 1,
        pair: 0,
    });
    draft.budget = draft.least_sum() as u32 + rng.below(3) as u32;
    draft
}

/// The same with more blocks, and a budget above M × C that is too small for their least copies: row 10, in version 4 row
/// 23, which comes first.
pub fn over_both(rng: &mut Rng, size: Size) -> Draft {
    let mut draft = over_capacity(rng, size);
    let last = *draft.records.last().expect("the block too many");
    let more = rng.from_to(1, 3) as usize;
    draft.records.extend(vec![last; more]);
    draft.budget = rng.from_to(draft.places() + 1, draft.least_sum() - 1) as u32;
    draft
}

/// A plan that the checks accept but for its budget, which is one below M × C, at it, one above or any above. In version
/// 4 row 23 refuses it above; where the least copies fill the machines, row 10 refuses it below.
pub fn near_places(rng: &mut Rng, size: Size) -> Draft {
    let mut draft = match rng.below(3) {
        0 => filled(rng, size),
        _ => draft(rng, size),
    };
    let places = draft.places();
    draft.budget = match rng.below(4) {
        3 => above(rng, places),
        more => (places + more - 1) as u32,
    };
    draft
}

/// An accepted plan with two records broken: one by row 8 and another by row 9, in the order wanted.
pub fn two_records(rng: &mut Rng, size: Size, least_first: bool) -> Option<Draft> {
    let mut draft = draft(rng, size);
    let number = draft.records.len() as u64;
    let early = rng.below(number.checked_sub(1).filter(|n| *n > 0)?);
    let late = rng.from_to(early + 1, number - 1);
    let (eight, nine) = if least_first {
        (early, late)
    } else {
        (late, early)
    };
    draft.records[eight as usize].least = draft.most_copies() + 1;
    draft.records[nine as usize].spread = rng.one_of(&[0, 100]);
    Some(draft)
}

/// An accepted plan with a spread above R, in version 4 above F, that is not above the block's least copies: row 9.
pub fn over_feeds(rng: &mut Rng, size: Size) -> Option<Draft> {
    let mut draft = draft(rng, size);
    let feeds = draft.feeds();
    if draft.records.is_empty()
        || draft.machines().min(draft.most_copies().into()) <= u64::from(feeds)
    {
        return None;
    }
    let i = rng.below(draft.records.len() as u64) as usize;
    let most = draft.upper(i);
    if most <= feeds {
        return None;
    }
    draft.records[i].least = rng.from_to(u64::from(feeds) + 1, u64::from(most)) as u8;
    draft.records[i].spread = feeds + 1;
    Some(draft)
}

/// The ways in which row 17 refuses a plan: a byte that is neither 0 nor 1, the last block with 1, two successive
/// blocks with 1, a pair that differs in popularity, least copies or spread.
#[derive(Clone, Copy, Debug, PartialEq, Eq)]
pub enum Mispairing {
    Neither,
    Last,
    Successive,
    Popularity,
    Least,
    Spread,
}

pub const MISPAIRINGS: [Mispairing; 6] = [
    Mispairing::Neither,
    Mispairing::Last,
    Mispairing::Successive,
    Mispairing::Popularity,
    Mispairing::Least,
    Mispairing::Spread,
];

/// Makes so many blocks from i on alike and gives all but the last of them the byte 1, so that two are a pair; no pair
/// ends at i. Least copies and spread are within the limits of a paired block.
fn couple(draft: &mut Draft, i: usize, number: usize) {
    let half = (draft.machines() / 2).min(draft.most_copies().into()) as u8;
    let mut record = draft.records[i];
    record.least = record.least.min(half);
    record.spread = record.spread.min(record.least);
    if i > 0 {
        draft.records[i - 1].pair = 0;
    }
    for k in 0..number {
        record.pair = u8::from(k + 1 < number);
        draft.records[i + k] = record;
    }
}

/// Makes the pair at i differ in its popularity, least copies or spread. False where the machines are too few.
fn differ(rng: &mut Rng, draft: &mut Draft, i: usize, how: Mispairing) -> bool {
    let half = (draft.machines() / 2).min(draft.most_copies().into());
    let (feeds, other) = (draft.feeds(), i + rng.below(2) as usize);
    if how == Mispairing::Popularity {
        let bits = if draft.version >= 3 { 32 } else { 24 };
        draft.records[other].popularity ^= 1 << rng.below(bits);
        return true;
    }
    if half < 2 || how == Mispairing::Spread && feeds < 2 {
        return false;
    }
    let least = rng.from_to(2, half) as u8;
    for record in &mut draft.records[i..i + 2] {
        (record.least, record.spread) = (least, 1);
    }
    match how {
        Mispairing::Least => draft.records[other].least -= 1,
        _ => draft.records[other].spread = 2,
    }
    true
}

/// A plan with room for all least copies that row 17 refuses in this way alone, for a size from version 2 on.
pub fn mispaired(rng: &mut Rng, size: Size, how: Mispairing) -> Option<Draft> {
    let mut draft = draft(rng, size);
    let number = draft.records.len();
    if number < 3 || draft.machines() < 2 {
        return None;
    }
    draft.capacity = 1024;
    draft.budget = draft.usable(u32::MAX.into());
    let i = rng.below(number as u64 - 2) as usize;
    match how {
        Mispairing::Neither => draft.records[i].pair = rng.from_to(2, 255) as u8,
        Mispairing::Last => {
            couple(&mut draft, number - 1, 1);
            draft.records[number - 1].pair = 1;
        }
        Mispairing::Successive => couple(&mut draft, i, 3),
        _ => {
            let i = i + rng.below(2) as usize;
            couple(&mut draft, i, 2);
            if !differ(rng, &mut draft, i, how) {
                return None;
            }
        }
    }
    Some(draft)
}

/// The plan with one more flaw of row 8 or 9, at any block.
pub fn with_block_flaw(rng: &mut Rng, mut draft: Draft, row: u8) -> Draft {
    let i = rng.below(draft.records.len() as u64) as usize;
    match row {
        8 => draft.records[i].least = rng.one_of(&[0, draft.upper(i) + 1, 255]),
        _ => draft.records[i].spread = rng.one_of(&[0, draft.records[i].least + 1, 255]),
    }
    draft
}

/// The plan with one more flaw of row 10, 11 or 23; for 11 blocks come before the first.
pub fn with_sum_flaw(rng: &mut Rng, mut draft: Draft, row: u8) -> Draft {
    match row {
        10 => draft.budget = rng.below(draft.least_sum()) as u32,
        23 => draft.budget = above(rng, draft.places()),
        _ => fill_up(&mut draft),
    }
    draft
}

/// Gives each machine one place, and the plan blocks before the first until they are too many.
fn fill_up(draft: &mut Draft) {
    draft.capacity = 1;
    while draft.least_sum() <= draft.machines() {
        let record = Record {
            popularity: 1,
            least: 1,
            spread: 1,
            pair: 0,
        };
        draft.records.insert(0, record);
    }
}

/// Sets a bit at or above M, in place of a copy or beside it.
fn set_outside(rng: &mut Rng, plan: &Plan, words: &mut [u64]) {
    if plan.machines() == 64 {
        return;
    }
    let i = rng.below(words.len() as u64) as usize;
    if rng.once_in(2) {
        drop_copy(rng, words, i);
    }
    words[i] |= 1 << rng.from_to(plan.machines() as u64, 63);
}

/// Takes some copy of block `i` away.
fn drop_copy(rng: &mut Rng, words: &mut [u64], i: usize) {
    let held: Vec<usize> = (0..64).filter(|m| holds(words[i], *m)).collect();
    if !held.is_empty() {
        words[i] &= !(1 << rng.one_of(&held));
    }
}

/// One copy more or one less of some block.
fn miscount(rng: &mut Rng, plan: &Plan, words: &mut [u64]) {
    let i = rng.below(words.len() as u64) as usize;
    if rng.once_in(2) {
        drop_copy(rng, words, i);
    } else {
        words[i] |= 1 << rng.below(plan.machines() as u64);
    }
}

/// Lays all copies of some block side by side, from some feed's first machine on, through the racks of each feed; a block
/// is taken that has then too few feeds, if there is one.
fn crowd(rng: &mut Rng, plan: &Plan, words: &mut [u64]) {
    let per_feed = plan.machines() / plan.feeds;
    let feeds = |i: &usize| copies_of(words[*i]).div_ceil(per_feed);
    let spread = |i: &usize| plan.blocks[*i].spread;
    let fitting: Vec<usize> = (0..words.len()).filter(|i| feeds(i) < spread(i)).collect();
    if fitting.is_empty() {
        return;
    }
    let i = rng.one_of(&fitting);
    let start = rng.below((plan.feeds - feeds(&i) + 1) as u64) as usize * per_feed;
    let mut by_feed: Vec<usize> = (0..plan.machines()).collect();
    by_feed.sort_by_key(|m| plan.feed_of(*m));
    let machines = &by_feed[start..][..copies_of(words[i])];
    words[i] = machines.iter().fold(0, |w, m| w | 1 << m);
}

/// Lays a copy of every other block on one machine, in place of another copy of the same feed or of any; of a pair one
/// block only.
fn overload(rng: &mut Rng, plan: &Plan, words: &mut [u64]) {
    let to = rng.below(plan.machines() as u64) as usize;
    let same_feed = rng.once_in(2);
    for i in 0..words.len() {
        let suits = |m: &usize| !same_feed || plan.feed_of(*m) == plan.feed_of(to);
        let from = (0..plan.machines())
            .filter(suits)
            .find(|m| holds(words[i], *m));
        let there = |k: usize| holds(words[k], to);
        if let Some(m) = from.filter(|_| !there(i) && !plan.partner(i).is_some_and(there)) {
            words[i] = words[i] & !(1 << m) | 1 << to;
        }
    }
}

/// Lays a copy of one block of some pair on a machine that holds the other one; where that is then too full, a third
/// block leaves it for the machine that the copy came from.
fn collide(rng: &mut Rng, plan: &Plan, words: &mut [u64]) {
    let pairs: Vec<(usize, usize)> = plan.pairs().flat_map(|(i, k)| [(i, k), (k, i)]).collect();
    if pairs.is_empty() {
        return;
    }
    let (i, k) = rng.one_of(&pairs);
    let only = |a: usize, b: usize| -> Vec<usize> {
        let on_a = |m: &usize| holds(words[a], *m) && !holds(words[b], *m);
        (0..plan.machines()).filter(on_a).collect()
    };
    let (to, from) = (only(i, k), only(k, i));
    if to.is_empty() || from.is_empty() {
        return;
    }
    let (m, n) = (rng.one_of(&to), rng.one_of(&from));
    words[k] = words[k] & !(1 << n) | 1 << m;
    let passes = |j: &usize| *j != i && *j != k && holds(words[*j], m) && !holds(words[*j], n);
    let third: Vec<usize> = (0..words.len()).filter(passes).collect();
    if held_by(words, m) > plan.capacity && !third.is_empty() {
        let j = rng.one_of(&third);
        words[j] = words[j] & !(1 << m) | 1 << n;
    }
}

/// Words that break exactly the rows marked (13 to 16, and 18), if some are found soon.
pub fn broken(rng: &mut Rng, plan: &Plan, rows: [bool; 5]) -> Option<Vec<u64>> {
    if plan.blocks.is_empty() {
        return None;
    }
    for _ in 0..12 {
        let mut words = placement(rng, plan);
        for row in (0..5).rev().filter(|r| rows[*r]) {
            match row {
                0 => set_outside(rng, plan, &mut words),
                1 => miscount(rng, plan, &mut words),
                2 => crowd(rng, plan, &mut words),
                3 => overload(rng, plan, &mut words),
                _ => collide(rng, plan, &mut words),
            }
        }
        if broken_rows(plan, &words) == rows {
            return Some(words);
        }
    }
    None
}
