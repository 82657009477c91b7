//! Placements: one 64-bit word per block; bit m set means that machine m holds a copy.

use crate::counts::{chosen, share};
use crate::plan::{Plan, Refusal};

/// Machine m holds a copy of the block with this word.
pub fn holds(word: u64, machine: usize) -> bool {
    word >> machine & 1 == 1
}

/// The copies of a block: the number of bits set.
pub fn copies_of(word: u64) -> usize {
    word.count_ones() as usize
}

/// The number of feeds on which the block lies; before version 4 that of its racks. A feed is a bit of a word.
pub fn feeds_of(plan: &Plan, word: u64) -> usize {
    let machines = (0..plan.machines()).filter(|m| holds(word, *m));
    let feeds = machines.fold(0_u64, |feeds, m| feeds | 1 << plan.feed_of(m));
    feeds.count_ones() as usize
}

/// The copies that a machine holds.
pub fn held_by(words: &[u64], machine: usize) -> usize {
    words.iter().filter(|w| holds(**w, machine)).count()
}

/// The load of a machine: the sum of the shares of the copies that it holds.
pub fn load(plan: &Plan, words: &[u64], machine: usize) -> u64 {
    let blocks = plan.blocks.iter().zip(words);
    blocks
        .filter(|(_, w)| holds(**w, machine))
        .map(|(b, w)| share(b.popularity, copies_of(*w)))
        .sum()
}

/// The loads of the machines below M.
pub fn loads(plan: &Plan, words: &[u64]) -> Vec<u64> {
    (0..plan.machines()).map(|m| load(plan, words, m)).collect()
}

/// A bit at or above M is set.
pub fn outside(plan: &Plan, word: u64) -> bool {
    (plan.machines()..64).any(|m| holds(word, m))
}

/// Every block's count is lawful, and so is their sum.
fn counts_feasible(plan: &Plan, words: &[u64]) -> bool {
    let each = |(i, b): (usize, &crate::plan::Block)| {
        b.least <= copies_of(words[i]) && copies_of(words[i]) <= plan.upper(i)
    };
    let sum: u64 = words.iter().map(|w| copies_of(*w) as u64).sum();
    plan.blocks.iter().enumerate().all(each) && sum <= plan.limit()
}

/// No machine holds both blocks of a pair.
pub fn pairs_apart(plan: &Plan, words: &[u64]) -> bool {
    let holds_both = |i: usize, k: usize, m: usize| holds(words[i], m) && holds(words[k], m);
    let apart = |(i, k): (usize, usize)| !(0..plan.machines()).any(|m| holds_both(i, k, m));
    plan.pairs().all(apart)
}

/// The placement is lawful (at any lawful counts).
pub fn feasible(plan: &Plan, words: &[u64]) -> bool {
    let spread_met = |i: usize| feeds_of(plan, words[i]) >= plan.blocks[i].spread;
    counts_feasible(plan, words)
        && words.iter().all(|w| !outside(plan, *w))
        && (0..words.len()).all(spread_met)
        && (0..plan.machines()).all(|m| held_by(words, m) <= plan.capacity)
        && pairs_apart(plan, words)
}

/// Position t is machine (t mod R) × S + t div R.
pub fn position(plan: &Plan, t: usize) -> usize {
    (t % plan.racks) * plan.per_rack + t / plan.racks
}

/// The first placement: copies are laid down in file order, each on the next position.
pub fn first(plan: &Plan) -> Vec<u64> {
    let mut t = 0;
    let mut words = Vec::new();
    for count in chosen(plan) {
        let mut word = 0;
        for _ in 0..count {
            word |= 1 << position(plan, t);
            t = (t + 1) % plan.machines();
        }
        words.push(word);
    }
    words
}

/// The rows for a placement handed in, in order, each over all blocks or machines before the next.
pub const ROWS: [Refusal; 5] = [13, 14, 15, 16, 18];

/// Which of these rows the words break, each for itself.
pub fn broken_rows(plan: &Plan, words: &[u64]) -> [bool; 5] {
    let counts = chosen(plan);
    let blocks = 0..plan.blocks.len();
    [
        words.iter().any(|w| outside(plan, *w)),
        blocks.clone().any(|i| copies_of(words[i]) != counts[i]),
        blocks
            .clone()
            .any(|i| feeds_of(plan, words[i]) < plan.blocks[i].spread),
        (0..plan.machines()).any(|m| held_by(words, m) > plan.capacity),
        !pairs_apart(plan, words),
    ]
}

/// The check of a placement handed in (rows 12 to 16 and 18): the number of blocks, or the first row broken.
pub fn check(plan: &Plan, lent: &[u64]) -> Result<usize, Refusal> {
    let number = plan.blocks.len();
    if lent.len() < number {
        return Err(12);
    }
    let broken = broken_rows(plan, &lent[..number]);
    match broken.iter().position(|b| *b) {
        Some(at) => Err(ROWS[at]),
        None => Ok(number),
    }
}
