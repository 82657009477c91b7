//! Counts and shares.

use crate::plan::Plan;

/// A read in units of a share: every count from 1 to 10 divides it.
pub const UNIT: u64 = 2520;

/// The share of a copy: P × 2520 / count, in 2520ths of a read.
pub fn share(popularity: u64, count: usize) -> u64 {
    popularity * UNIT / count as u64
}

/// The smallest count of block i, from its least copies to its upper count, whose share is within `figure`.
fn smallest_within(plan: &Plan, i: usize, figure: u64) -> Option<usize> {
    let block = &plan.blocks[i];
    (block.least..=plan.upper(i)).find(|c| share(block.popularity, *c) <= figure)
}

/// Every block's smallest count within `figure`; nothing if some block has none.
fn all_within(plan: &Plan, figure: u64) -> Option<Vec<usize>> {
    (0..plan.blocks.len())
        .map(|i| smallest_within(plan, i, figure))
        .collect()
}

/// The counts within `figure`, if they are few enough for the budget and the machines.
fn fitting(plan: &Plan, figure: u64) -> Option<Vec<usize>> {
    let counts = all_within(plan, figure)?;
    let sum: u64 = counts.iter().map(|c| *c as u64).sum();
    (sum <= plan.limit()).then_some(counts)
}

/// All shares that any block can have, and 0, rising.
fn figures(plan: &Plan) -> Vec<u64> {
    let mut all = vec![0];
    for (i, block) in plan.blocks.iter().enumerate() {
        all.extend((block.least..=plan.upper(i)).map(|c| share(block.popularity, c)));
    }
    all.sort_unstable();
    all.dedup();
    all
}

/// The chosen counts: those within the smallest figure that fits. A larger figure never needs more copies,
/// so the sorted figures are halved until the first fitting one is found.
pub fn chosen(plan: &Plan) -> Vec<usize> {
    let all = figures(plan);
    let first = all.partition_point(|figure| fitting(plan, *figure).is_none());
    fitting(plan, all[first]).expect("the least copies of an accepted plan fit")
}

/// The largest share among the blocks at the given counts, 0 if there is no block.
pub fn largest_share(plan: &Plan, counts: &[usize]) -> u64 {
    let shares = plan.blocks.iter().zip(counts);
    shares
        .map(|(b, c)| share(b.popularity, *c))
        .max()
        .unwrap_or(0)
}
