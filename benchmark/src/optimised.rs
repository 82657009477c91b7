//! A straightforward optimised version, without proofs: what one writes in an hour from the specification.
//!
//! Loads and lists of blocks per machine are carried from step to step, pairs of machines with Lm <= Ln are passed
//! over, and the feeds of a block are counted only where it changes feeds and its spread is above one; before version 4
//! the feeds are the racks. The other block of a pair is looked up in a table. Reads are entered in place, and a
//! converted plan's records are copied. Reading a plan, counts, the first placement and popularities are the
//! reference's, which are quick already.

use placement_reference::calls::Report;
use placement_reference::counts::{chosen, share};
use placement_reference::placement::{copies_of, first, holds};
use placement_reference::plan::{read, read_of, Plan, Refusal};
use placement_reference::reads::{Entry, HALF_TURN, MOST_ENTRIES, WINDOW};
use placement_reference::steps::{End, Kind, Step, KINDS};
use std::fmt::Write;

/// A placement with what is kept up to date beside it.
pub struct State<'a> {
    plan: &'a Plan,
    words: Vec<u64>,
    shares: Vec<u64>,
    loads: Vec<u64>,
    /// The blocks on each machine, in file order.
    blocks_on: Vec<Vec<usize>>,
    rack_of: Vec<usize>,
    feed_of: Vec<usize>,
    feed_masks: Vec<u64>,
    /// The other block of each block's pair.
    partners: Vec<Option<usize>>,
}

/// The machines of each feed as bits.
fn feed_masks(plan: &Plan) -> Vec<u64> {
    let mut masks = vec![0; plan.feeds];
    for m in 0..plan.machines() {
        masks[plan.feed_of(m)] |= 1 << m;
    }
    masks
}

/// The number of feeds on which a block lies.
fn feeds_used(masks: &[u64], word: u64) -> usize {
    masks.iter().filter(|mask| word & **mask != 0).count()
}

/// The word of a block whose copy passes from one machine to another.
fn passed(word: u64, from: usize, to: usize) -> u64 {
    word & !(1 << from) | 1 << to
}

/// The machines whose bits are set, rising.
fn machines_of(mut word: u64) -> impl Iterator<Item = usize> {
    std::iter::from_fn(move || {
        let machine = word.trailing_zeros() as usize;
        (word != 0).then(|| {
            word &= word - 1;
            machine
        })
    })
}

impl<'a> State<'a> {
    /// The state of a placement that the check accepts.
    pub fn new(plan: &'a Plan, words: &[u64]) -> State<'a> {
        let blocks = plan.blocks.iter().zip(words);
        let mut state = State {
            plan,
            words: words.to_vec(),
            shares: blocks
                .map(|(b, w)| share(b.popularity, copies_of(*w)))
                .collect(),
            loads: vec![0; plan.machines()],
            blocks_on: vec![Vec::new(); plan.machines()],
            rack_of: (0..plan.machines()).map(|m| plan.rack_of(m)).collect(),
            feed_of: (0..plan.machines()).map(|m| plan.feed_of(m)).collect(),
            feed_masks: feed_masks(plan),
            partners: (0..words.len()).map(|i| plan.partner(i)).collect(),
        };
        for (i, word) in words.iter().enumerate() {
            for m in machines_of(*word) {
                state.loads[m] += state.shares[i];
                state.blocks_on[m].push(i);
            }
        }
        state
    }

    pub fn words(&self) -> &[u64] {
        &self.words
    }

    pub fn loads(&self) -> &[u64] {
        &self.loads
    }

    /// Block i still meets its spread after it has passed from one machine to the other.
    fn stays_spread(&self, i: usize, from: usize, to: usize) -> bool {
        let spread = self.plan.blocks[i].spread;
        spread == 1
            || self.feed_of[from] == self.feed_of[to]
            || feeds_used(&self.feed_masks, passed(self.words[i], from, to)) >= spread
    }

    /// Block i may come to machine n: the other one of its pair is not there, or is `leaving`.
    fn stays_apart(&self, i: usize, n: usize, leaving: Option<usize>) -> bool {
        let meets = |other: usize| Some(other) != leaving && holds(self.words[other], n);
        !self.partners[i].is_some_and(meets)
    }

    /// The first block that may move from m to n, where Lm is above Ln by `gap`.
    fn first_move(&self, m: usize, n: usize, gap: u64) -> Option<(usize, Option<usize>)> {
        if self.blocks_on[n].len() >= self.plan.capacity {
            return None;
        }
        let suits = |i: usize| {
            let share = self.shares[i];
            0 < share
                && share < gap
                && !holds(self.words[i], n)
                && self.stays_apart(i, n, None)
                && self.stays_spread(i, m, n)
        };
        let found = self.blocks_on[m].iter().find(|i| suits(**i))?;
        Some((*found, None))
    }

    /// The first block j that may come from n to m in exchange for i.
    fn first_partner(&self, m: usize, n: usize, i: usize, gap: u64) -> Option<usize> {
        let out = self.shares[i];
        let suits = |j: usize| {
            let back = self.shares[j];
            back < out
                && out - back < gap
                && !holds(self.words[j], m)
                && self.stays_apart(i, n, Some(j))
                && self.stays_apart(j, m, Some(i))
                && self.stays_spread(j, n, m)
        };
        self.blocks_on[n].iter().copied().find(|j| suits(*j))
    }

    /// The first two blocks, by i and then j, that may change places between m and n.
    fn first_swap(&self, m: usize, n: usize, gap: u64) -> Option<(usize, Option<usize>)> {
        for &i in &self.blocks_on[m] {
            if holds(self.words[i], n) || !self.stays_spread(i, m, n) {
                continue;
            }
            if let Some(j) = self.first_partner(m, n, i, gap) {
                return Some((i, Some(j)));
            }
        }
        None
    }

    /// The first step of one kind at one pair of machines.
    fn step_at(&self, kind: Kind, m: usize, n: usize) -> Option<Step> {
        if self.loads[m] <= self.loads[n] {
            return None;
        }
        let one_rack = self.rack_of[m] == self.rack_of[n];
        if one_rack != matches!(kind, Kind::Move | Kind::Swap) {
            return None;
        }
        let gap = self.loads[m] - self.loads[n];
        let found = if kind.exchanges() {
            self.first_swap(m, n, gap)
        } else {
            self.first_move(m, n, gap)
        };
        found.map(|(i, j)| Step { kind, m, n, i, j })
    }

    /// The first step of one kind away from machine m.
    fn step_from(&self, kind: Kind, m: usize) -> Option<Step> {
        (0..self.loads.len()).find_map(|n| self.step_at(kind, m, n))
    }

    /// The next step; none at rest.
    pub fn next_step(&self) -> Option<Step> {
        let of_kind = |kind: Kind| (0..self.loads.len()).find_map(|m| self.step_from(kind, m));
        KINDS.into_iter().find_map(of_kind)
    }

    /// A copy of block i passes from one machine to another.
    fn pass(&mut self, i: usize, from: usize, to: usize) {
        self.words[i] = passed(self.words[i], from, to);
        self.loads[from] -= self.shares[i];
        self.loads[to] += self.shares[i];
        let old = self.blocks_on[from]
            .binary_search(&i)
            .expect("the copy that leaves is there");
        self.blocks_on[from].remove(old);
        let new = self.blocks_on[to]
            .binary_search(&i)
            .expect_err("the copy that comes is not there");
        self.blocks_on[to].insert(new, i);
    }

    /// Takes a step.
    pub fn take(&mut self, step: &Step) {
        self.pass(step.i, step.m, step.n);
        if let Some(j) = step.j {
            self.pass(j, step.n, step.m);
        }
    }

    /// Next steps until rest or until the budget is used: the end and the steps taken.
    pub fn run(&mut self, budget: u32) -> (End, u32) {
        let mut taken = 0;
        while let Some(step) = self.next_step() {
            if taken == budget {
                return (End::Spent, taken);
            }
            self.take(&step);
            taken += 1;
        }
        (End::Rest, taken)
    }

    /// Largest and smallest load, sum of loads, largest share.
    pub fn report(&self) -> Report {
        let loads = self.loads.iter().copied();
        Report {
            maximum: loads.clone().max().expect("an accepted plan has a machine"),
            minimum: loads.clone().min().expect("an accepted plan has a machine"),
            sum: loads.sum(),
            largest_share: self.shares.iter().copied().max().unwrap_or(0),
        }
    }
}

/// The check of a placement handed in (rows 12 to 16, and 18).
pub fn check(plan: &Plan, lent: &[u64]) -> Result<(), Refusal> {
    let number = plan.blocks.len();
    if lent.len() < number {
        return Err(12);
    }
    let words = &lent[..number];
    let masks = feed_masks(plan);
    let all = masks.iter().fold(0, |word, mask| word | mask);
    if words.iter().any(|w| w & !all != 0) {
        return Err(13);
    }
    if chosen(plan)
        .iter()
        .zip(words)
        .any(|(c, w)| *c != copies_of(*w))
    {
        return Err(14);
    }
    let mut blocks = plan.blocks.iter().zip(words);
    if blocks.any(|(b, w)| feeds_used(&masks, *w) < b.spread) {
        return Err(15);
    }
    let mut copies = vec![0; plan.machines()];
    words
        .iter()
        .for_each(|w| machines_of(*w).for_each(|m| copies[m] += 1));
    if copies.iter().any(|c| *c > plan.capacity) {
        return Err(16);
    }
    if plan.pairs().any(|(i, k)| words[i] & words[k] != 0) {
        return Err(18);
    }
    Ok(())
}

/// Takes the next step on the lent words, or leaves them as they are at rest.
pub fn enter_step(bytes: &[u8], lent: &mut [u64]) -> Result<Option<Step>, Refusal> {
    let plan = read(bytes)?;
    check(&plan, lent)?;
    let number = plan.blocks.len();
    let mut state = State::new(&plan, &lent[..number]);
    let step = state.next_step();
    if let Some(step) = &step {
        state.take(step);
        lent[..number].copy_from_slice(state.words());
    }
    Ok(step)
}

/// Takes next steps on the lent words until rest or until the budget is used.
pub fn enter_run(bytes: &[u8], lent: &mut [u64], budget: u32) -> Result<(End, u32), Refusal> {
    let plan = read(bytes)?;
    check(&plan, lent)?;
    let number = plan.blocks.len();
    let mut state = State::new(&plan, &lent[..number]);
    let ended = state.run(budget);
    lent[..number].copy_from_slice(state.words());
    Ok(ended)
}

/// Checks the lent words and reports on them.
pub fn enter_report(bytes: &[u8], lent: &[u64]) -> Result<Report, Refusal> {
    let plan = read(bytes)?;
    check(&plan, lent)?;
    Ok(State::new(&plan, &lent[..plan.blocks.len()]).report())
}

/// Moves the entries that still count to the front; answers their number.
fn close_up(entries: &mut [Entry], tick: u32) -> usize {
    let mut kept = 0;
    for i in 0..entries.len() {
        let entry = entries[i];
        if tick.wrapping_sub(entry.tick) < WINDOW {
            entries[kept] = entry;
            kept += 1;
        }
    }
    kept
}

/// Enters a read in place; answers the new count.
pub fn enter_read(
    bytes: &[u8],
    block: u32,
    tick: u32,
    list: &mut [Entry],
    count: u64,
) -> Result<u64, Refusal> {
    let blocks = read(bytes)?.blocks.len();
    let usable = list.len().min(MOST_ENTRIES);
    let number = count.min(usable as u64) as usize;
    let age = |entry: &Entry| tick.wrapping_sub(entry.tick);
    let entries = &mut list[..number];
    if block as usize >= blocks {
        return Err(19);
    }
    if entries.last().is_some_and(|last| age(last) >= HALF_TURN) {
        return Err(20);
    }
    if number == usable && entries.iter().all(|entry| age(entry) < WINDOW) {
        return Err(21);
    }
    let kept = close_up(entries, tick);
    list[kept] = Entry { block, tick };
    list[kept + 1..usable].fill(Entry::default());
    Ok(kept as u64 + 1)
}

/// Writes a plan of version 1 or 2 as version 3, record by record: a byte of 0, the record, and in version 1 a pair byte
/// of 0. Answers its length.
pub fn enter_convert(bytes: &[u8], buffer: &mut [u8]) -> Result<usize, Refusal> {
    let length = 15 + 7 * read_of(bytes, &[1, 2])?.blocks.len();
    if buffer.len() < length {
        return Err(12);
    }
    buffer[..15].copy_from_slice(&bytes[..15]);
    buffer[4] = 3;
    let old = bytes[15..].chunks_exact(4 + usize::from(bytes[4]));
    let new = buffer[15..length].chunks_exact_mut(7);
    for (new, old) in new.zip(old) {
        let pair = old.get(5).copied().unwrap_or(0);
        new.copy_from_slice(&[0, old[0], old[1], old[2], old[3], old[4], pair]);
    }
    Ok(length)
}

/// The line of one block: number, count, share, machines rising.
fn block_line(text: &mut String, i: usize, word: u64, share: u64) -> std::fmt::Result {
    write!(text, "block {i} {} {share}", copies_of(word))?;
    for m in machines_of(word) {
        write!(text, " {m}")?;
    }
    writeln!(text)
}

/// The lines of an accepted plan.
fn write_listing(text: &mut String, plan: &Plan, budget: u32) -> std::fmt::Result {
    let mut state = State::new(plan, &first(plan));
    let (end, taken) = state.run(budget);
    writeln!(
        text,
        "plan {} {} {}",
        plan.racks,
        plan.per_rack,
        plan.blocks.len()
    )?;
    for (i, word) in state.words.iter().enumerate() {
        block_line(text, i, *word, state.shares[i])?;
    }
    let name = if end == End::Rest { "rest" } else { "spent" };
    let r = state.report();
    writeln!(
        text,
        "{name} {taken} {} {} {} {}",
        r.maximum, r.minimum, r.sum, r.largest_share
    )
}

/// The listing of a plan with the given step budget.
pub fn listing(bytes: &[u8], budget: u32) -> String {
    match read(bytes) {
        Err(row) => format!("refused {row}\n"),
        Ok(plan) => {
            let mut text = String::new();
            write_listing(&mut text, &plan, budget).expect("a text takes all that is written");
            text
        }
    }
}
