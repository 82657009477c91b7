//! Steps and rest: the next step is the first by kind, then m, n, i, j, each lowest first.

use crate::counts::share;
use crate::placement::{copies_of, feasible, feeds_of, held_by, holds, load, loads};
use crate::plan::Plan;

/// The kinds of a step, in their order.
#[derive(Clone, Copy, Debug, PartialEq, Eq)]
pub enum Kind {
    Move,
    Swap,
    RackMove,
    RackSwap,
}

pub const KINDS: [Kind; 4] = [Kind::Move, Kind::Swap, Kind::RackMove, Kind::RackSwap];

impl Kind {
    /// Two blocks change places.
    pub fn exchanges(self) -> bool {
        matches!(self, Kind::Swap | Kind::RackSwap)
    }

    /// Move and Swap are for one rack, RackMove and RackSwap for different racks, also those of one feed.
    pub fn suits(self, plan: &Plan, m: usize, n: usize) -> bool {
        let one_rack = plan.rack_of(m) == plan.rack_of(n);
        one_rack == matches!(self, Kind::Move | Kind::Swap)
    }
}

/// A step: block i passes from machine m to machine n, and block j, if any, from n to m.
#[derive(Clone, Copy, Debug, PartialEq, Eq)]
pub struct Step {
    pub kind: Kind,
    pub m: usize,
    pub n: usize,
    pub i: usize,
    pub j: Option<usize>,
}

/// The word of a block whose copy passes from one machine to another.
fn passed(word: u64, from: usize, to: usize) -> u64 {
    word & !(1 << from) | 1 << to
}

impl Step {
    /// The words after the step.
    pub fn taken(&self, words: &[u64]) -> Vec<u64> {
        let mut after = words.to_vec();
        after[self.i] = passed(after[self.i], self.m, self.n);
        if let Some(j) = self.j {
            after[j] = passed(after[j], self.n, self.m);
        }
        after
    }

    /// The document's own conditions of the kind, on the words before the step.
    fn described(&self, plan: &Plan, words: &[u64]) -> bool {
        let i_passes = holds(words[self.i], self.m) && !holds(words[self.i], self.n);
        let rest = match self.j {
            None => held_by(words, self.n) < plan.capacity,
            Some(j) => holds(words[j], self.n) && !holds(words[j], self.m),
        };
        self.kind.suits(plan, self.m, self.n) && i_passes && rest
    }

    /// It is a step: it leaves a lawful placement, and both loads afterwards are strictly below Lm.
    pub fn allowed(&self, plan: &Plan, words: &[u64]) -> bool {
        if !self.described(plan, words) {
            return false;
        }
        let before = load(plan, words, self.m);
        let after = self.taken(words);
        feasible(plan, &after)
            && load(plan, &after, self.m) < before
            && load(plan, &after, self.n) < before
    }
}

/// The candidates for j: every block for an exchange, none for a move.
fn partners(kind: Kind, blocks: usize) -> Vec<Option<usize>> {
    if kind.exchanges() {
        (0..blocks).map(Some).collect()
    } else {
        vec![None]
    }
}

/// Every candidate of one kind and pair of machines, judged on full copies of the placement.
fn literal_at(plan: &Plan, words: &[u64], kind: Kind, m: usize, n: usize) -> Option<Step> {
    for i in 0..words.len() {
        for j in partners(kind, words.len()) {
            let step = Step { kind, m, n, i, j };
            if step.allowed(plan, words) {
                return Some(step);
            }
        }
    }
    None
}

/// A search of the document's order with any judge of one kind and pair of machines.
fn search(plan: &Plan, at: impl Fn(Kind, usize, usize) -> Option<Step>) -> Option<Step> {
    for kind in KINDS {
        for m in 0..plan.machines() {
            for n in 0..plan.machines() {
                if let Some(step) = at(kind, m, n) {
                    return Some(step);
                }
            }
        }
    }
    None
}

/// The next step, word for word as the document says. For small plans only.
pub fn step_literal(plan: &Plan, words: &[u64]) -> Option<Step> {
    search(plan, |kind, m, n| literal_at(plan, words, kind, m, n))
}

/// The figures of a placement that a search makes once: loads, copies held, and shares.
struct Figures<'a> {
    plan: &'a Plan,
    words: &'a [u64],
    loads: Vec<u64>,
    held: Vec<usize>,
    shares: Vec<u64>,
}

impl Figures<'_> {
    fn of<'a>(plan: &'a Plan, words: &'a [u64]) -> Figures<'a> {
        let blocks = plan.blocks.iter().zip(words);
        Figures {
            plan,
            words,
            loads: loads(plan, words),
            held: (0..plan.machines()).map(|m| held_by(words, m)).collect(),
            shares: blocks
                .map(|(b, w)| share(b.popularity, copies_of(*w)))
                .collect(),
        }
    }

    /// Block i can leave m for n: m holds it and n does not.
    fn passes(&self, i: usize, m: usize, n: usize) -> bool {
        holds(self.words[i], m) && !holds(self.words[i], n)
    }

    /// Block i still meets its spread after it has passed from m to n.
    fn stays_spread(&self, i: usize, m: usize, n: usize) -> bool {
        let after = passed(self.words[i], m, n);
        feeds_of(self.plan, after) >= self.plan.blocks[i].spread
    }

    /// Block i, come to n, is apart from the other one of its pair, unless that one leaves n in the same step.
    fn stays_apart(&self, i: usize, n: usize, leaving: Option<usize>) -> bool {
        match self.plan.partner(i) {
            None => true,
            Some(other) => leaving == Some(other) || !holds(self.words[other], n),
        }
    }

    /// Both loads are strictly below Lm when `out` has left m for n and `back` has come from n.
    fn both_below(&self, m: usize, n: usize, out: u64, back: u64) -> bool {
        let limit = self.loads[m];
        self.loads[m] - out + back < limit && self.loads[n] - back + out < limit
    }

    fn may_move(&self, m: usize, n: usize, i: usize) -> bool {
        self.passes(i, m, n)
            && self.held[n] < self.plan.capacity
            && self.both_below(m, n, self.shares[i], 0)
            && self.stays_spread(i, m, n)
            && self.stays_apart(i, n, None)
    }

    fn may_swap(&self, m: usize, n: usize, i: usize, j: usize) -> bool {
        self.passes(j, n, m)
            && self.both_below(m, n, self.shares[i], self.shares[j])
            && self.stays_spread(i, m, n)
            && self.stays_spread(j, n, m)
            && self.stays_apart(i, n, Some(j))
            && self.stays_apart(j, m, Some(i))
    }

    /// The first block that may move from m to n.
    fn first_move(&self, m: usize, n: usize) -> Option<(usize, Option<usize>)> {
        let found = (0..self.words.len()).find(|i| self.may_move(m, n, *i))?;
        Some((found, None))
    }

    /// The first two blocks, by i and then j, that may change places between m and n.
    fn first_swap(&self, m: usize, n: usize) -> Option<(usize, Option<usize>)> {
        for i in (0..self.words.len()).filter(|i| self.passes(*i, m, n)) {
            for j in 0..self.words.len() {
                if self.may_swap(m, n, i, j) {
                    return Some((i, Some(j)));
                }
            }
        }
        None
    }

    fn step_at(&self, kind: Kind, m: usize, n: usize) -> Option<Step> {
        if !kind.suits(self.plan, m, n) {
            return None;
        }
        let found = if kind.exchanges() {
            self.first_swap(m, n)
        } else {
            self.first_move(m, n)
        };
        found.map(|(i, j)| Step { kind, m, n, i, j })
    }
}

/// The next step by plain loops; loads and numbers of copies are made once.
pub fn step_plain(plan: &Plan, words: &[u64]) -> Option<Step> {
    let figures = Figures::of(plan, words);
    search(plan, |kind, m, n| figures.step_at(kind, m, n))
}

/// How a run ended.
#[derive(Clone, Copy, Debug, PartialEq, Eq)]
pub enum End {
    Rest,
    Spent,
}

/// Next steps until rest or until the budget is used: the end, the steps taken, and the words.
pub fn run(plan: &Plan, words: &[u64], budget: u32) -> (End, u32, Vec<u64>) {
    let mut words = words.to_vec();
    let mut taken = 0;
    while let Some(step) = step_plain(plan, &words) {
        if taken == budget {
            return (End::Spent, taken, words);
        }
        words = step.taken(&words);
        taken += 1;
    }
    (End::Rest, taken, words)
}
