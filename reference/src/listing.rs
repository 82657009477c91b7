//! The listing of the program.

use crate::calls::report;
use crate::counts::share;
use crate::placement::{copies_of, first, holds};
use crate::plan::{read, Plan};
use crate::steps::{run, End};

/// The step budget of the program.
pub const STEP_BUDGET: u32 = 100_000;

/// What a listing says, beside its text.
#[derive(Clone, Copy, Debug, PartialEq, Eq)]
pub enum Verdict {
    Refused(u8),
    Ended(End),
}

/// The line of one block: number, count, share, machines rising.
fn block_line(plan: &Plan, words: &[u64], i: usize) -> String {
    let count = copies_of(words[i]);
    let mut line = format!(
        "block {i} {count} {}",
        share(plan.blocks[i].popularity, count)
    );
    for m in (0..64).filter(|m| holds(words[i], *m)) {
        line += &format!(" {m}");
    }
    line + "\n"
}

/// The listing of an accepted plan.
fn accepted(plan: &Plan, budget: u32) -> (Verdict, String) {
    let (end, taken, words) = run(plan, &first(plan), budget);
    let mut text = format!(
        "plan {} {} {}\n",
        plan.racks,
        plan.per_rack,
        plan.blocks.len()
    );
    for i in 0..words.len() {
        text += &block_line(plan, &words, i);
    }
    let name = match end {
        End::Rest => "rest",
        End::Spent => "spent",
    };
    let r = report(plan, &words);
    text += &format!(
        "{name} {taken} {} {} {} {}\n",
        r.maximum, r.minimum, r.sum, r.largest_share
    );
    (Verdict::Ended(end), text)
}

/// The listing of a plan with the given step budget, and what it says.
pub fn listed(bytes: &[u8], budget: u32) -> (Verdict, String) {
    match read(bytes) {
        Err(row) => (Verdict::Refused(row), format!("refused {row}\n")),
        Ok(plan) => accepted(&plan, budget),
    }
}

/// The text of the listing.
pub fn text(bytes: &[u8], budget: u32) -> String {
    listed(bytes, budget).1
}
