//! Lists of calls (demand 3): checks, single steps and runs, one after the other over one plan and its words.

use crate::calls::{enter_check, enter_run, enter_step, report};
use crate::placement::held_by;
use crate::plan::{Plan, Refusal};
use crate::steps::{End, Step};

/// What a call asks for: the check, one step, or a run with a step budget.
#[derive(Clone, Copy, Debug, PartialEq, Eq)]
pub enum Request {
    Check,
    Step,
    Run(u32),
}

/// A call of a list: the bytes that it gets for the plan, how many of the words it is lent (all where there are
/// fewer), and what it asks for.
#[derive(Clone, Copy, Debug, PartialEq, Eq)]
pub struct Call<'a> {
    pub bytes: &'a [u8],
    pub lent: usize,
    pub request: Request,
}

/// What a call answers: its refusal, that the check passed, the step taken if there was one, or how the run ended.
#[derive(Clone, Copy, Debug, PartialEq, Eq)]
pub enum Reply {
    Refused(Refusal),
    Checked,
    Stepped(Option<Step>),
    Ran(End, u32),
}

impl Reply {
    /// It says `rest`: no step was found, or the run came to rest.
    pub fn says_rest(self) -> bool {
        matches!(self, Reply::Stepped(None) | Reply::Ran(End::Rest, _))
    }
}

impl Call<'_> {
    /// Makes the call on the words that it is lent; those past them stay.
    pub fn made(&self, words: &mut [u64]) -> Reply {
        let number = self.lent.min(words.len());
        let lent = &mut words[..number];
        let answer = match self.request {
            Request::Check => enter_check(self.bytes, lent).map(|_| Reply::Checked),
            Request::Step => enter_step(self.bytes, lent).map(Reply::Stepped),
            Request::Run(budget) => {
                enter_run(self.bytes, lent, budget).map(|(end, taken)| Reply::Ran(end, taken))
            }
        };
        answer.unwrap_or_else(Reply::Refused)
    }

    /// The call, answered so, may stand in a list over the plan in these bytes with so many blocks: it gets the plan
    /// and its words, or it is refused.
    pub fn stands(&self, reply: Reply, plan: &[u8], blocks: usize) -> bool {
        let shares = self.bytes == plan && self.lent >= blocks;
        shares || matches!(reply, Reply::Refused(_))
    }
}

/// Plays the calls one after the other, each on the words that those before it left; answers their replies.
pub fn play(calls: &[Call], words: &mut [u64]) -> Vec<Reply> {
    calls.iter().map(|call| call.made(words)).collect()
}

/// The bounds at rest, of B words at rest against any lawful placement: M × X is at most M × Y + (M - 1) × s if every
/// spread is one, and at most M × Y + 3 × (M - 1) × s if no machine is full. Otherwise nothing is claimed.
pub fn within_bounds(plan: &Plan, words: &[u64], other: &[u64]) -> bool {
    let machines = plan.machines() as u64;
    let at_rest = report(plan, words);
    let best = report(plan, other).maximum;
    let within = |shares: u64| {
        machines * at_rest.maximum
            <= machines * best + shares * (machines - 1) * at_rest.largest_share
    };
    let one_spread = plan.blocks.iter().all(|b| b.spread == 1);
    let full = (0..plan.machines()).any(|m| held_by(words, m) == plan.capacity);
    (!one_spread || within(1)) && (full || within(3))
}
