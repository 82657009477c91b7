//! What the calls answer, made from the archive's numbers.

use crate::raw::{PLAY_NUMBERS, REPORT_NUMBERS, RUN_NUMBERS, STEP_NUMBERS};
use std::error::Error;
use std::fmt;

/// Why a plan, a placement or a read is turned back: the number of the check, 1 to 23. `Display` and `Debug` tell it
/// with the reason in words.
#[derive(Clone, Copy, PartialEq, Eq, Hash)]
pub struct Refusal(u8);

impl Refusal {
    /// The check's number.
    pub fn number(self) -> u8 {
        self.0
    }

    /// The check's condition.
    pub fn reason(self) -> &'static str {
        match self.0 {
            1 => "the plan is shorter than 15 bytes",
            2 => "the plan's mark differs",
            3 => {
                "the plan's version is none of 1 to 4, or is 3 or 4 already where it is converted"
            }
            4 => "racks or machines per rack 0, or more than 64 machines",
            5 => "the capacity is 0 or above 1,024",
            6 => "more than 1,024 blocks",
            7 => "the plan's length does not fit its version and number of blocks",
            8 => {
                "least copies 0, above 8 (from version 3 on above 10), or above the machines, of a pair half of them"
            }
            9 => "a spread of 0, above the least copies, or above the racks (in version 4 the feeds)",
            10 => "the sum of least copies is above the budget",
            11 => "the sum of least copies is above what the machines hold",
            12 => "a lent buffer is too short for the plan's blocks",
            13 => "a bit at or above the number of machines is set",
            14 => "a block's copies are not its chosen count",
            15 => "a block lies in fewer racks (in version 4 in fewer feeds) than its spread",
            16 => "a machine holds more copies than its capacity",
            17 => "a pair byte is neither 0 nor 1, marks no pair, or marks two blocks that differ",
            18 => "a machine holds both blocks of a pair",
            19 => "the block is not in the plan",
            20 => "the last entry's tick has an age of 2^31 or more",
            21 => "the list is full of reads that still count",
            22 => "the number of feeds is 0 or does not divide the number of racks",
            23 => "the budget, in version 4, is above what the machines hold",
            _ => "no check has this number",
        }
    }
}

impl fmt::Display for Refusal {
    fn fmt(&self, f: &mut fmt::Formatter<'_>) -> fmt::Result {
        write!(f, "refused {}: {}", self.0, self.reason())
    }
}

impl fmt::Debug for Refusal {
    fn fmt(&self, f: &mut fmt::Formatter<'_>) -> fmt::Result {
        write!(f, "Refusal({}: {})", self.0, self.reason())
    }
}

impl Error for Refusal {}

/// A returned code: 0 is done, any other the refusal of that number.
pub(crate) fn settled(code: u32) -> Result<(), Refusal> {
    match code {
        0 => Ok(()),
        _ => Err(Refusal(u8::try_from(code).expect("a code is below 256"))),
    }
}

/// Loads of the machines, and the largest share of a copy (0 without blocks), in 2520ths of a read.
#[derive(Clone, Copy, Debug, PartialEq, Eq, Hash)]
pub struct Report {
    pub max_load: u64,
    pub min_load: u64,
    pub total_load: u64,
    pub max_share: u64,
}

impl Report {
    pub(crate) fn from_numbers(out: [u64; REPORT_NUMBERS]) -> Report {
        Report {
            max_load: out[0],
            min_load: out[1],
            total_load: out[2],
            max_share: out[3],
        }
    }
}

/// A step: the copy of block i passes from machine m to n and, in a swap, that of block j from n to m.
/// `RackMove` and `RackSwap` are between racks, in version 4 too.
#[derive(Clone, Copy, Debug, PartialEq, Eq, Hash)]
pub enum Step {
    Move {
        m: usize,
        n: usize,
        i: usize,
    },
    Swap {
        m: usize,
        n: usize,
        i: usize,
        j: usize,
    },
    RackMove {
        m: usize,
        n: usize,
        i: usize,
    },
    RackSwap {
        m: usize,
        n: usize,
        i: usize,
        j: usize,
    },
}

impl Step {
    /// The step of the archive's numbers; none at rest.
    pub(crate) fn from_numbers(out: [u64; STEP_NUMBERS]) -> Option<Step> {
        let [taken, kind, m, n, i, j] = out.map(|number| number as usize);
        match (taken, kind) {
            (0, _) => None,
            (_, 0) => Some(Step::Move { m, n, i }),
            (_, 1) => Some(Step::Swap { m, n, i, j }),
            (_, 2) => Some(Step::RackMove { m, n, i }),
            _ => Some(Step::RackSwap { m, n, i, j }),
        }
    }
}

/// How a run ended, with the number of steps taken: at rest, or with the step limit used and a step still left.
#[derive(Clone, Copy, Debug, PartialEq, Eq, Hash)]
pub enum RunEnd {
    Rest(u32),
    Spent(u32),
}

impl RunEnd {
    /// The number of steps taken.
    pub fn steps(self) -> u32 {
        match self {
            RunEnd::Rest(steps) | RunEnd::Spent(steps) => steps,
        }
    }

    pub(crate) fn from_numbers(out: [u64; RUN_NUMBERS]) -> RunEnd {
        let steps = out[1] as u32;
        match out[0] {
            0 => RunEnd::Spent(steps),
            _ => RunEnd::Rest(steps),
        }
    }
}

/// What a call of a script answered: its refusal, that the check passed, the step taken (`None` at rest), or how the run
/// ended.
#[derive(Clone, Copy, Debug, PartialEq, Eq, Hash)]
pub enum Reply {
    Refused(Refusal),
    Checked,
    Stepped(Option<Step>),
    Ran(RunEnd),
}

impl Reply {
    /// Whether the call says that the placement is at rest: a step that found none, or a run that came to rest.
    pub fn says_rest(self) -> bool {
        matches!(self, Reply::Stepped(None) | Reply::Ran(RunEnd::Rest(_)))
    }

    pub(crate) fn from_numbers(out: [u64; PLAY_NUMBERS]) -> Reply {
        let [kind, a, b, c, d, e, f] = out;
        match kind {
            0 => Reply::Refused(Refusal(a as u8)),
            1 => Reply::Checked,
            2 => Reply::Stepped(Step::from_numbers([a, b, c, d, e, f])),
            _ => Reply::Ran(RunEnd::from_numbers([a, b])),
        }
    }
}

#[cfg(test)]
mod tests {
    use super::*;
    use std::collections::HashSet;

    /// Every number of the table has a reason of its own, which both forms tell with the number.
    #[test]
    fn refusals_tell_their_reasons() {
        let mut reasons = HashSet::new();
        for number in 1..=23 {
            let refusal = Refusal(number);
            let reason = refusal.reason();
            assert!(reasons.insert(reason), "{number}: {reason}");
            assert_eq!(refusal.to_string(), format!("refused {number}: {reason}"));
            assert_eq!(
                format!("{refusal:?}"),
                format!("Refusal({number}: {reason})")
            );
        }
        assert!(!reasons.contains(Refusal(24).reason()));
        assert!(reasons.contains("the sum of least copies is above the budget"));
    }
}
