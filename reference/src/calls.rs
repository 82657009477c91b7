//! The public calls: they take raw bytes and a lent buffer and make every check themselves.
//! A refused call writes nothing, and words past the first B are never read or written.

use crate::counts::{chosen, largest_share};
use crate::placement::{check, copies_of, first, loads};
use crate::plan::{read, Plan, Refusal};
use crate::steps::{run, step_plain, End, Step};

/// What the report tells: hottest load, coolest load, sum of loads, largest share.
#[derive(Clone, Copy, Debug, PartialEq, Eq)]
pub struct Report {
    pub maximum: u64,
    pub minimum: u64,
    pub sum: u64,
    pub largest_share: u64,
}

/// The report of a placement, counted from the plan's fields and the words.
pub fn report(plan: &Plan, words: &[u64]) -> Report {
    let loads = loads(plan, words);
    let counts: Vec<usize> = words.iter().map(|w| copies_of(*w)).collect();
    Report {
        maximum: *loads.iter().max().expect("an accepted plan has a machine"),
        minimum: *loads.iter().min().expect("an accepted plan has a machine"),
        sum: loads.iter().sum(),
        largest_share: largest_share(plan, &counts),
    }
}

/// A plan and its B words out of the lent ones, if the placement passes the check.
fn placed(bytes: &[u8], lent: &[u64]) -> Result<(Plan, Vec<u64>), Refusal> {
    let plan = read(bytes)?;
    let number = check(&plan, lent)?;
    Ok((plan, lent[..number].to_vec()))
}

/// Judges a plan.
pub fn enter_plan(bytes: &[u8]) -> Result<Plan, Refusal> {
    read(bytes)
}

/// The chosen counts into the lent bytes; answers the largest share at these counts.
pub fn enter_counts(bytes: &[u8], lent: &mut [u8]) -> Result<u64, Refusal> {
    let plan = read(bytes)?;
    if lent.len() < plan.blocks.len() {
        return Err(12);
    }
    let counts = chosen(&plan);
    for (i, count) in counts.iter().enumerate() {
        lent[i] = *count as u8;
    }
    Ok(largest_share(&plan, &counts))
}

/// The first placement into the lent words; answers the number of blocks.
pub fn enter_first(bytes: &[u8], lent: &mut [u64]) -> Result<usize, Refusal> {
    let plan = read(bytes)?;
    let number = plan.blocks.len();
    if lent.len() < number {
        return Err(12);
    }
    lent[..number].copy_from_slice(&first(&plan));
    Ok(number)
}

/// Checks the lent words; answers the number of blocks.
pub fn enter_check(bytes: &[u8], lent: &[u64]) -> Result<usize, Refusal> {
    let (plan, _) = placed(bytes, lent)?;
    Ok(plan.blocks.len())
}

/// Checks the lent words and reports on them.
pub fn enter_report(bytes: &[u8], lent: &[u64]) -> Result<Report, Refusal> {
    let (plan, words) = placed(bytes, lent)?;
    Ok(report(&plan, &words))
}

/// Takes the next step on the lent words, or leaves them as they are at rest.
pub fn enter_step(bytes: &[u8], lent: &mut [u64]) -> Result<Option<Step>, Refusal> {
    let (plan, words) = placed(bytes, lent)?;
    let step = step_plain(&plan, &words);
    if let Some(step) = step {
        lent[..words.len()].copy_from_slice(&step.taken(&words));
    }
    Ok(step)
}

/// Takes next steps on the lent words until rest or until the budget is used.
pub fn enter_run(bytes: &[u8], lent: &mut [u64], budget: u32) -> Result<(End, u32), Refusal> {
    let (plan, words) = placed(bytes, lent)?;
    let (end, taken, after) = run(&plan, &words, budget);
    lent[..after.len()].copy_from_slice(&after);
    Ok((end, taken))
}
