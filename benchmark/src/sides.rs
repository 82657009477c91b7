//! The three sides that are compared, with the same calls.

use crate::optimised;
use crate::reads::{popularity_timed, read_timed, Call};
use crate::timing::timed;
use placement_reference::calls::{self, Report};
use placement_reference::convert::enter_convert;
use placement_reference::listing;
use placement_reference::plan::Refusal;
use placement_reference::reads::{enter_popularity, enter_read, Entry};
use placement_reference::steps::{End, Kind, Step};

/// What a call answers.
pub type Answer<T> = Result<T, Refusal>;

/// How a run ended, and the steps taken.
type Ended = (End, u32);

/// A read's seconds, and the new count and the list after it.
type ReadTimed = (f64, (u64, Vec<Entry>));

/// The calls of one side; each takes the plan's bytes and makes all checks. Those on reads are timed.
pub struct Side {
    pub name: &'static str,
    pub plan: fn(&[u8]) -> Answer<()>,
    pub counts: fn(&[u8], &mut [u8]) -> Answer<()>,
    pub first: fn(&[u8], &mut [u64]) -> Answer<()>,
    pub check: fn(&[u8], &[u64]) -> Answer<()>,
    pub report: fn(&[u8], &[u64]) -> Answer<Report>,
    pub step: fn(&[u8], &mut [u64]) -> Answer<Option<Step>>,
    pub run: fn(&[u8], &mut [u64], u32) -> Answer<Ended>,
    pub listing: fn(&[u8], u32) -> String,
    pub convert: fn(&[u8], &mut [u8]) -> Answer<usize>,
    pub read: fn(&Call) -> ReadTimed,
    pub popularity: fn(&Call) -> (f64, u64),
}

/// The plain reference.
pub const REFERENCE: Side = Side {
    name: "reference",
    plan: |bytes| calls::enter_plan(bytes).map(|_| ()),
    counts: |bytes, lent| calls::enter_counts(bytes, lent).map(|_| ()),
    first: |bytes, lent| calls::enter_first(bytes, lent).map(|_| ()),
    check: |bytes, lent| calls::enter_check(bytes, lent).map(|_| ()),
    report: calls::enter_report,
    step: calls::enter_step,
    run: calls::enter_run,
    listing: listing::text,
    convert: enter_convert,
    read: |call| read_timed(call, Entry::clone, Entry::clone, enter_read),
    popularity: |call| popularity_timed(call, Entry::clone, enter_popularity),
};

/// The optimised version; plan, counts, first placement and popularity are the reference's.
pub const OPTIMISED: Side = Side {
    name: "optimised",
    check: |bytes, lent| optimised::check(&calls::enter_plan(bytes)?, lent),
    report: optimised::enter_report,
    step: optimised::enter_step,
    run: optimised::enter_run,
    listing: optimised::listing,
    convert: optimised::enter_convert,
    read: |call| read_timed(call, Entry::clone, Entry::clone, optimised::enter_read),
    ..REFERENCE
};

/// The proved library.
pub const LIBRARY: Side = Side {
    name: "library",
    plan: |bytes| bpl::plan(bytes).map_err(bpl::Refusal::number),
    counts: |bytes, lent| bpl::counts(bytes, lent).map_err(bpl::Refusal::number),
    first: |bytes, lent| bpl::first(bytes, lent).map_err(bpl::Refusal::number),
    check: |bytes, lent| bpl::check(bytes, lent).map_err(bpl::Refusal::number),
    report: |bytes, lent| {
        let report = bpl::report(bytes, lent).map_err(bpl::Refusal::number)?;
        Ok(report_of(report))
    },
    step: |bytes, lent| {
        let step = bpl::step(bytes, lent).map_err(bpl::Refusal::number)?;
        Ok(step.map(step_of))
    },
    run: |bytes, lent, budget| {
        let end = bpl::run(bytes, lent, budget).map_err(bpl::Refusal::number)?;
        Ok(end_of(end))
    },
    listing: |bytes, budget| match bpl::listing(bytes, budget) {
        Ok(text) => text,
        Err(refusal) => format!("refused {}\n", refusal.number()),
    },
    convert: |bytes, lent| bpl::convert(bytes, lent).map_err(bpl::Refusal::number),
    read: |call| {
        read_timed(
            call,
            own_entry,
            entry_of,
            |bytes, block, tick, list, count| {
                bpl::read(bytes, block, tick, list, count).map_err(bpl::Refusal::number)
            },
        )
    },
    popularity: |call| {
        popularity_timed(call, own_entry, |bytes, block, list, count| {
            bpl::popularity(bytes, block, list, count).map_err(bpl::Refusal::number)
        })
    },
};

pub const SIDES: [Side; 3] = [REFERENCE, OPTIMISED, LIBRARY];

/// The library's report in the reference's form.
fn report_of(report: bpl::Report) -> Report {
    Report {
        maximum: report.max_load,
        minimum: report.min_load,
        sum: report.total_load,
        largest_share: report.max_share,
    }
}

/// The library's step in the reference's form.
fn step_of(step: bpl::Step) -> Step {
    let (kind, m, n, i, j) = match step {
        bpl::Step::Move { m, n, i } => (Kind::Move, m, n, i, None),
        bpl::Step::Swap { m, n, i, j } => (Kind::Swap, m, n, i, Some(j)),
        bpl::Step::RackMove { m, n, i } => (Kind::RackMove, m, n, i, None),
        bpl::Step::RackSwap { m, n, i, j } => (Kind::RackSwap, m, n, i, Some(j)),
    };
    Step { kind, m, n, i, j }
}

/// The reference's record in the library's form.
fn own_entry(entry: &Entry) -> bpl::Entry {
    bpl::Entry {
        block: entry.block,
        tick: entry.tick,
    }
}

/// The library's record in the reference's form.
fn entry_of(entry: &bpl::Entry) -> Entry {
    Entry {
        block: entry.block,
        tick: entry.tick,
    }
}

/// The library's end of a run in the reference's form.
fn end_of(end: bpl::RunEnd) -> Ended {
    match end {
        bpl::RunEnd::Rest(steps) => (End::Rest, steps),
        bpl::RunEnd::Spent(steps) => (End::Spent, steps),
    }
}

/// Seconds of one call on each side, with the answer of all; fails where the sides answer differently.
pub fn compared<T: PartialEq>(what: &str, call: impl Fn(&Side) -> (f64, T)) -> ([f64; 3], T) {
    let [reference, optimised, library] = SIDES.map(|side| {
        eprintln!("{what}: {}", side.name);
        call(&side)
    });
    assert!(
        optimised.1 == reference.1,
        "{what}: the optimised version answers differently from the reference"
    );
    assert!(
        library.1 == reference.1,
        "{what}: the library answers differently from the reference"
    );
    ([reference.0, optimised.0, library.0], reference.1)
}

/// A run from the given words: seconds, and the end, the steps and the words after it.
pub fn run_timed(
    side: &Side,
    bytes: &[u8],
    start: &[u64],
    budget: u32,
) -> (f64, (End, u32, Vec<u64>)) {
    let mut words = start.to_vec();
    let (seconds, (end, steps)) = timed(|| {
        words.copy_from_slice(start);
        (side.run)(bytes, &mut words, budget).expect("words of this plan")
    });
    (seconds, (end, steps, words))
}

/// One step from the given words: seconds, and the step and the words after it.
pub fn step_timed(side: &Side, bytes: &[u8], start: &[u64]) -> (f64, (Option<Step>, Vec<u64>)) {
    let mut words = start.to_vec();
    let (seconds, step) = timed(|| {
        words.copy_from_slice(start);
        (side.step)(bytes, &mut words).expect("words of this plan")
    });
    (seconds, (step, words))
}

/// The first placement of an accepted plan.
pub fn first_words(bytes: &[u8], blocks: u16) -> Vec<u64> {
    let mut words = vec![0; usize::from(blocks)];
    (LIBRARY.first)(bytes, &mut words).expect("an accepted plan");
    words
}
