//! Block placement for a recording store: safe functions over the proved archive `libcapi.a`.
//!
//! A plan is the bytes of a plan file, of version 1, 2, 3 or 4. A placement is one word per block; bit m of a word is
//! set where machine m holds a copy. Words past the plan's first B are never read or written. Reads of blocks are
//! counted in a lent list of entries, for the next plan file. A refused call writes nothing, and answers the number of
//! the check that refused it.
//!
//! ```
//! // One rack of two machines, three blocks of one copy.
//! let mut plan = vec![0x42, 0x50, 0x4C, 0, 1, 1, 2, 0, 2, 0, 0, 0, 3, 0, 3];
//! plan.extend([0, 0, 4, 1, 1, 0, 0, 1, 1, 1, 0, 0, 2, 1, 1]);
//! let mut words = [0; 3];
//! bpl::first(&plan, &mut words)?;
//! assert_eq!(words, [1, 2, 1]);
//! assert_eq!(bpl::run(&plan, &mut words, 100)?, bpl::RunEnd::Rest(2));
//! assert_eq!(bpl::report(&plan, &words)?.max_load, 10_080);
//! assert_eq!(bpl::check(&plan, &words[..2]).unwrap_err().number(), 12);
//!
//! // In version 2 a sixth byte of 1 pairs a block with the next one: no machine ever holds both.
//! let mut plan = vec![0x42, 0x50, 0x4C, 0, 2, 1, 2, 0, 2, 0, 0, 0, 3, 0, 3];
//! plan.extend([0, 0, 4, 1, 1, 1, 0, 0, 4, 1, 1, 0, 0, 0, 9, 1, 1, 0]);
//! bpl::first(&plan, &mut words)?;
//! assert_eq!(words, [1, 2, 1]);
//! assert_eq!(bpl::run(&plan, &mut words, 100)?, bpl::RunEnd::Rest(0));
//! assert_eq!(bpl::check(&plan, &[1, 1, 2]).unwrap_err().number(), 18);
//!
//! // Version 3 has four bytes for the popularity, so that it may be above 16,777,215, and allows ten copies of a block.
//! let mut wide = [0; 15 + 7 * 3];
//! let length = bpl::convert(&plan, &mut wide)?;
//! assert_eq!(wide[15..22], [0, 0, 0, 4, 1, 1, 1]);
//! assert_eq!(bpl::listing(&wide[..length], 100)?, bpl::listing(&plan, 100)?);
//! wide[29] = 1;
//! assert_eq!(bpl::report(&wide, &words)?.max_share, 2520 * (9 + (1 << 24)));
//!
//! // Version 4 has the number of mains feeds behind the machines per rack. Here racks 0 and 2 hang on feed 0, and racks
//! // 1 and 3 on feed 1: a block with spread 2 may not lie in racks 0 and 2 alone.
//! let mut plan = vec![0x42, 0x50, 0x4C, 0, 4, 4, 1, 2, 0, 1, 0, 0, 0, 2, 0, 1];
//! plan.extend([0, 0, 0, 7, 2, 2, 0]);
//! bpl::first(&plan, &mut words)?;
//! assert_eq!(words[0], 0b0011);
//! assert_eq!(bpl::check(&plan, &[0b0101]).unwrap_err().number(), 15);
//!
//! // The machines hold four copies. Version 4 refuses a larger budget.
//! plan[13] = 4;
//! assert_eq!(bpl::plan(&plan), Ok(()));
//! plan[13] = 5;
//! assert_eq!(bpl::plan(&plan).unwrap_err().number(), 23);
//! plan[7] = 3;
//! assert_eq!(bpl::plan(&plan).unwrap_err().number(), 22);
//! # Ok::<(), bpl::Refusal>(())
//! ```
#![deny(unsafe_op_in_unsafe_fn)]

mod answers;
pub mod raw;
mod reads;
mod script;

pub use answers::{Refusal, Reply, Report, RunEnd, Step};
pub use reads::{popularity, read, Entry, MAX_ENTRIES, READ_WINDOW_MS};
pub use script::{Call, Request, Source};

use answers::settled;

/// The blocks that a plan has at most: so many counts or words are enough for every plan.
pub const MAX_BLOCKS: usize = 1024;

/// Judges a plan: refusals 1 to 11, 17, 22 and 23.
pub fn plan(plan: &[u8]) -> Result<(), Refusal> {
    // SAFETY: the pointer and the length are those of a slice that is borrowed for the whole call.
    settled(unsafe { raw::bpl_plan(plan.as_ptr(), plan.len()) })
}

/// Writes the plan's B chosen counts into the first B items of `counts`: refusals 1 to 12, 17, 22 and 23. Each is at
/// most 8, in versions 3 and 4 at most 10. Their sum is at most the smaller of the budget and what the machines hold.
pub fn counts(plan: &[u8], counts: &mut [u8]) -> Result<(), Refusal> {
    // SAFETY: each pointer and length are those of a slice that is borrowed for the whole call; `counts` is borrowed
    // alone, so it overlaps no other buffer.
    settled(unsafe {
        raw::bpl_counts(plan.as_ptr(), plan.len(), counts.as_mut_ptr(), counts.len())
    })
}

/// Writes the first placement into the first B words: refusals 1 to 12, 17, 22 and 23.
pub fn first(plan: &[u8], words: &mut [u64]) -> Result<(), Refusal> {
    // SAFETY: as in `counts`, for `words`.
    settled(unsafe { raw::bpl_first(plan.as_ptr(), plan.len(), words.as_mut_ptr(), words.len()) })
}

/// Checks a placement: refusals 1 to 18, 22 and 23.
pub fn check(plan: &[u8], words: &[u64]) -> Result<(), Refusal> {
    // SAFETY: as in `plan`; neither slice is written.
    settled(unsafe { raw::bpl_check(plan.as_ptr(), plan.len(), words.as_ptr(), words.len()) })
}

/// Reports on a placement: refusals 1 to 18, 22 and 23.
pub fn report(plan: &[u8], words: &[u64]) -> Result<Report, Refusal> {
    let mut out = [0; raw::REPORT_NUMBERS];
    // SAFETY: as in `check`; `out` is a local of its own with the length that is passed.
    settled(unsafe {
        raw::bpl_report(
            plan.as_ptr(),
            plan.len(),
            words.as_ptr(),
            words.len(),
            out.as_mut_ptr(),
            out.len(),
        )
    })?;
    Ok(Report::from_numbers(out))
}

/// Takes the next step of a placement, or leaves it as it is and answers `None` at rest: refusals 1 to 18, 22 and 23.
pub fn step(plan: &[u8], words: &mut [u64]) -> Result<Option<Step>, Refusal> {
    let mut out = [0; raw::STEP_NUMBERS];
    // SAFETY: as in `first`; `out` is a local of its own with the length that is passed.
    settled(unsafe {
        raw::bpl_step(
            plan.as_ptr(),
            plan.len(),
            words.as_mut_ptr(),
            words.len(),
            out.as_mut_ptr(),
            out.len(),
        )
    })?;
    Ok(Step::from_numbers(out))
}

/// Takes next steps of a placement until rest or until the step limit is used: refusals 1 to 18, 22 and 23.
pub fn run(plan: &[u8], words: &mut [u64], step_limit: u32) -> Result<RunEnd, Refusal> {
    let mut out = [0; raw::RUN_NUMBERS];
    // SAFETY: as in `first`; `out` is a local of its own with the length that is passed.
    settled(unsafe {
        raw::bpl_run(
            plan.as_ptr(),
            plan.len(),
            words.as_mut_ptr(),
            words.len(),
            step_limit,
            out.as_mut_ptr(),
            out.len(),
        )
    })?;
    Ok(RunEnd::from_numbers(out))
}

/// The listing of a plan, of a run from its first placement with the step limit: refusals 1 to 11, 17, 22 and 23.
pub fn listing(plan: &[u8], step_limit: u32) -> Result<String, Refusal> {
    let mut text = vec![0; raw::LISTING_ROOM];
    let mut out = [0; raw::LISTING_NUMBERS];
    // SAFETY: as in `plan`; `text` and `out` are locals of their own with the lengths that are passed.
    settled(unsafe {
        raw::bpl_listing(
            plan.as_ptr(),
            plan.len(),
            step_limit,
            text.as_mut_ptr(),
            text.len(),
            out.as_mut_ptr(),
            out.len(),
        )
    })?;
    text.truncate(out[0] as usize);
    Ok(String::from_utf8(text).expect("a listing is ASCII"))
}

/// Writes a plan of version 1 or 2 as version 3 to the start of `buffer`, and answers its length, 15 + 7 × B: refusals 1
/// to 12, 3 also for versions 3 and 4, and 17. The bytes behind it stay.
///
/// The plan written has the same fields, with pair bytes of 0 for version 1. Its counts, placements and listing are
/// sure to be the same only where there are at most 8 machines: above, version 3 may give a block 9 or 10 copies.
pub fn convert(plan: &[u8], buffer: &mut [u8]) -> Result<usize, Refusal> {
    let mut out = [0; raw::CONVERT_NUMBERS];
    // SAFETY: as in `counts`, for `buffer`; `out` is a local of its own with the length that is passed.
    settled(unsafe {
        raw::bpl_convert(
            plan.as_ptr(),
            plan.len(),
            buffer.as_mut_ptr(),
            buffer.len(),
            out.as_mut_ptr(),
            out.len(),
        )
    })?;
    Ok(out[0] as usize)
}

/// Plays a script: checks, steps and runs, one after the other over the same words, each with the plan's bytes or the
/// other ones. Answers the last call's reply, `Reply::Checked` where there is no call.
///
/// A refused call writes nothing, and the next one is made all the same. Of all functions here this is the one whose
/// contract in the archive is the claim about lists of calls, about code that has run; `include/bpl.h` says what it is.
///
/// ```
/// use bpl::{Call, Reply, Request, RunEnd};
///
/// // One rack of two machines, three blocks of one copy.
/// let mut plan = vec![0x42, 0x50, 0x4C, 0, 1, 1, 2, 0, 2, 0, 0, 0, 3, 0, 3];
/// plan.extend([0, 0, 4, 1, 1, 0, 0, 1, 1, 1, 0, 0, 2, 1, 1]);
/// let mut words = [1, 2, 1];
/// let calls = [
///     Call::new(Request::Step),
///     Call::new(Request::Check).with_other(), // refused with 1: the other bytes are no plan
///     Call::new(Request::Step).lending(2),    // refused with 12
///     Call::new(Request::Run(100)),
/// ];
/// assert_eq!(bpl::play(&plan, &[], &mut words, &calls), Reply::Ran(RunEnd::Rest(1)));
/// assert_eq!(words, [2, 1, 1]);
/// ```
pub fn play(plan: &[u8], other: &[u8], words: &mut [u64], calls: &[Call]) -> Reply {
    let script: Vec<u64> = calls.iter().map(|call| call.item()).collect();
    let mut out = [0; raw::PLAY_NUMBERS];
    // SAFETY: as in `first`, and for `other` as for the plan; neither is written, so the two may overlap. `script` and
    // `out` are locals of their own with the lengths that are passed.
    let code = unsafe {
        raw::bpl_play(
            plan.as_ptr(),
            plan.len(),
            other.as_ptr(),
            other.len(),
            words.as_mut_ptr(),
            words.len(),
            script.as_ptr(),
            script.len(),
            out.as_mut_ptr(),
            out.len(),
        )
    };
    assert_eq!(code, 0, "a play with room for its reply has one");
    Reply::from_numbers(out)
}
