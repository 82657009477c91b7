//! Each entry on the same bytes and buffer as the reference's: the same answer, and the same whole buffer afterwards.

use super::common::*;
use bpl::{RunEnd, Step};
use placement_reference::calls::*;
use placement_reference::convert::enter_convert;
use placement_reference::listing;

pub fn plan(bytes: &[u8]) {
    let said = numbered(bpl::plan(bytes));
    assert_eq!(said, enter_plan(bytes).map(|_| ()), "plan {bytes:?}");
}

pub fn counts(bytes: &[u8], lent: usize) {
    let before: Vec<u8> = (0..lent).map(|i| 0xE0 | (i as u8 % 16)).collect();
    let (mut ours, mut theirs) = (before.clone(), before.clone());
    let said = numbered(bpl::counts(bytes, &mut ours));
    let expected = enter_counts(bytes, &mut theirs).map(|_| ());
    assert_eq!(said, expected, "counts {bytes:?}");
    assert_eq!(ours, theirs, "counts {bytes:?}");
    kept(said.is_err(), bytes, &before, &ours);
}

pub fn first(bytes: &[u8], words: &mut [u64]) {
    let before = words.to_vec();
    let mut theirs = before.clone();
    let said = numbered(bpl::first(bytes, words));
    let expected = enter_first(bytes, &mut theirs).map(|_| ());
    assert_eq!(said, expected, "first {bytes:?}");
    assert_eq!(*words, theirs, "first {bytes:?}");
    kept(said.is_err(), bytes, &before, words);
}

pub fn check(bytes: &[u8], words: &[u64]) -> Result<(), u8> {
    let said = numbered(bpl::check(bytes, words));
    let expected = enter_check(bytes, words).map(|_| ());
    assert_eq!(said, expected, "check {bytes:?} {words:?}");
    said
}

pub fn report(bytes: &[u8], words: &[u64]) {
    let said = numbered(bpl::report(bytes, words));
    let expected = enter_report(bytes, words).map(report_of);
    assert_eq!(said, expected, "report {bytes:?} {words:?}");
}

pub fn step(bytes: &[u8], words: &mut [u64]) -> Result<Option<Step>, u8> {
    let before = words.to_vec();
    let mut theirs = before.clone();
    let said = numbered(bpl::step(bytes, words));
    let expected = enter_step(bytes, &mut theirs).map(|step| step.map(step_of));
    assert_eq!(said, expected, "step {bytes:?} {before:?}");
    assert_eq!(*words, theirs, "step {bytes:?} {before:?}");
    kept(said.is_err(), bytes, &before, words);
    said
}

pub fn run(bytes: &[u8], words: &mut [u64], step_limit: u32) -> Result<RunEnd, u8> {
    let before = words.to_vec();
    let mut theirs = before.clone();
    let said = numbered(bpl::run(bytes, words, step_limit));
    let expected = enter_run(bytes, &mut theirs, step_limit).map(end_of);
    assert_eq!(said, expected, "run {step_limit} {bytes:?} {before:?}");
    assert_eq!(*words, theirs, "run {step_limit} {bytes:?} {before:?}");
    kept(said.is_err(), bytes, &before, words);
    said
}

/// A conversion into a buffer of so many bytes; answers the plan written.
pub fn convert(bytes: &[u8], lent: usize) -> Result<Vec<u8>, u8> {
    let before: Vec<u8> = (0..lent).map(|i| 0xE0 | (i as u8 % 16)).collect();
    let (mut ours, mut theirs) = (before.clone(), before.clone());
    let said = numbered(bpl::convert(bytes, &mut ours));
    let expected = enter_convert(bytes, &mut theirs);
    assert_eq!(said, expected, "convert {lent} {bytes:?}");
    assert_eq!(ours, theirs, "convert {lent} {bytes:?}");
    let written = said.unwrap_or(0);
    assert_eq!(
        ours[written..],
        before[written..],
        "convert {lent} {bytes:?}"
    );
    said.map(|length| ours[..length].to_vec())
}

pub fn listing(bytes: &[u8], step_limit: u32) {
    let said = numbered(bpl::listing(bytes, step_limit));
    let expected = match enter_plan(bytes) {
        Ok(_) => Ok(listing::text(bytes, step_limit)),
        Err(number) => Err(number),
    };
    assert_eq!(said, expected, "listing {step_limit} {bytes:?}");
}
