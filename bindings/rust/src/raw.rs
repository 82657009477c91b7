//! The archive's own functions, as `include/bpl.h` declares and describes them. Prefer the safe ones above.
//!
//! # Safety
//!
//! Each pointer is valid for as many items as the length after it says, aligned and not null, for the whole call;
//! a buffer behind a `*mut` overlaps no other buffer of the call.

use crate::reads::Entry;

/// Words of `out` that a report, a step, a run, a listing, a play, a read, a popularity and a conversion write, and have
/// to be lent.
pub const REPORT_NUMBERS: usize = 4;
pub const STEP_NUMBERS: usize = 6;
pub const RUN_NUMBERS: usize = 2;
pub const LISTING_NUMBERS: usize = 1;
pub const PLAY_NUMBERS: usize = 7;
pub const READ_NUMBERS: usize = 1;
pub const POPULARITY_NUMBERS: usize = 1;
pub const CONVERT_NUMBERS: usize = 1;

/// Bytes of text that a listing has to be lent.
pub const LISTING_ROOM: usize = 65536;

/// The result for an `out` or a text that is too short.
pub const SHORT_BUFFER: u32 = 255;

extern "C" {
    pub fn bpl_plan(plan: *const u8, plan_len: usize) -> u32;

    pub fn bpl_counts(plan: *const u8, plan_len: usize, counts: *mut u8, counts_len: usize) -> u32;

    pub fn bpl_first(plan: *const u8, plan_len: usize, words: *mut u64, words_len: usize) -> u32;

    pub fn bpl_check(plan: *const u8, plan_len: usize, words: *const u64, words_len: usize) -> u32;

    pub fn bpl_report(
        plan: *const u8,
        plan_len: usize,
        words: *const u64,
        words_len: usize,
        out: *mut u64,
        out_len: usize,
    ) -> u32;

    pub fn bpl_step(
        plan: *const u8,
        plan_len: usize,
        words: *mut u64,
        words_len: usize,
        out: *mut u64,
        out_len: usize,
    ) -> u32;

    pub fn bpl_run(
        plan: *const u8,
        plan_len: usize,
        words: *mut u64,
        words_len: usize,
        step_limit: u32,
        out: *mut u64,
        out_len: usize,
    ) -> u32;

    pub fn bpl_listing(
        plan: *const u8,
        plan_len: usize,
        step_limit: u32,
        text: *mut u8,
        text_len: usize,
        out: *mut u64,
        out_len: usize,
    ) -> u32;

    pub fn bpl_play(
        plan: *const u8,
        plan_len: usize,
        other: *const u8,
        other_len: usize,
        words: *mut u64,
        words_len: usize,
        script: *const u64,
        script_len: usize,
        out: *mut u64,
        out_len: usize,
    ) -> u32;

    pub fn bpl_read(
        plan: *const u8,
        plan_len: usize,
        block: u32,
        tick: u32,
        list: *mut Entry,
        list_len: usize,
        count: u64,
        out: *mut u64,
        out_len: usize,
    ) -> u32;

    pub fn bpl_popularity(
        plan: *const u8,
        plan_len: usize,
        block: u32,
        list: *const Entry,
        list_len: usize,
        count: u64,
        out: *mut u64,
        out_len: usize,
    ) -> u32;

    pub fn bpl_convert(
        plan: *const u8,
        plan_len: usize,
        buffer: *mut u8,
        buffer_len: usize,
        out: *mut u64,
        out_len: usize,
    ) -> u32;
}
